//! The calls as a set, so that two implementations can stand side by side.

use kalebasin::{Member, MemberFields, Message, Played, Refusal, Report, Round, Slot, TreeCall, TreeKind, SLOTS};

/// The calls of one implementation. Each has the meaning of the function or method of `kalebasin` that is named with it.
#[allow(clippy::type_complexity)]
#[derive(Clone, Copy)]
pub struct Calls {
    /// Which implementation this is, for people.
    pub name: &'static str,
    /// `play`.
    pub play: fn(&[u8], &mut [u8], &mut [u64], &[usize; SLOTS], &mut [u8]) -> Result<Played, Refusal>,
    /// `read_message`.
    pub read_message: fn(&[u8]) -> Result<Message, Refusal>,
    /// `Message::write`.
    pub write_message: fn(&Message, &mut [u8]) -> Result<usize, Refusal>,
    /// `MemberRecord::fresh`; a record is its fields here and below.
    pub member_fresh: fn(Slot, Member, u32) -> Result<MemberFields, Refusal>,
    /// `MemberRecord::start`.
    pub member_start: fn(&mut MemberFields, Round, u64, &mut [u8]) -> Result<Report, Refusal>,
    /// `MemberRecord::deliver`.
    pub member_deliver: fn(&mut MemberFields, &[u8], &mut [u8]) -> Result<Report, Refusal>,
    /// `Tree::fresh`; a tree is its table here and below.
    pub tree_fresh: fn(&mut [u64]) -> Result<(), Refusal>,
    /// `ValueTree::add` or `CommandTree::add`.
    pub tree_add: fn(TreeKind, &mut [u64], Round, u64, Round) -> Result<u32, Refusal>,
    /// `ValueTree::preview` or `CommandTree::preview`.
    pub tree_preview: fn(TreeKind, &[u64], &mut [u64], Round, u64, Round) -> Result<u32, Refusal>,
    /// `ValueTree::commit` or `CommandTree::commit`.
    pub tree_commit: fn(TreeKind, &mut [u64], Round) -> Result<(), Refusal>,
    /// `ValueTree::path` or `CommandTree::path`.
    pub tree_path: fn(TreeKind, &[u64], Round, &mut [u64]) -> Result<usize, Refusal>,
}

impl Calls {
    /// Makes a call of a tree: how many rounds an add made GHOST or a preview would make so, or how many a path wrote; else 0. A path is
    /// written to `out`, and a preview's second table is `out`.
    pub fn tree_call(
        &self,
        kind: TreeKind,
        table: &mut [u64],
        call: TreeCall,
        out: &mut [u64],
    ) -> Result<usize, Refusal> {
        match call {
            TreeCall::Fresh => (self.tree_fresh)(table).map(|()| 0),
            TreeCall::Add { round, value, parent } => {
                (self.tree_add)(kind, table, round, value, parent).map(|ghosts| ghosts as usize)
            }
            TreeCall::Preview { round, value, parent } => {
                (self.tree_preview)(kind, table, out, round, value, parent).map(|ghosts| ghosts as usize)
            }
            TreeCall::Commit(round) => (self.tree_commit)(kind, table, round).map(|()| 0),
            TreeCall::Path(round) => (self.tree_path)(kind, table, round, out),
        }
    }
}
