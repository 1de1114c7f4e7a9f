//! What play counts, and the sizes of the memory lent to it.

use crate::Message;

/// What an accepted play counted, over all slots. Play is accepted even if each of its events is refused. Later versions count
/// more.
#[derive(Clone, Copy, Debug, Default, PartialEq, Eq, Hash)]
#[non_exhaustive]
pub struct Played {
    /// Events with the answer 0.
    pub accepted: u32,
    /// Rows of the store that hold a message.
    pub messages: u32,
    /// Nodes of the trees beside their roots.
    pub proposals: u32,
    /// COMMITTED nodes beside the roots.
    pub decisions: u32,
    /// Rounds that were made GHOST, each by a later proposal of its slot; a node that was GHOST from the first isn't among them.
    /// Such a node has a higher round in a row above, and no other GHOST node of its slot's table, as it is left, has.
    pub ghosts: u32,
}

/// The bytes of a row of the store, which all slots share.
pub const STORE_ROW: usize = Message::LONGEST;
/// The most rows of a store.
pub const STORE_ROWS: usize = 2_000;
/// The words of a row of a table.
pub const TABLE_ROW: usize = 4;
/// The most rows of a table, the root's among them.
pub const TABLE_ROWS: usize = 256;
