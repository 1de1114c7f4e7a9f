//! Trees in words that are lent or owned, a type for each kind.
//!
//! A [`ValueTree`] is the tree that play leaves: a node has its parent's value, unless that is the root. In a [`CommandTree`] a node
//! has any value: each command follows a named earlier one. Both are the same table and have the same calls; only a value tree's `add`
//! checks the value (7), and so there are tables that are command trees and no value trees.
//!
//! `T` is what holds the words, four a row: `&mut [u64]`, `Vec<u64>`, `[u64; 256]`; `&[u64]` is enough to read. An array that is handed
//! over is copied: where the words themselves are to change, they are lent, as `&mut words` is.
//!
//! ```
//! use kalebasin::{CommandTree, Refusal, Round, ValueTree};
//!
//! let mut words = [0; 16];
//! let mut edits = CommandTree::fresh(&mut words)?;
//! edits.add(Round(1), 70, Round::ROOT)?;
//! assert_eq!(edits.add(Round(2), 80, Round(1)), Ok(0)); // it makes no round GHOST
//! let mut path = [0; 4];
//! assert_eq!(edits.path(Round(2), &mut path), Ok(3));
//! assert_eq!(path[..3], [0, 1, 2]);
//! assert_eq!(edits.nodes().map(|node| node.value).collect::<Vec<_>>(), [0, 70, 80]);
//!
//! let mut values = ValueTree::fresh(vec![0; 16])?;
//! values.add(Round(1), 70, Round::ROOT)?;
//! assert_eq!(values.add(Round(2), 80, Round(1)), Err(Refusal::ValueDiffers));
//! values.commit(Round(1))?;
//! # Ok::<(), Refusal>(())
//! ```
//!
//! A tree of one kind isn't taken for one of the other:
//!
//! ```compile_fail,E0308
//! use kalebasin::{CommandTree, ValueTree};
//!
//! fn decided(tree: ValueTree<&[u64]>) {}
//! let words = [0, 0, 0, 3];
//! decided(CommandTree::from_table(&words[..]));
//! ```
//!
//! Every value tree is a command tree, which is proved, so it can be made into one; there is no way back:
//!
//! ```
//! use kalebasin::{CommandTree, Refusal, Round, ValueTree};
//!
//! let mut values = ValueTree::fresh(vec![0; 16])?;
//! values.add(Round(1), 70, Round::ROOT)?;
//! let mut edits = CommandTree::from(values);
//! edits.add(Round(2), 80, Round(1))?;
//! assert_eq!(ValueTree::from_table(edits.table()).path(Round(2), &mut [0; 4]), Err(Refusal::NotATree));
//! # Ok::<(), Refusal>(())
//! ```
//!
//! ```compile_fail,E0308
//! use kalebasin::{CommandTree, ValueTree};
//!
//! let words = [0, 0, 0, 3];
//! ValueTree::from(CommandTree::from_table(&words[..]));
//! ```

use crate::ffi;
use crate::proved::{accepted, compare_versions};
use crate::{made_ghost, nodes, Node, Refusal, Round};
use std::marker::PhantomData;

/// A tree of values: a node has its parent's, unless that is the root. Its calls are those of [`Tree`].
pub type ValueTree<T> = Tree<Value, T>;
/// A tree of commands, each after a named earlier one: a node has any value. Its calls are those of [`Tree`].
pub type CommandTree<T> = Tree<Command, T>;

/// A tree of the kind `K` in the words of `T`. See [the module](self).
#[derive(Clone, Debug, PartialEq, Eq, Hash)]
pub struct Tree<K, T> {
    table: T,
    kind: PhantomData<K>,
}

/// The kind of a [`ValueTree`].
#[derive(Clone, Copy, Debug, PartialEq, Eq, Hash)]
pub enum Value {}

/// The kind of a [`CommandTree`].
#[derive(Clone, Copy, Debug, PartialEq, Eq, Hash)]
pub enum Command {}

/// [`Value`] or [`Command`]; no other type is one.
pub trait Kind: sealed::Functions {}

impl Kind for Value {}
impl Kind for Command {}

mod sealed {
    use super::{ffi, Command, Value};

    type Add = unsafe extern "C" fn(table: *mut u64, len: usize, round: u32, value: u64, parent: u32) -> ffi::AddResult;
    type Preview = unsafe extern "C" fn(
        table: *const u64,
        len: usize,
        second: *mut u64,
        second_len: usize,
        round: u32,
        value: u64,
        parent: u32,
    ) -> ffi::AddResult;
    type Commit = unsafe extern "C" fn(table: *mut u64, len: usize, round: u32) -> u32;
    type Path = unsafe extern "C" fn(
        table: *const u64,
        len: usize,
        round: u32,
        out: *mut u64,
        out_len: usize,
    ) -> ffi::PathResult;

    /// The C functions of a kind.
    pub trait Functions {
        const ADD: Add;
        const PREVIEW: Preview;
        const COMMIT: Commit;
        const PATH: Path;
    }

    impl Functions for Value {
        const ADD: Add = ffi::kalebasin_tree_add;
        const PREVIEW: Preview = ffi::kalebasin_tree_preview;
        const COMMIT: Commit = ffi::kalebasin_tree_commit;
        const PATH: Path = ffi::kalebasin_tree_path;
    }

    impl Functions for Command {
        const ADD: Add = ffi::kalebasin_command_add;
        const PREVIEW: Preview = ffi::kalebasin_command_preview;
        const COMMIT: Commit = ffi::kalebasin_command_commit;
        const PATH: Path = ffi::kalebasin_command_path;
    }
}

impl<K: Kind, T> Tree<K, T> {
    /// The tree in this table, whatever it holds. Each call checks it: one that no calls of this kind can leave gets 1 or 2.
    ///
    /// ```
    /// use kalebasin::{CommandTree, Refusal, Round};
    ///
    /// let mut tree = CommandTree::from_table([0; 8]);
    /// assert_eq!(tree.commit(Round(1)), Err(Refusal::NotATree));
    /// ```
    pub fn from_table(table: T) -> Tree<K, T> {
        Tree { table, kind: PhantomData }
    }

    /// What holds the words.
    pub fn into_table(self) -> T {
        self.table
    }
}

impl<K: Kind, T: AsMut<[u64]>> Tree<K, T> {
    /// Makes a table fresh: the root in the first row, all else free. What it held before doesn't matter. Words that are owned are
    /// dropped where they are refused.
    ///
    /// # Errors
    /// 1.
    pub fn fresh(mut table: T) -> Result<Tree<K, T>, Refusal> {
        compare_versions();
        let words = table.as_mut();
        // SAFETY: pointer and length come from one exclusive slice.
        accepted(unsafe { ffi::kalebasin_tree_fresh(words.as_mut_ptr(), words.len()) })?;
        Ok(Tree::from_table(table))
    }

    /// Adds a round with its value below its parent, and returns how many rounds that makes GHOST: those that were ADDED before and are
    /// GHOST after. The new round isn't among them, though it may be GHOST itself. Which rounds they are, [`made_ghost`] tells of a copy of
    /// the table from before, and [`would_make_ghost`](Tree::would_make_ghost) before the add is done.
    ///
    /// ```
    /// use kalebasin::{made_ghost, Refusal, Round, Status, ValueTree};
    ///
    /// let mut tree = ValueTree::fresh(vec![0; 20])?;
    /// assert_eq!(tree.add(Round(1), 70, Round::ROOT), Ok(0));
    /// assert_eq!(tree.add(Round(2), 70, Round(1)), Ok(0));
    /// let before = tree.clone();
    /// assert_eq!(tree.add(Round(4), 80, Round::ROOT), Ok(2)); // its edge crosses rounds 1 and 2
    /// let rounds: Vec<Round> = made_ghost(before.table(), tree.table()).collect();
    /// assert_eq!(rounds, [Round(1), Round(2)]);
    ///
    /// assert_eq!(tree.add(Round(3), 70, Round(2)), Ok(0));
    /// assert_eq!(tree.nodes().last().map(|node| node.status), Some(Status::Ghost)); // from the first: round 4 was there
    /// # Ok::<(), Refusal>(())
    /// ```
    ///
    /// # Errors
    /// 1 to 9, checked in that order; a command tree's has no 7.
    pub fn add(&mut self, round: Round, value: u64, parent: Round) -> Result<u32, Refusal> {
        compare_versions();
        let words = self.table.as_mut();
        // SAFETY: pointer and length come from one exclusive slice.
        let result = unsafe { K::ADD(words.as_mut_ptr(), words.len(), round.0, value, parent.0) };
        accepted(result.number)?;
        Ok(result.ghosts)
    }

    /// Commits an ADDED round.
    ///
    /// # Errors
    /// 1, 2, 3, 10, 11 or 12, checked in that order.
    pub fn commit(&mut self, round: Round) -> Result<(), Refusal> {
        compare_versions();
        let words = self.table.as_mut();
        // SAFETY: pointer and length come from one exclusive slice.
        accepted(unsafe { K::COMMIT(words.as_mut_ptr(), words.len(), round.0) })
    }
}

impl<K: Kind, T: AsRef<[u64]>> Tree<K, T> {
    /// Makes `second` what [`add`](Tree::add) would make of this tree's table, which stays as it is, and returns what add would: how many
    /// rounds it would make GHOST. `second` is as long as the table and may hold anything; where the preview is refused, it stays as well.
    /// Which rounds they are, [`made_ghost(tree.table(), &second)`](made_ghost) then tells.
    ///
    /// ```
    /// use kalebasin::{made_ghost, Refusal, Round, ValueTree};
    ///
    /// let mut tree = ValueTree::fresh(vec![0; 16])?;
    /// tree.add(Round(1), 70, Round::ROOT)?;
    /// let (before, mut second) = (tree.clone(), vec![u64::MAX; 16]);
    /// assert_eq!(tree.preview(&mut second, Round(2), 80, Round::ROOT), Ok(1));
    /// assert!(made_ghost(tree.table(), &second).eq([Round(1)]));
    /// assert_eq!(tree, before);
    /// tree.add(Round(2), 80, Round::ROOT)?;
    /// assert_eq!(tree.table(), second);
    /// assert_eq!(tree.preview(&mut [0; 12], Round(3), 80, Round(2)), Err(Refusal::LengthsDiffer));
    /// # Ok::<(), Refusal>(())
    /// ```
    ///
    /// # Errors
    /// 1, 31, then 2 to 9 as add has them; 1 and 2 are of this tree's table alone.
    pub fn preview(&self, second: &mut [u64], round: Round, value: u64, parent: Round) -> Result<u32, Refusal> {
        compare_versions();
        let words = self.table();
        // SAFETY: each pointer and length come from one slice; the mutable one is exclusive.
        let result = unsafe {
            K::PREVIEW(words.as_ptr(), words.len(), second.as_mut_ptr(), second.len(), round.0, value, parent.0)
        };
        accepted(result.number)?;
        Ok(result.ghosts)
    }

    /// The rounds that [`add`](Tree::add) would make GHOST, in order of adding. It allocates a second table for its
    /// [`preview`](Tree::preview).
    ///
    /// ```
    /// use kalebasin::{CommandTree, Refusal, Round};
    ///
    /// let mut tree = CommandTree::fresh(vec![0; 16])?;
    /// tree.add(Round(1), 70, Round::ROOT)?;
    /// tree.add(Round(2), 80, Round(1))?;
    /// assert_eq!(tree.would_make_ghost(Round(3), 90, Round(1))?, [Round(2)]);
    /// assert_eq!(tree.would_make_ghost(Round(3), 90, Round(2))?, []);
    /// assert_eq!(tree.would_make_ghost(Round(2), 90, Round(1)), Err(Refusal::RoundPresent));
    /// # Ok::<(), Refusal>(())
    /// ```
    ///
    /// # Errors
    /// As add.
    pub fn would_make_ghost(&self, round: Round, value: u64, parent: Round) -> Result<Vec<Round>, Refusal> {
        let mut after = vec![0; self.table().len()];
        self.preview(&mut after, round, value, parent)?;
        Ok(made_ghost(self.table(), &after).collect())
    }

    /// Writes the rounds from the root to this one to the front of `out` and returns how many; words behind them stay.
    ///
    /// # Errors
    /// 1, 2, 3 (not for round 0), 10 or 13, checked in that order.
    pub fn path(&self, round: Round, out: &mut [u64]) -> Result<usize, Refusal> {
        compare_versions();
        let words = self.table();
        // SAFETY: each pointer and length come from one slice; the mutable one is exclusive.
        let result = unsafe { K::PATH(words.as_ptr(), words.len(), round.0, out.as_mut_ptr(), out.len()) };
        accepted(result.number)?;
        Ok(result.count as usize)
    }

    /// The words.
    pub fn table(&self) -> &[u64] {
        self.table.as_ref()
    }

    /// The nodes in order of adding, the root first, as [`nodes`](crate::nodes()) gives them.
    pub fn nodes(&self) -> impl Iterator<Item = Node> + '_ {
        nodes(self.table())
    }
}

impl<T> From<ValueTree<T>> for CommandTree<T> {
    /// The same table: every value tree is a command tree.
    fn from(tree: ValueTree<T>) -> CommandTree<T> {
        Tree::from_table(tree.table)
    }
}
