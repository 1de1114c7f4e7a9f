//! The two kinds of trees, and lists of their calls.

use crate::notation::{self, Mistake};
use crate::Round;
use std::fmt;
use std::str::FromStr;

/// The kind of a tree: whether a node has the value of its parent.
#[derive(Clone, Copy, Debug, PartialEq, Eq, Hash)]
pub enum TreeKind {
    /// A tree of values, as play leaves one: a node has its parent's value, unless that is the root.
    Value,
    /// A tree of commands, each after a named earlier one: a node has any value.
    Command,
}

impl TreeKind {
    /// Both kinds.
    pub const ALL: [TreeKind; 2] = [TreeKind::Value, TreeKind::Command];

    /// The kind of this name: `value` or `command`.
    pub fn from_name(name: &str) -> Option<TreeKind> {
        TreeKind::ALL.into_iter().find(|kind| kind.to_string() == name)
    }
}

impl fmt::Display for TreeKind {
    fn fmt(&self, f: &mut fmt::Formatter) -> fmt::Result {
        f.pad(match self {
            TreeKind::Value => "value",
            TreeKind::Command => "command",
        })
    }
}

/// One call of a tree.
#[derive(Clone, Copy, Debug, PartialEq, Eq, Hash)]
pub enum TreeCall {
    /// Makes the table fresh.
    Fresh,
    /// Adds a round.
    Add {
        /// The round to add.
        round: Round,
        /// Its value.
        value: u64,
        /// The round that it is added below.
        parent: Round,
    },
    /// Shows what an add would do, in a second table.
    Preview {
        /// The round to add.
        round: Round,
        /// Its value.
        value: u64,
        /// The round that it would be added below.
        parent: Round,
    },
    /// Commits a round.
    Commit(Round),
    /// Asks for the path of a round.
    Path(Round),
}

impl fmt::Display for TreeCall {
    /// The rig's notation: `add(2,80,1)`, `preview(2,80,1)`, `commit(2)`, `path(2)` or `fresh`.
    fn fmt(&self, f: &mut fmt::Formatter) -> fmt::Result {
        match self {
            TreeCall::Fresh => write!(f, "fresh"),
            TreeCall::Add { round, value, parent } => write!(f, "add({round},{value},{parent})"),
            TreeCall::Preview { round, value, parent } => write!(f, "preview({round},{value},{parent})"),
            TreeCall::Commit(round) => write!(f, "commit({round})"),
            TreeCall::Path(round) => write!(f, "path({round})"),
        }
    }
}

/// A list of calls of a tree of one kind.
///
/// ```
/// use kalebasin::{Round, TreeCall, TreeCallList, TreeKind};
///
/// let mut list = TreeCallList::new(TreeKind::Command);
/// list.calls.push(TreeCall::Add { round: Round(1), value: 70, parent: Round::ROOT });
/// list.calls.push(TreeCall::Commit(Round(1)));
/// assert_eq!(list.to_string(), "kind=command add(1,70,0) commit(1)");
/// assert_eq!(list.to_string().parse(), Ok(list));
/// ```
#[derive(Clone, Debug, PartialEq, Eq, Hash)]
pub struct TreeCallList {
    /// The kind of the tree.
    pub kind: TreeKind,
    /// The calls in order.
    pub calls: Vec<TreeCall>,
}

impl TreeCallList {
    /// A list with no calls.
    pub fn new(kind: TreeKind) -> TreeCallList {
        TreeCallList { kind, calls: Vec::new() }
    }
}

impl fmt::Display for TreeCallList {
    /// The rig's notation: `kind=command add(1,70,0) commit(1)`.
    fn fmt(&self, f: &mut fmt::Formatter) -> fmt::Result {
        write!(f, "kind={}", self.kind)?;
        self.calls.iter().try_for_each(|call| write!(f, " {call}"))
    }
}

impl FromStr for TreeCallList {
    type Err = Mistake;

    /// The calls that the rig's [`notation`] says, of a tree of values where it has no `kind=`.
    fn from_str(text: &str) -> Result<TreeCallList, Mistake> {
        notation::parse_tree(text, None)
    }
}
