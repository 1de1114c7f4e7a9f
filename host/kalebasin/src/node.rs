//! The nodes of a table, as values.

use crate::Round;
use std::fmt;

/// The status of a node.
#[derive(Clone, Copy, Debug, PartialEq, Eq, Hash)]
pub enum Status {
    /// Added, and can still be committed.
    Added = 1,
    /// Struck out: it can't be committed.
    Ghost = 2,
    /// Committed; the root is.
    Committed = 3,
}

impl Status {
    /// The status that a table's word says; none for a free row or another word.
    pub fn from_word(word: u64) -> Option<Status> {
        [Status::Added, Status::Ghost, Status::Committed].into_iter().find(|status| *status as u64 == word)
    }
}

impl fmt::Display for Status {
    fn fmt(&self, f: &mut fmt::Formatter) -> fmt::Result {
        f.pad(match self {
            Status::Added => "ADDED",
            Status::Ghost => "GHOST",
            Status::Committed => "COMMITTED",
        })
    }
}

/// A row of a node table that isn't free.
#[derive(Clone, Copy, Debug, PartialEq, Eq, Hash)]
pub struct Node {
    /// The round; 0 for the root.
    pub round: Round,
    /// The round that it was added below; the root's is 0.
    pub parent: Round,
    /// The value; 0 for the root.
    pub value: u64,
    /// ADDED, GHOST or COMMITTED.
    pub status: Status,
}

/// The nodes of a tree in order of adding, the root first. A table that isn't a tree gives the rows before the first
/// that can't be a node.
///
/// ```
/// let table = [0, 0, 0, 3, 1, 0, 70, 1, 0, 0, 0, 0];
/// assert_eq!(kalebasin::nodes(&table).map(|node| node.value).collect::<Vec<_>>(), [0, 70]);
/// ```
pub fn nodes(table: &[u64]) -> impl Iterator<Item = Node> + '_ {
    table.chunks_exact(4).map_while(|row| {
        Some(Node {
            round: Round(u32::try_from(row[0]).ok()?),
            parent: Round(u32::try_from(row[1]).ok()?),
            value: row[2],
            status: Status::from_word(row[3])?,
        })
    })
}

/// The rounds that are ADDED in a table and GHOST in what adds and commits made of it, in order of adding. Of a copy from before an
/// add, and the table after it, these are the rounds that the add made GHOST, as many as it answers; of a table and the second one
/// of a preview those that the add would make GHOST.
///
/// Adds and commits leave each node in its row, so rows are compared with rows.
///
/// ```
/// use kalebasin::{made_ghost, Round};
///
/// let before = [0, 0, 0, 3, 1, 0, 70, 1, 0, 0, 0, 0];
/// let after = [0, 0, 0, 3, 1, 0, 70, 2, 2, 0, 80, 1];
/// assert_eq!(made_ghost(&before, &after).collect::<Vec<_>>(), [Round(1)]);
/// ```
pub fn made_ghost<'a>(before: &'a [u64], after: &'a [u64]) -> impl Iterator<Item = Round> + 'a {
    let rows = nodes(before).zip(nodes(after));
    rows.filter(|(was, is)| was.status == Status::Added && is.status == Status::Ghost).map(|(was, _)| was.round)
}
