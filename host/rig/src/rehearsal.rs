//! What the rehearsal program prints for the bytes of a list.

use crate::compare::{play, Lent};
use crate::Calls;
use kalebasin::{nodes, EventList, Refusal, Slot};
use std::fmt::Write;

/// The store rows that a rehearsal lends.
pub const REHEARSAL_STORE_ROWS: usize = 1_000;
/// The table rows that a rehearsal lends to each slot.
pub const REHEARSAL_TABLE_ROWS: usize = 64;

/// A line of answers, then a line for each node, slot after slot; or a line with the number of a refusal, and the refusal.
pub fn output(calls: &Calls, list: &[u8]) -> (String, Result<(), Refusal>) {
    let left = play(calls, list, &Lent::rows(REHEARSAL_STORE_ROWS, REHEARSAL_TABLE_ROWS, EventList::MOST));
    if let Err(refusal) = left.result {
        return (format!("{}\n", refusal.number()), Err(refusal));
    }
    let count = EventList::from_bytes(list).map_or(0, |list| list.events.len());
    let answers: Vec<String> = left.answers()[..count].iter().map(u8::to_string).collect();
    let mut out = answers.join(" ") + "\n";
    for node in Slot::ALL.iter().flat_map(|slot| nodes(left.table(*slot))) {
        let _ = writeln!(out, "{} {} {} {}", node.round, node.parent, node.value, node.status as u64);
    }
    (out, Ok(()))
}
