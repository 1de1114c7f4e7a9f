//! The tables of the eight slots, together.

use crate::{Slot, SLOTS, TABLE_ROW};

/// The tables of the eight slots, which may differ in length: the words of all, one after another in slot order, and how many of
/// them each has. `Tables::play` runs a list in them, and [`Tables::slot`] has the table that it left in a slot.
///
/// ```
/// use kalebasin::{nodes, Slot, Tables, TABLE_ROW};
///
/// let tables = Tables::new([64, 64, 8, 1, 1, 1, 1, 1]);
/// assert_eq!(tables.slot(Slot(2)), [0; 8 * TABLE_ROW]);
/// assert_eq!(nodes(tables.slot(Slot(2))).count(), 0); // play puts the root there
/// assert_eq!(tables.slot(Slot(8)), []);
/// ```
#[derive(Clone, Debug, PartialEq, Eq, Hash)]
pub struct Tables {
    words: Vec<u64>,
    lengths: [usize; SLOTS],
}

impl Tables {
    /// Tables of so many rows each, all zeros. Play takes 1 to 256 rows in each slot and refuses others with 1.
    ///
    /// # Panics
    /// Where there isn't so much memory.
    pub fn new(rows: [usize; SLOTS]) -> Tables {
        let lengths = rows.map(|rows| rows.saturating_mul(TABLE_ROW));
        let words = lengths.iter().fold(0, |sum: usize, length| sum.saturating_add(*length));
        Tables { words: vec![0; words], lengths }
    }

    /// The table of a slot; no words for a slot above 7.
    pub fn slot(&self, slot: Slot) -> &[u64] {
        if !slot.in_range() {
            return &[];
        }
        let slot = slot.0 as usize;
        let front: usize = self.lengths[..slot].iter().sum();
        &self.words[front..front + self.lengths[slot]]
    }

    /// Each slot and its table, in slot order.
    pub fn iter(&self) -> impl Iterator<Item = (Slot, &[u64])> {
        Slot::ALL.into_iter().map(|slot| (slot, self.slot(slot)))
    }

    /// The words of all tables, one after another in slot order.
    pub fn words(&self) -> &[u64] {
        &self.words
    }

    /// How many of the words each table has.
    pub fn lengths(&self) -> &[usize; SLOTS] {
        &self.lengths
    }

    /// Both, to lend the words.
    #[cfg(feature = "core")]
    pub(crate) fn lent(&mut self) -> (&mut [u64], &[usize; SLOTS]) {
        (&mut self.words, &self.lengths)
    }
}
