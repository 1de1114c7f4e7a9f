//! Two implementations side by side, lent memory included: every byte that was lent and some on both sides of it.

use crate::explain::in_slot;
use crate::generate::Case;
use crate::random::Random;
use crate::Calls;
use kalebasin::{Played, Refusal, Slot, SLOTS, STORE_ROW, TABLE_ROW};

/// What is lent to play: the lengths of store, tables and answers, and a seed for what they hold before.
#[derive(Clone, Copy, Debug, PartialEq, Eq, Hash)]
pub struct Lent {
    /// Bytes.
    pub store: usize,
    /// Words of each slot's table, as play is told.
    pub tables: [usize; SLOTS],
    /// How many words more are lent than these say, or, below 0, how many fewer.
    pub misfit: isize,
    /// Bytes.
    pub answers: usize,
    /// 0 for zeros, else any numbers.
    pub dirt: u64,
}

impl Lent {
    /// So many whole rows, of each slot's table, and just enough answers, all zeros.
    pub fn rows(store: usize, table: usize, answers: usize) -> Lent {
        let tables = [table.saturating_mul(TABLE_ROW); SLOTS];
        Lent { store: store.saturating_mul(STORE_ROW), tables, misfit: 0, answers, dirt: 0 }
    }

    /// The whole rows of the store and of each slot's table.
    pub fn whole_rows(&self) -> (usize, [usize; SLOTS]) {
        (self.store / STORE_ROW, self.tables.map(|words| words / TABLE_ROW))
    }

    /// The words lent for all tables.
    pub fn words(&self) -> usize {
        sum(&self.tables).saturating_add_signed(self.misfit)
    }
}

fn sum(lengths: &[usize]) -> usize {
    lengths.iter().fold(0, |sum: usize, length| sum.saturating_add(*length))
}

/// How much is looked at on each side of what is lent.
const GUARD: usize = 8;

/// What a play left: its result, and the memory with the guards on both sides.
#[derive(Clone, Debug, PartialEq, Eq)]
pub struct Left {
    /// What play returned.
    pub result: Result<Played, Refusal>,
    store: Vec<u8>,
    words: Vec<u64>,
    /// The words of each slot's table.
    tables: [usize; SLOTS],
    answers: Vec<u8>,
}

impl Left {
    /// The store.
    pub fn store(&self) -> &[u8] {
        within(&self.store)
    }

    /// The words of all tables.
    pub fn words(&self) -> &[u64] {
        within(&self.words)
    }

    /// The table of a slot; empty where the words lent end before it does, and above 7.
    pub fn table(&self, slot: Slot) -> &[u64] {
        let slot = slot.0 as usize;
        let Some(length) = self.tables.get(slot) else { return &[] };
        let behind = self.words().get(sum(&self.tables[..slot])..);
        behind.and_then(|behind| behind.get(..*length)).unwrap_or_default()
    }

    /// The answers, and bytes lent behind them.
    pub fn answers(&self) -> &[u8] {
        within(&self.answers)
    }
}

fn within<T>(memory: &[T]) -> &[T] {
    &memory[GUARD..memory.len() - GUARD]
}

fn within_mut<T>(memory: &mut [T]) -> &mut [T] {
    let end = memory.len() - GUARD;
    &mut memory[GUARD..end]
}

/// Memory of this length with a guard on both sides, dirty if asked for.
///
/// # Panics
/// Where there isn't so much memory; the program may also end.
pub fn memory(length: usize, dirt: u64) -> Vec<u64> {
    let mut random = Random::new(dirt);
    (0..length + 2 * GUARD).map(|_| if dirt == 0 { 0 } else { random.number() }).collect()
}

fn bytes(length: usize, dirt: u64) -> Vec<u8> {
    if dirt == 0 {
        return vec![0; length + 2 * GUARD];
    }
    let mut random = Random::new(dirt);
    let words = (length + 2 * GUARD).div_ceil(8);
    let mut bytes: Vec<u8> = (0..words).flat_map(|_| random.number().to_ne_bytes()).collect();
    bytes.truncate(length + 2 * GUARD);
    bytes
}

/// Runs a list's bytes on lent memory.
///
/// # Panics
/// As [`memory`] does.
pub fn play(calls: &Calls, list: &[u8], lent: &Lent) -> Left {
    let mut left = Left {
        result: Ok(Played::default()),
        store: bytes(lent.store, lent.dirt),
        words: memory(lent.words(), lent.dirt),
        tables: lent.tables,
        answers: bytes(lent.answers, lent.dirt),
    };
    let (store, words) = (within_mut(&mut left.store), within_mut(&mut left.words));
    left.result = (calls.play)(list, store, words, &lent.tables, within_mut(&mut left.answers));
    left
}

/// Where two plays of the same list on memory of the same lengths differ, in words.
///
/// # Panics
/// May, where the lengths differ.
pub fn difference(names: [&str; 2], left: [&Left; 2]) -> Option<String> {
    let [a, b] = left;
    if a == b {
        return None;
    }
    if a.result != b.result {
        return Some(format!("{} returns {:?}, {} returns {:?}", names[0], a.result, names[1], b.result));
    }
    first_difference(&|at| format!("answer {at}"), names, &a.answers, &b.answers)
        .or_else(|| first_difference(&|at| format!("store byte {at}"), names, &a.store, &b.store))
        .or_else(|| first_difference(&|at| table_word(at, &a.tables), names, &a.words, &b.words))
}

fn first_difference<T: PartialEq + std::fmt::Display>(
    what: &dyn Fn(isize) -> String,
    names: [&str; 2],
    a: &[T],
    b: &[T],
) -> Option<String> {
    let at = (0..a.len()).find(|at| a[*at] != b[*at])?;
    let place = what(at as isize - GUARD as isize);
    Some(format!("{place} is {} by {} and {} by {}", a[at], names[0], b[at], names[1]))
}

/// A word of the tables by its slot, named where it isn't 0, and its place there. Words on both sides of what is lent go by the
/// nearest slot.
fn table_word(at: isize, tables: &[usize; SLOTS]) -> String {
    let (mut slot, mut place) = (0, at);
    while slot + 1 < SLOTS && place >= tables[slot] as isize {
        place -= tables[slot] as isize;
        slot += 1;
    }
    format!("table word {place}{}", in_slot(Slot(slot as u32)))
}

/// Runs a case on two implementations; where they differ, in words.
///
/// # Panics
/// As [`memory`] does.
pub fn compare(calls: [&Calls; 2], case: &Case) -> Option<String> {
    compare_bytes(calls, &case.list.to_bytes(), &case.lent)
}

/// Runs a list's bytes on two implementations; where they differ, in words.
///
/// # Panics
/// As [`memory`] does.
pub fn compare_bytes(calls: [&Calls; 2], list: &[u8], lent: &Lent) -> Option<String> {
    let left = calls.map(|calls| play(calls, list, lent));
    difference(calls.map(|calls| calls.name), [&left[0], &left[1]])
}
