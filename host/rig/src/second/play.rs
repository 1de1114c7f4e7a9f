//! Play: a list of events over a whole office, slot by slot.

use super::member::{self, Proposal, Record, Step};
use super::message::{double, word};
use super::tree;
use kalebasin::{EventList, Member, Played, Refusal, Round, Slot, TreeKind, SLOTS, STORE_ROW, STORE_ROWS};
use std::mem;

const HEAD: usize = 8;
const START: u32 = 1;
const DELIVER: u32 = 2;

/// How play enters proposals and decisions into a table.
pub struct TreeSteps {
    /// The add that a proposal names, given how many nodes there are: the number of rounds made GHOST.
    pub add: fn(&mut [u64], usize, Proposal) -> Result<u32, Refusal>,
    /// commit, given the round.
    pub commit: fn(&mut [u64], u64) -> Result<(), Refusal>,
}

/// The machine's own, which find out how many nodes there are.
const MACHINE: TreeSteps = TreeSteps {
    add: |table, _, made| {
        tree::machine_add(TreeKind::Value, table, made.round.0.into(), made.value, made.parent.0.into())
    },
    commit: tree::machine_commit,
};

/// Runs the list, with the messages in the store, the trees in the tables and one answer byte for each event. The tables
/// stand in the words one after another, in slot order, and each is as long as its length says.
pub fn play(
    list: &[u8],
    store: &mut [u8],
    words: &mut [u64],
    lengths: &[usize; SLOTS],
    answers: &mut [u8],
) -> Result<Played, Refusal> {
    play_by(&MACHINE, list, store, words, lengths, answers)
}

/// The same with other steps of the tree.
pub fn play_by(
    steps: &TreeSteps,
    list: &[u8],
    store: &mut [u8],
    words: &mut [u64],
    lengths: &[usize; SLOTS],
    answers: &mut [u8],
) -> Result<Played, Refusal> {
    let count = check_list(list)?;
    let n = word(list, 0);
    if !member::size_allowed(n) {
        return Err(Refusal::OfficeSize);
    }
    let whole_rows = store.len() % STORE_ROW == 0 && (1..=STORE_ROWS).contains(&(store.len() / STORE_ROW));
    if !whole_rows || answers.len() < count {
        return Err(Refusal::StoreOrAnswers);
    }
    let mut tables = split(words, lengths)?;
    tables.iter().try_for_each(|table| tree::check_length(table))?;
    tables.iter_mut().try_for_each(|table| tree::fresh(table))?;
    store.fill(0);

    let mut office = Office::new(n, store, tables, steps);
    let mut rest = &list[HEAD..];
    for answer in &mut answers[..count] {
        let length = event_length(rest).expect("the list was checked");
        *answer = match office.event(&rest[..length]) {
            Ok(()) => {
                office.played.accepted += 1;
                0
            }
            Err(refusal) => refusal.number() as u8,
        };
        rest = &rest[length..];
    }
    Ok(office.played)
}

/// The tables, in slot order, if their lengths fill the words exactly.
pub fn split<'a>(mut words: &'a mut [u64], lengths: &[usize; SLOTS]) -> Result<[&'a mut [u64]; SLOTS], Refusal> {
    let mut tables: [&mut [u64]; SLOTS] = Default::default();
    for (table, length) in tables.iter_mut().zip(lengths) {
        (*table, words) = mem::take(&mut words).split_at_mut_checked(*length).ok_or(Refusal::TableLength)?;
    }
    if words.is_empty() {
        Ok(tables)
    } else {
        Err(Refusal::TableLength)
    }
}

/// The event count, if bytes, count and kinds match exactly.
fn check_list(list: &[u8]) -> Result<usize, Refusal> {
    if list.len() < HEAD {
        return Err(Refusal::ListShape);
    }
    let count = word(list, 4) as usize;
    if count > EventList::MOST {
        return Err(Refusal::ListShape);
    }
    let mut rest = &list[HEAD..];
    for _ in 0..count {
        match event_length(rest) {
            Some(length) if length <= rest.len() => rest = &rest[length..],
            _ => return Err(Refusal::ListShape),
        }
    }
    if rest.is_empty() {
        Ok(count)
    } else {
        Err(Refusal::ListShape)
    }
}

/// The length of the event at the front, by its kind.
fn event_length(rest: &[u8]) -> Option<usize> {
    if rest.len() < 4 {
        return None;
    }
    match word(rest, 0) {
        START => Some(24),
        DELIVER => Some(16),
        _ => None,
    }
}

/// The slots, and what all their members have sent.
struct Office<'a> {
    n: u32,
    slots: [OfSlot<'a>; SLOTS],
    store: &'a mut [u8],
    /// The length of each message sent.
    lengths: [u8; EventList::MOST],
    steps: &'a TreeSteps,
    played: Played,
}

/// The members of a slot, and its tree.
struct OfSlot<'a> {
    members: [Record; 7],
    table: &'a mut [u64],
    /// How many nodes the tree has.
    nodes: usize,
}

impl<'a> Office<'a> {
    fn new(n: u32, store: &'a mut [u8], tables: [&'a mut [u64]; SLOTS], steps: &'a TreeSteps) -> Office<'a> {
        let mut tables = tables.into_iter();
        let slots = Slot::ALL.map(|slot| {
            // Places from n on hold a member that no event names.
            let fresh = |number| member::fresh(slot, Member(if number < n { number } else { 0 }), n);
            let members = [0, 1, 2, 3, 4, 5, 6].map(|number| fresh(number).expect("n is allowed"));
            OfSlot { members, table: tables.next().expect("each slot has a table"), nodes: 1 }
        });
        Office { n, slots, store, lengths: [0; EventList::MOST], steps, played: Played::default() }
    }

    /// Takes one event, or changes nothing.
    fn event(&mut self, event: &[u8]) -> Result<(), Refusal> {
        let slot = Slot(word(event, 4));
        let mut reply = [0; STORE_ROW];
        match word(event, 0) {
            START => {
                let mut record = self.member(slot, word(event, 8))?;
                let (sent, step) = member::start(&mut record, &mut reply, Round(word(event, 12)), double(event, 16))?;
                self.enter(record, sent, &reply, &step)
            }
            _ => {
                let mut record = self.member(slot, word(event, 12))?;
                let message = self.message(word(event, 8))?;
                let (sent, step) = member::deliver(&mut record, &mut reply, message)?;
                self.enter(record, sent, &reply, &step)
            }
        }
    }

    /// A copy of the record of a slot's member.
    fn member(&self, slot: Slot, number: u32) -> Result<Record, Refusal> {
        let of_slot = self.slots.get(slot.0 as usize).ok_or(Refusal::WrongSlot)?;
        if number < self.n {
            Ok(of_slot.members[number as usize])
        } else {
            Err(Refusal::NoMemberOrMessage)
        }
    }

    /// The bytes of a message sent earlier, in whatever slot.
    fn message(&self, number: u32) -> Result<&[u8], Refusal> {
        if number < self.played.messages {
            let number = number as usize;
            Ok(&self.store[number * STORE_ROW..][..usize::from(self.lengths[number])])
        } else {
            Err(Refusal::NoMemberOrMessage)
        }
    }

    /// Enters a step into the slot's members and tree and into the store, if there is room for it.
    fn enter(&mut self, record: Record, sent: usize, reply: &[u8], step: &Step) -> Result<(), Refusal> {
        let row = self.played.messages as usize;
        if sent > 0 && row * STORE_ROW == self.store.len() {
            return Err(Refusal::StoreFull);
        }
        let of_slot = &mut self.slots[record.slot.0 as usize];
        if let Some(proposal) = step.proposal {
            self.played.ghosts += (self.steps.add)(of_slot.table, of_slot.nodes, proposal)?;
            self.played.proposals += 1;
            of_slot.nodes += 1;
        }
        if let Some(decision) = step.decision {
            (self.steps.commit)(of_slot.table, decision.round.0.into())?;
            self.played.decisions += 1;
        }
        of_slot.members[record.number.0 as usize] = record;
        if sent > 0 {
            self.store[row * STORE_ROW..][..STORE_ROW].copy_from_slice(reply);
            self.lengths[row] = sent as u8;
            self.played.messages += 1;
        }
        Ok(())
    }
}
