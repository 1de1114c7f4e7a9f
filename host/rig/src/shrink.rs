//! Makes a case smaller for as long as it still fails.

use crate::compare::Lent;
use crate::generate::{self, Case};
use crate::random::Random;
use crate::second::model::Model;
use kalebasin::{Event, EventList, MessageNumber, Round, Slot, SLOTS, STORE_ROW, TABLE_ROW};
use std::collections::BTreeSet;

/// How many short lists are tried for one that fails too.
const TRIES: usize = 20_000;

/// The shortest case found that fails, from one that does: shrunk, and then random lists of three members that are
/// shorter still.
pub fn shortest(case: Case, fails: &mut dyn FnMut(&Case) -> bool) -> Case {
    let mut case = shrink(case, fails);
    let mut random = Random::new(1);
    let mut tries = 0;
    while tries < TRIES && case.list.events.len() > 1 {
        tries += 1;
        let other = shorter(&case, &mut random);
        if fails(&other) {
            case = shrink(other, fails);
            tries = 0;
        }
    }
    case
}

/// A random list of three members with fewer events, and clean memory with as many rows, or in half of the cases with
/// fewer, so that it fills sooner.
fn shorter(case: &Case, random: &mut Random) -> Case {
    let events = random.between(1, case.list.events.len() - 1);
    let mut lent = Lent { answers: events, dirt: 0, ..case.lent };
    if random.chance(50) {
        lent.store = random.between(1, (lent.store / STORE_ROW).clamp(1, events + 1)) * STORE_ROW;
        lent.tables = lent.tables.map(|words| random.between(1, (words / TABLE_ROW).clamp(1, 4)) * TABLE_ROW);
    }
    let table_rows = lent.tables.map(|words| words.div_ceil(TABLE_ROW).max(1));
    let list = generate::list(random, 3, events, lent.store.div_ceil(STORE_ROW), table_rows);
    Case { list: list.expect("3 members are an office"), lent }
}

/// The smallest case found that still fails, from one that does: with fewer events, then smaller numbers and less
/// memory.
pub fn shrink(mut case: Case, fails: &mut dyn FnMut(&Case) -> bool) -> Case {
    loop {
        let before = case.clone();
        case = fewer_events(case, fails);
        case = smaller_numbers(case, fails);
        case = less_memory(case, fails);
        if case == before {
            return case;
        }
    }
}

/// Takes out stretches of events, long ones first.
fn fewer_events(mut case: Case, fails: &mut dyn FnMut(&Case) -> bool) -> Case {
    let mut length = case.list.events.len();
    while length > 0 {
        let mut at = 0;
        while at + length <= case.list.events.len() {
            match without(&case, at, length).into_iter().find(|smaller| fails(smaller)) {
                Some(smaller) => case = smaller,
                None => at += length,
            }
        }
        length /= 2;
    }
    case
}

/// The case without a stretch of events: with messages renumbered and deliveries of lost ones left out, and as it is.
fn without(case: &Case, at: usize, length: usize) -> Vec<Case> {
    let mut lists: Vec<EventList> = renumbered(case, at, length).into_iter().collect();
    let mut plain = case.list.clone();
    plain.events.drain(at..at + length);
    lists.push(plain);
    lists.into_iter().map(|list| with_list(case, list)).collect()
}

/// The same memory behind the answers that are needed.
fn with_list(case: &Case, list: EventList) -> Case {
    let mut lent = case.lent;
    lent.answers = (lent.answers + list.events.len()).saturating_sub(case.list.events.len());
    Case { list, lent }
}

/// Leaves out a stretch, and what delivers a message of an event left out; the other messages keep their meaning. None
/// where play has no such office.
fn renumbered(case: &Case, at: usize, length: usize) -> Option<EventList> {
    let (store_rows, table_rows) = case.lent.whole_rows();
    let mut model = Model::new(case.list.n, store_rows, table_rows.map(|rows| rows.max(1))).ok()?;
    let mut new_numbers: Vec<Option<u32>> = Vec::new();
    let mut list = EventList::new(case.list.n);
    let mut kept = 0;
    for (place, event) in case.list.events.iter().enumerate() {
        let sends = model.take(event).is_ok_and(|step| step.sent.is_some());
        let moved = if (at..at + length).contains(&place) { None } else { moved(event, &new_numbers) };
        if sends {
            new_numbers.push(moved.map(|_| kept));
            kept += u32::from(moved.is_some());
        }
        list.events.extend(moved);
    }
    Some(list)
}

/// The event with its message's new number; none if the message is gone.
fn moved(event: &Event, new_numbers: &[Option<u32>]) -> Option<Event> {
    match *event {
        Event::Deliver { message: MessageNumber(old), member, .. } => match new_numbers.get(old as usize) {
            Some(new) => new.map(|new| Event::deliver(MessageNumber(new), member).in_slot(event.slot())),
            None => Some(*event),
        },
        _ => Some(*event),
    }
}

/// Lower slots, fewer members, lower rounds, and offers 10, 20, 30 and so on.
fn smaller_numbers(mut case: Case, fails: &mut dyn FnMut(&Case) -> bool) -> Case {
    case = lower_slots(case, fails);
    let n = case.list.n;
    let fewer = [3, 5].into_iter().filter(|fewer| *fewer < n);
    case = first_that_fails(case, fails, fewer, |case, fewer| case.list.n = fewer);
    for at in 0..case.list.events.len() {
        if let Event::Start { slot, member, round, offer, .. } = case.list.events[at] {
            let start = |round, offer| Event::start(member, round, offer).in_slot(slot);
            let turn = |turn: u32| Round((round.0 % n.max(1)).saturating_add(turn.saturating_mul(n)));
            let lower = (0..9).map(turn).filter(|lower| *lower < round);
            case = first_that_fails(case, fails, lower, |case, lower| case.list.events[at] = start(lower, offer));
        }
    }
    smaller_offers(case, fails)
}

/// All events of a slot in a lower one, which may have events of its own, 8 being the lowest that isn't there. The tables change
/// places, so that each slot keeps its own where they don't come together.
fn lower_slots(mut case: Case, fails: &mut dyn FnMut(&Case) -> bool) -> Case {
    let slots: BTreeSet<Slot> = case.list.events.iter().map(Event::slot).collect();
    for slot in slots {
        let lower = (0..=SLOTS as u32).map(Slot).filter(|lower| *lower < slot);
        case = first_that_fails(case, fails, lower, |case, lower| move_slot(case, slot, lower));
    }
    case
}

fn move_slot(case: &mut Case, from: Slot, to: Slot) {
    for event in case.list.events.iter_mut().filter(|event| event.slot() == from) {
        *event = event.in_slot(to);
    }
    let (from, to) = (from.0 as usize, to.0 as usize);
    if from < SLOTS {
        case.lent.tables.swap(from, to);
    }
}

/// The offer of the start at this place.
fn offer_at(list: &EventList, at: usize) -> Option<u64> {
    match list.events[at] {
        Event::Start { offer, .. } => Some(offer),
        _ => None,
    }
}

fn set_offer(list: &mut EventList, at: usize, offer: u64) {
    if let Event::Start { slot, member, round, .. } = list.events[at] {
        list.events[at] = Event::start(member, round, offer).in_slot(slot);
    }
}

/// Offers 10, 20, 30 and so on, so that each value tells which start it comes from; where that doesn't fail, each offer by
/// itself becomes the lowest of these that no other start has. Offers that differ are never made equal.
fn smaller_offers(case: Case, fails: &mut dyn FnMut(&Case) -> bool) -> Case {
    let starts: Vec<usize> = (0..case.list.events.len()).filter(|at| offer_at(&case.list, *at).is_some()).collect();
    let in_order = |case: &mut Case, ()| {
        starts.iter().zip(1..).for_each(|(at, place)| set_offer(&mut case.list, *at, 10 * place));
    };
    let mut case = first_that_fails(case, fails, std::iter::once(()), in_order);
    for at in &starts {
        let own = offer_at(&case.list, *at);
        let others: Vec<u64> =
            starts.iter().filter(|other| *other != at).filter_map(|other| offer_at(&case.list, *other)).collect();
        let shared = own.is_some_and(|own| others.contains(&own));
        let lower = (1..=starts.len() as u64)
            .map(|place| 10 * place)
            .filter(move |lower| !others.contains(lower) && (shared || Some(*lower) < own));
        case = first_that_fails(case, fails, lower, |case, lower| set_offer(&mut case.list, *at, lower));
    }
    case
}

/// The case with the first of some changes with which it still fails, or as it is.
fn first_that_fails<T>(
    case: Case,
    fails: &mut dyn FnMut(&Case) -> bool,
    mut changes: impl Iterator<Item = T>,
    change: impl Fn(&mut Case, T),
) -> Case {
    let changed = |to| {
        let mut changed = case.clone();
        change(&mut changed, to);
        Some(changed).filter(|changed| fails(changed))
    };
    changes.find_map(changed).unwrap_or(case)
}

/// Clean memory, few rows, no spare answers.
fn less_memory(mut case: Case, fails: &mut dyn FnMut(&Case) -> bool) -> Case {
    let mut attempt = |change: &dyn Fn(&mut Case)| {
        let mut smaller = case.clone();
        change(&mut smaller);
        if smaller != case && fails(&smaller) {
            case = smaller;
        }
    };
    attempt(&|case| case.lent.dirt = 0);
    attempt(&|case| case.lent.misfit = 0);
    attempt(&|case| case.lent.answers = case.lent.answers.min(case.list.events.len()));
    for rows in [1, 2, 4, 8, 16, 32, 64] {
        attempt(&|case| case.lent.store = case.lent.store.min(rows * STORE_ROW));
        attempt(&|case| case.lent.tables = case.lent.tables.map(|words| words.min(rows * TABLE_ROW)));
        for slot in 0..SLOTS {
            attempt(&|case| case.lent.tables[slot] = case.lent.tables[slot].min(rows * TABLE_ROW));
        }
    }
    case
}
