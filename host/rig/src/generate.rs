//! Random lists, steered by the second implementation's model so that most of them reach something.

use crate::compare::Lent;
use crate::random::Random;
use crate::second::model::Model;
use kalebasin::{Event, EventList, Member, Message, MessageNumber, Refusal, Round, Slot};
use kalebasin::{SLOTS, STORE_ROW, STORE_ROWS, TABLE_ROW, TABLE_ROWS};

/// A list and the memory lent with it.
#[derive(Clone, Debug, PartialEq, Eq, Hash)]
pub struct Case {
    /// The list.
    pub list: EventList,
    /// The memory.
    pub lent: Lent,
}

/// How a list is made, each in a hundred.
#[derive(Clone, Copy, Debug)]
struct Style {
    /// Events with any numbers.
    wild: usize,
    /// Starts where something else could go on.
    hurry: usize,
    /// Deliveries of any message sent, instead of one of the last.
    late: usize,
    /// Starts of a round below one that was led already.
    below: usize,
    /// Votes that wait for a proposal of a higher round.
    put_off: usize,
    /// STARTs to a member that has joined their round and hasn't voted in it, which sends the same JOIN again.
    again: usize,
}

/// The slots of a list.
#[derive(Clone, Debug)]
pub struct Slots {
    /// Those that rounds are started in, at least one.
    pub used: Vec<Slot>,
    /// Events in any other slot, there or not, in a hundred.
    pub stray: usize,
}

impl Slots {
    /// One slot alone.
    pub fn one(slot: Slot) -> Slots {
        Slots { used: vec![slot], stray: 0 }
    }

    /// Mostly one, and mostly slot 0.
    pub fn any(random: &mut Random) -> Slots {
        let used = match random.below(100) {
            0..=54 => vec![Slot(0)],
            55..=74 => vec![*random.pick(&Slot::ALL)],
            other => {
                let mut slots = Slot::ALL;
                random.shuffle(&mut slots);
                slots[..if other < 90 { 2 } else { random.between(3, SLOTS) }].to_vec()
            }
        };
        Slots { used, stray: *random.pick(&[0, 0, 0, 0, 3, 15]) }
    }
}

/// A list of 0 to 1,000 events for 3, 5 or 7 members, with memory of any allowed size.
pub fn case(random: &mut Random) -> Case {
    let n = *random.pick(&[3, 3, 3, 5, 5, 7]);
    let slots = Slots::any(random);
    // Two slots take twice the events of one to get as far; more of them get less far.
    let times = slots.used.len().min(2);
    let events = match random.below(100) {
        0..=69 => random.between(0, 60 * times),
        70..=95 => random.between(40, 160 * times),
        _ => random.between(160, EventList::MOST),
    };
    let store_rows = match random.below(100) {
        0..=69 => events.clamp(1, STORE_ROWS),
        70..=94 => random.between(1, 40),
        95..=98 => random.between(1, STORE_ROWS),
        _ => STORE_ROWS,
    };
    let table_rows = match random.below(100) {
        0..=59 => [64; SLOTS],
        60..=67 => [random.between(1, 4); SLOTS],
        68..=89 => std::array::from_fn(|_| random.between(1, 4)),
        90..=97 => [random.between(1, TABLE_ROWS); SLOTS],
        _ => std::array::from_fn(|_| random.between(1, TABLE_ROWS)),
    };
    let spare = if random.chance(50) { 0 } else { random.between(1, 20) };
    let lent = Lent {
        store: store_rows * STORE_ROW,
        tables: table_rows.map(|rows| rows * TABLE_ROW),
        misfit: 0,
        answers: events + spare,
        dirt: random.number(),
    };
    let list = list_in(&slots, random, n, events, store_rows, table_rows).expect("n is 3, 5 or 7");
    Case { list, lent }
}

/// A list of so many events for `n` members and memory of so many rows, in any slots.
///
/// # Errors
/// 27 where `n` isn't 3, 5 or 7.
pub fn list(
    random: &mut Random,
    n: u32,
    events: usize,
    store_rows: usize,
    table_rows: [usize; SLOTS],
) -> Result<EventList, Refusal> {
    let slots = Slots::any(random);
    list_in(&slots, random, n, events, store_rows, table_rows)
}

/// The same in these slots.
///
/// # Errors
/// 27 where `n` isn't 3, 5 or 7.
///
/// # Panics
/// Where no slot is used, or one above 7.
pub fn list_in(
    slots: &Slots,
    random: &mut Random,
    n: u32,
    events: usize,
    store_rows: usize,
    table_rows: [usize; SLOTS],
) -> Result<EventList, Refusal> {
    let mut model = Model::new(n, store_rows, table_rows)?;
    let style = Style {
        wild: *random.pick(&[0, 0, 3, 10, 60]),
        hurry: *random.pick(&[0, 2, 5, 10, 20]),
        late: *random.pick(&[0, 10, 30, 60, 100]),
        below: *random.pick(&[0, 10, 30]),
        put_off: *random.pick(&[0, 0, 90, 100]),
        again: *random.pick(&[0, 5, 30]),
    };
    let mut list = EventList::new(n);
    while list.events.len() < events {
        let mut event = next(random, &model, style, slots);
        if slots.stray > 0 && random.chance(slots.stray) {
            event = event.in_slot(any_slot(random));
        }
        let _ = model.take(&event);
        list.events.push(event);
    }
    Ok(list)
}

/// A slot from 0 to 8, now and then any number.
fn any_slot(random: &mut Random) -> Slot {
    Slot(match random.below(20) {
        0 => random.number() as u32,
        _ => random.below(SLOTS + 1) as u32,
    })
}

fn next(random: &mut Random, model: &Model, style: Style, slots: &Slots) -> Event {
    let slot = match slots.used[..] {
        [one] => one,
        _ => *random.pick(&slots.used),
    };
    if random.chance(style.wild) {
        return wild(random, model).in_slot(slot);
    }
    if model.sent.is_empty() || random.chance(style.hurry) {
        return start(random, model, style, slot);
    }
    let mut tried = delivery(random, model, style);
    for _ in 0..12 {
        if model.look(&tried).is_ok() && (!joins_again(model, &tried) || random.chance(style.again)) {
            return tried;
        }
        tried = delivery(random, model, style);
    }
    if random.chance(60) {
        start(random, model, style, slot)
    } else {
        tried
    }
}

/// Whether this brings a START to a member that has joined its round.
fn joins_again(model: &Model, event: &Event) -> bool {
    let Event::Deliver { message, member, .. } = event else { return false };
    match (model.message(*message), model.member(event.slot(), *member)) {
        (Some(Message::Start { round, .. }), Some(record)) => record.j == *round,
        _ => false,
    }
}

/// Numbers in and just out of range.
fn wild(random: &mut Random, model: &Model) -> Event {
    let member = Member(match random.below(20) {
        0 => random.number() as u32,
        _ => random.below(model.n() as usize + 1) as u32,
    });
    if random.chance(30) {
        let round = match random.below(10) {
            0 => 0,
            1 => 1_000_000,
            2 => 1_000_001,
            3 => random.number() as u32,
            _ => random.between(1, 30) as u32,
        };
        return Event::start(member, Round(round), offer(random));
    }
    let message = match random.below(20) {
        0 => random.number() as u32,
        _ => random.below(model.sent.len() + 2) as u32,
    };
    Event::deliver(MessageNumber(message), member)
}

/// A start by a leader, of a round that it hasn't led.
fn start(random: &mut Random, model: &Model, style: Style, slot: Slot) -> Event {
    let n = model.n();
    let member = random.below(n as usize) as u32;
    let members = &model.slots[slot.0 as usize].members;
    let highest = members.iter().map(|record| record.l.0).max().unwrap_or(0);
    let own = members[member as usize].l.0;
    let above = if random.chance(style.below) { own } else { highest };
    let mut round = above + 1;
    while round % n != member {
        round += 1;
    }
    match random.below(200) {
        0 => round = 1_000_000 - (1_000_000 - member) % n,
        1..=30 => round += n * random.between(1, 3) as u32,
        _ => {}
    }
    Event::start(Member(member), Round(round), offer(random)).in_slot(slot)
}

fn offer(random: &mut Random) -> u64 {
    match random.below(10) {
        0 => 0,
        1 => u64::MAX,
        2 => random.number(),
        _ => 10 * random.between(1, 9) as u64,
    }
}

/// A message sent earlier, to a member of its slot that could await it.
fn delivery(random: &mut Random, model: &Model, style: Style) -> Event {
    let mut message = sent_earlier(random, model, style);
    let highest =
        |slot: Slot| model.slot(slot).and_then(|of_slot| of_slot.proposals().map(|proposal| proposal.round).max());
    for _ in 0..6 {
        if matches!(model.sent[message], Message::Vote { slot, round, .. } if Some(round) == highest(slot))
            && random.chance(style.put_off)
        {
            message = sent_earlier(random, model, style);
        }
    }
    let member = match model.sent[message] {
        Message::Join { round, .. } | Message::Vote { round, .. } => model.leader(round),
        Message::Start { .. } | Message::Propose { .. } => Member(random.below(model.n() as usize) as u32),
    };
    Event::deliver(MessageNumber(message as u32), member).in_slot(model.sent[message].slot())
}

fn sent_earlier(random: &mut Random, model: &Model, style: Style) -> usize {
    let sent = model.sent.len();
    let back = if random.chance(style.late) { sent } else { sent.min(3 * model.n() as usize) };
    sent - 1 - random.below(back)
}
