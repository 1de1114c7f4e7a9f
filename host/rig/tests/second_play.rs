//! The second implementation's play against document 01 and Tickets 2, 3 and 6 of document 02: the rehearsal to the letter,
//! the list refusals in order, a lost JOIN that is sent again, how many rounds the proposals made GHOST, slots, the faults seen
//! on earlier builds, and the third demand on random lists.

use kalebasin::notation::parse;
use kalebasin::{
    nodes, number_of, sent, Event, EventList, Message, MessageNumber, Played, Refusal, Round, Slot, Status,
};
use kalebasin::{SLOTS, TABLE_ROW};
use kalebasin_rig::compare::{play, Left, Lent};
use kalebasin_rig::generate::Slots;
use kalebasin_rig::random::Random;
use kalebasin_rig::search::{Run, ALWAYS};
use kalebasin_rig::second;
use kalebasin_rig::second::model::{Breach, Made, Model, OfSlot, SlotBreach};
use kalebasin_rig::suite::REHEARSAL;
use kalebasin_rig::trace::model_ghosts;
use kalebasin_rig::{generate, rehearsal};
use std::collections::{BTreeSet, HashMap};

fn list(notation: &str) -> EventList {
    parse(notation, None).unwrap()
}

fn run(notation: &str, store: usize, table: usize) -> Left {
    let list = list(notation);
    play(&second::CALLS, &list.to_bytes(), &Lent { dirt: 5, ..Lent::rows(store, table, list.events.len()) })
}

/// A run with so many rows of each slot's table.
fn run_on(notation: &str, store: usize, rows: [usize; SLOTS]) -> Left {
    let list = list(notation);
    let tables = rows.map(|rows| rows * TABLE_ROW);
    play(&second::CALLS, &list.to_bytes(), &Lent { dirt: 5, tables, ..Lent::rows(store, 0, list.events.len()) })
}

fn answers(notation: &str) -> Vec<u8> {
    run(notation, 100, 64).answers().to_vec()
}

/// Accepted events, messages, proposals, decisions, rounds made GHOST.
fn counts(played: Played) -> [u32; 5] {
    [played.accepted, played.messages, played.proposals, played.decisions, played.ghosts]
}

/// The list with all its events in another slot.
fn in_slot(list: &EventList, slot: Slot) -> EventList {
    let mut moved = list.clone();
    moved.events.iter_mut().for_each(|event| *event = event.in_slot(slot));
    moved
}

#[test]
fn rehearsal_to_the_letter() {
    let (answers, root) = ("0 0 0 0 25 0 0 0 0 0 0 0 0 0 0\n", "0 0 0 3\n");
    let output = |list: &[u8]| rehearsal::output(&second::CALLS, list);
    for slot in Slot::ALL {
        let (before, behind) = (root.repeat(slot.0 as usize), root.repeat(7 - slot.0 as usize));
        let expected = format!("{answers}{before}0 0 0 3\n1 0 70 3\n2 1 70 1\n{behind}");
        assert_eq!(output(&in_slot(&list(REHEARSAL), slot).to_bytes()), (expected, Ok(())));
    }
    assert_eq!(output(&list("n=3").to_bytes()), (format!("\n{}", root.repeat(8)), Ok(())));
    assert_eq!(output(&list("n=4").to_bytes()), ("27\n".into(), Err(Refusal::OfficeSize)));
    assert_eq!(output(&[0; 7]), ("26\n".into(), Err(Refusal::ListShape)));
    let left = run(REHEARSAL, 1000, 64);
    assert_eq!(left.result.map(counts), Ok([14, 10, 2, 1, 0]));
    let kinds = sent(left.store(), 10).map(|bytes| second::message::read(bytes).unwrap().kind());
    let order = ["START", "JOIN", "JOIN", "PROPOSE", "VOTE", "START", "JOIN", "JOIN", "PROPOSE", "VOTE"];
    assert_eq!(kinds.collect::<Vec<_>>(), order);
}

fn number(list: &[u8], lent: Lent) -> u32 {
    let lent = Lent { dirt: 3, ..lent };
    let left = play(&second::CALLS, list, &lent);
    if left.result.is_err() {
        let refused = play(&second::CALLS, &[], &lent);
        assert_eq!((left.store(), left.words(), left.answers()), (refused.store(), refused.words(), refused.answers()));
    }
    number_of(&left.result)
}

#[test]
fn list_refusals_in_order() {
    let good = list("n=3 s(1,1,70) d(0,0)").to_bytes();
    let with_n = |n| list(&format!("n={n} s(1,1,70) d(0,0)")).to_bytes();
    let lent = Lent::rows(2, 2, 2);
    let no_tables = Lent::rows(2, 0, 2);
    assert_eq!(number(&good, lent), 0);
    for length in 0..good.len() {
        assert_eq!(number(&good[..length], Lent { store: 0, ..no_tables }), 26, "{length}");
    }
    assert_eq!(number(&[&good[..], &[0]].concat(), lent), 26);
    for (at, byte) in [(7, 1), (7, 3), (4, 1), (11, 0), (11, 2), (11, 3), (8, 1)] {
        let mut damaged = good.clone();
        damaged[at] = byte;
        assert_eq!(number(&damaged, lent), 26, "byte {at} is {byte}");
    }
    for n in [0, 1, 2, 4, 6, 8, 9, u32::MAX] {
        assert_eq!(number(&with_n(n), Lent { store: 0, ..no_tables }), 27, "{n}");
    }
    for store in [0, 1, 31, 33, 63, 32 * 2_000 + 1, 32 * 2_001] {
        assert_eq!(number(&good, Lent { store, ..no_tables }), 28, "{store}");
    }
    assert_eq!(number(&good, Lent { answers: 1, ..no_tables }), 28);
    assert_eq!(number(&good, Lent { store: 32 * 2_000, ..lent }), 0);
    let mut long = EventList::new(3);
    long.events = vec![list("n=3 d(0,0)").events[0]; 1_001];
    assert_eq!(number(&long.to_bytes(), Lent::rows(1, 1, 1_001)), 26);
    long.events.pop();
    assert_eq!(number(&long.to_bytes(), Lent::rows(1, 1, 1_000)), 0);
}

/// Each of the eight tables is checked, whatever the others are, and they fill the words lent exactly. They may differ in length.
#[test]
fn lengths_of_tables() {
    let good = list("n=3 s(1,1,70) 7:d(0,0)").to_bytes();
    let lent = Lent::rows(2, 2, 2);
    for slot in 0..SLOTS {
        for length in [0, 1, 5, 1_023, 1_025, 1_028] {
            let mut tables = lent.tables;
            tables[slot] = length;
            assert_eq!(number(&good, Lent { tables, ..lent }), 1, "{length} in slot {slot}");
            assert_eq!(number(&good[1..], Lent { tables, ..lent }), 26);
            assert_eq!(number(&good, Lent { tables, answers: 1, ..lent }), 28);
        }
        for length in [4, 12, 1_024] {
            let mut tables = lent.tables;
            tables[slot] = length;
            assert_eq!(number(&good, Lent { tables, ..lent }), 0, "{length} in slot {slot}");
        }
    }
    for misfit in [-64, -63, -8, -4, -1, 1, 4, 8, 1_024] {
        assert_eq!(number(&good, Lent { misfit, ..lent }), 1, "{misfit}");
    }
    // Two wrong lengths that fill the words together; one so long that no sum holds it.
    let tables = [6, 10, 8, 8, 8, 8, 8, 8];
    assert_eq!(number(&good, Lent { tables, ..lent }), 1);
    let (mut store, mut words, mut answers) = ([7; 64], [7; 64], [7; 2]);
    for lengths in [[usize::MAX; SLOTS], [8, 8, 8, 8, 8, 8, 8, usize::MAX - 55], [64, 0, 0, 0, 0, 0, 0, 0]] {
        let played = second::play::play(&good, &mut store, &mut words, &lengths, &mut answers);
        assert_eq!((number_of(&played), store, words, answers), (1, [7; 64], [7; 64], [7; 2]));
    }
}

/// An event's slot above 7 gets 32 before 29. A message of another slot gets 32 after 29, and before all that a member asks.
#[test]
fn wrong_slots() {
    assert_eq!(
        answers("8:s(3,1,70) 8:d(0,0) 8:d(0,9) 4294967295:s(1,1,70) 7:s(3,1,70) 7:d(0,0)"),
        [32, 32, 32, 32, 29, 29]
    );
    assert_eq!(answers("s(1,1,70) 3:d(0,0) 3:d(0,3) 3:d(1,0) 8:d(0,0) 7:d(0,1) d(0,0)"), [0, 32, 29, 29, 32, 32, 0]);
    // A START to a member that has moved past its round in its own slot, and a JOIN that isn't awaited there.
    assert_eq!(answers("3:s(2,2,70) 3:d(0,0) s(1,1,70) 3:d(2,0) d(2,0) 3:d(3,2)"), [0, 0, 0, 32, 0, 32]);
    // On a full store.
    assert_eq!(run("s(1,1,70) 3:d(0,0) d(0,0)", 1, 2).answers(), [0, 32, 30]);
}

/// Member 1 leads round 1 in slots 0 and 3. The JOIN of member 0 for one of them, messages 2 and 3, isn't counted in the other,
/// neither before that for the other nor behind it.
#[test]
fn messages_of_another_slot_are_not_counted() {
    let joins = "s(1,1,70) 3:s(1,1,80) d(0,0) 3:d(1,0) d(2,1) 3:d(2,1) d(3,1) 3:d(3,1) 3:d(2,1)";
    let left = run(joins, 100, 64);
    assert_eq!(left.answers(), [0, 0, 0, 0, 0, 32, 32, 0, 32]);
    assert_eq!(left.result.map(counts), Ok([6, 4, 0, 0, 0]));
    assert_eq!([2, 3].map(|row| words(&left, row)), [[0, 2, 1, 0, 0, 0, 0, 0], [3, 2, 1, 0, 0, 0, 0, 0]]);
}

/// The lists together, each in its slot, and for each event the part that it is of. The next event is one of the part that `order`
/// names. A list's numbers count what its own events send, and become those of the messages among all.
fn together(parts: &[(Slot, EventList)], order: &[usize], lent: &Lent) -> EventList {
    let (store_rows, table_rows) = lent.whole_rows();
    let mut list = EventList::new(parts[0].1.n);
    let mut model = Model::new(list.n, store_rows, table_rows).unwrap();
    let mut next = vec![0; parts.len()];
    let mut numbers = vec![Vec::new(); parts.len()];
    for part in order {
        let (slot, own) = &parts[*part];
        let event = match own.events[next[*part]] {
            Event::Deliver { message, member, .. } => {
                let number = numbers[*part].get(message.0 as usize).copied();
                Event::deliver(number.unwrap_or(MessageNumber(u32::MAX)), member)
            }
            start => start,
        };
        let (event, sent) = (event.in_slot(*slot), model.sent.len());
        if model.take(&event).is_ok_and(|step| step.sent.is_some()) {
            numbers[*part].push(MessageNumber(sent as u32));
        }
        list.events.push(event);
        next[*part] += 1;
    }
    list
}

/// A list in each slot, one behind the other.
fn one_behind_the_other(parts: &[(u32, &str)], store: usize, rows: [usize; SLOTS]) -> Left {
    let parts: Vec<(Slot, EventList)> = parts.iter().map(|(slot, text)| (Slot(*slot), list(text))).collect();
    let order: Vec<usize> = (0..parts.len()).flat_map(|part| vec![part; parts[part].1.events.len()]).collect();
    let tables = rows.map(|rows| rows * TABLE_ROW);
    let list = together(&parts, &order, &Lent { tables, ..Lent::rows(store, 0, 0) });
    run_on(&list.to_string(), store, rows)
}

const TO_PROPOSAL: &str = "s(1,1,70) d(0,0) d(0,1) d(1,1) d(2,1)";
const TO_DECISION: &str = "s(1,1,80) d(0,0) d(0,1) d(1,1) d(2,1) d(3,0) d(3,1) d(4,1) d(5,1)";

/// Round 1 is decided in three slots, with a value of each; each has its own members and tree. The counts are sums over the slots.
#[test]
fn decisions_of_several_slots() {
    let other = TO_DECISION.replace("80", "90");
    let left = one_behind_the_other(&[(0, TO_DECISION), (7, &other), (3, REHEARSAL)], 100, [64; SLOTS]);
    assert_eq!(left.result.map(counts), Ok([9 + 9 + 14, 6 + 6 + 10, 1 + 1 + 2, 3, 0]));
    let root = [0, 0, 0, 3];
    for slot in Slot::ALL {
        let expected = match slot {
            Slot(0) => vec![root, [1, 0, 80, 3]],
            Slot(3) => vec![root, [1, 0, 70, 3], [2, 1, 70, 1]],
            Slot(7) => vec![root, [1, 0, 90, 3]],
            _ => vec![root],
        };
        assert_eq!(rows_in(&left, slot), expected, "slot {slot}");
    }
    let ghosts = one_behind_the_other(&[(5, SIDE_BY_SIDE), (2, SIDE_BY_SIDE)], 100, [64; SLOTS]);
    assert_eq!(ghosts.result.map(counts), Ok([2 * 15, 2 * 12, 2 * 3, 0, 2 * 2]));
}

/// 9 sets a slot's own proposals against its own table's rows.
#[test]
fn full_tables_of_slots() {
    let two = [(0, TO_PROPOSAL), (3, TO_PROPOSAL)];
    for (rows, expected) in
        [([2, 1, 1, 2, 1, 1, 1, 1], [0, 0]), ([1, 9, 9, 2, 9, 9, 9, 9], [9, 0]), ([2, 9, 9, 1, 9, 9, 9, 9], [0, 9])]
    {
        let left = one_behind_the_other(&two, 100, rows);
        assert_eq!([4, 9].map(|at| left.answers()[at]), expected, "{rows:?}");
        let proposals = expected.iter().filter(|answer| **answer == 0).count() as u32;
        assert_eq!(left.result.map(|played| played.proposals), Ok(proposals));
        assert_eq!([0, 3].map(|slot| rows_in(&left, Slot(slot)).len() as u8), expected.map(|answer| 2 - answer / 9));
    }
    // Slot 0's table is full from round 1 on; slot 3's proposal doesn't mind, and round 2 of slot 0 gets 9.
    let second = format!("{TO_PROPOSAL} s(2,2,80) d(4,0) d(4,2) d(5,2) d(6,2)");
    let parts = [(Slot(0), list(&second)), (Slot(3), list(TO_PROPOSAL))];
    let order = [[0; 5], [1; 5], [0; 5]].concat();
    let list = together(&parts, &order, &Lent::rows(100, 2, 0)).to_string();
    let answers = run(&list, 100, 2).answers().to_vec();
    assert_eq!([4, 9, 14].map(|at| answers[at]), [0, 0, 9]);
}

/// All slots fill one store.
#[test]
fn one_store_for_all_slots() {
    let starts: String = (0..=7).map(|slot| format!("{slot}:s(1,1,70) ")).collect();
    let left = run(&(starts + "0:s(2,2,80) 7:d(7,0) 6:d(7,0)"), 8, 1);
    assert_eq!(left.answers(), [0, 0, 0, 0, 0, 0, 0, 0, 30, 30, 32]);
    for slot in 0..8 {
        assert_eq!(words(&left, slot), [slot as u32, 1, 1, 1, 0, 0, 0, 0]);
    }
}

/// Random lists in several slots, in a random order of their events: each has the answers, messages and tree that it has alone.
#[test]
fn slots_are_independent() {
    let mut random = Random::new(6);
    let mut decided = 0;
    for _ in 0..400 {
        let n = *random.pick(&[3, 5, 7]);
        let mut lent = Lent::rows(1_000, 0, 0);
        lent.tables = std::array::from_fn(|_| random.between(1, 6) * TABLE_ROW);
        let mut slots = Slot::ALL;
        random.shuffle(&mut slots);
        let parts: Vec<(Slot, EventList)> = slots[..random.between(2, 4)]
            .iter()
            .map(|slot| {
                let (events, rows) = (random.between(1, 80), [lent.whole_rows().1[slot.0 as usize]; SLOTS]);
                let list = generate::list_in(&Slots::one(Slot(0)), &mut random, n, events, 1_000, rows);
                (*slot, list.unwrap())
            })
            .collect();
        let mut order: Vec<usize> = (0..parts.len()).flat_map(|part| vec![part; parts[part].1.events.len()]).collect();
        random.shuffle(&mut order);
        lent.answers = order.len();
        let all = together(&parts, &order, &lent);
        let left = play(&second::CALLS, &all.to_bytes(), &lent);
        let messages: Vec<&[u8]> = sent(left.store(), left.result.unwrap().messages).collect();
        for (part, (slot, list)) in parts.iter().enumerate() {
            let alone = play(&second::CALLS, &in_slot(list, *slot).to_bytes(), &lent);
            let own = order.iter().zip(left.answers()).filter(|(of, _)| **of == part).map(|(_, answer)| *answer);
            assert_eq!(own.collect::<Vec<_>>(), alone.answers()[..list.events.len()], "slot {slot}: {all}");
            assert_eq!(left.table(*slot), alone.table(*slot), "slot {slot}: {all}");
            let own: Vec<&[u8]> = messages.iter().filter(|bytes| bytes[3] == slot.0 as u8).copied().collect();
            assert_eq!(own, sent(alone.store(), alone.result.unwrap().messages).collect::<Vec<_>>());
            decided += alone.result.unwrap().decisions;
        }
        let empty = |slot: &Slot| parts.iter().all(|(used, _)| used != slot);
        assert!(Slot::ALL.iter().filter(|slot| empty(slot)).all(|slot| rows_in(&left, *slot).len() == 1));
    }
    assert!(decided > 200, "{decided}");
}

/// The third demand is asked slot by slot: a value of another slot's offer isn't offered, and slots may decide different values.
#[test]
fn the_third_demand_of_each_slot() {
    let list = list("3:s(1,1,70) 3:d(0,0) 3:d(0,1) 3:d(1,1) 3:d(2,1) 3:d(3,0) 3:d(3,1) 3:d(4,1) 3:d(5,1)");
    let (model, _) = Model::run(&list, 100, [2; SLOTS]).unwrap();
    assert_eq!(model.third_demand().map(|trees| trees.len()), Ok(8 * 8));
    let decision = model.slots[3].decisions().next().unwrap();
    let mut moved = model.clone();
    moved.slots[5].made = model.slots[3].made.clone();
    let never = Breach::NeverOffered(decision);
    assert_eq!(moved.third_demand(), Err(SlotBreach { slot: Slot(5), breach: never }));
    let words = "in slot 5, round 1 decided 70, which no earlier accepted start offered";
    assert_eq!(moved.third_demand().unwrap_err().to_string(), words);
    moved.slots[5].offers = model.slots[3].offers.clone();
    assert_eq!(moved.third_demand().map(|trees| trees.len()), Ok(8 * 8));
    // The same with another value, offered and decided in slot 5 alone.
    let other = |of_slot: &mut OfSlot| {
        of_slot.offers[0].value = 80;
        for at in &mut of_slot.made {
            match &mut at.made {
                Made::Proposal(made) => made.value = 80,
                Made::Decision(made) => made.value = 80,
            }
        }
    };
    other(&mut moved.slots[5]);
    assert_eq!(moved.third_demand().map(|trees| trees[5 * 8 + 4..][..4].to_vec()), Ok(vec![1, 0, 80, 3]));
}

#[test]
fn event_refusals() {
    assert_eq!(answers("n=3 s(3,1,70) s(1,0,70) s(1,1000001,70) s(2,1,70) s(1,1,70) s(1,1,70)"), [29, 3, 3, 19, 0, 20]);
    assert_eq!(
        answers("n=3 d(0,0) s(1,1,70) d(0,3) d(1,0) d(0,0) d(0,0) d(1,0) d(1,2)"),
        [29, 0, 29, 29, 0, 0, 24, 24]
    );
    assert_eq!(answers("n=3 s(1,1,70) s(2,2,80) d(1,0) d(0,0) d(1,0)"), [0, 0, 0, 22, 0]);
}

/// 30 before 9; an event refused with either changes nothing, its flag too.
#[test]
fn full_store_and_full_table() {
    let to_proposal = "n=3 s(1,1,70) d(0,0) d(0,1) d(1,1) d(2,1) d(2,1)";
    let full_store = run(to_proposal, 3, 1);
    assert_eq!(full_store.answers(), [0, 0, 0, 0, 30, 30]);
    assert_eq!(full_store.result.map(counts), Ok([4, 3, 0, 0, 0]));
    let full_table = run(to_proposal, 4, 1);
    assert_eq!(full_table.answers(), [0, 0, 0, 0, 9, 9]);
    assert_eq!(run(to_proposal, 4, 2).answers(), [0, 0, 0, 0, 0, 24]);
    assert_eq!(run("n=3 s(1,1,70) s(2,2,80) d(0,0)", 1, 1).answers(), [0, 30, 30]);
}

/// The words of a row of the store.
fn words(left: &Left, row: usize) -> Vec<u32> {
    let bytes = &left.store()[32 * row..][..32];
    bytes.chunks(4).map(|word| u32::from_be_bytes(word.try_into().unwrap())).collect()
}

/// Each node's round, parent, value, status, in slot 0.
fn rows(left: &Left) -> Vec<[u64; 4]> {
    rows_in(left, Slot(0))
}

/// The same in another slot.
fn rows_in(left: &Left, slot: Slot) -> Vec<[u64; 4]> {
    let rows = left.table(slot).chunks(4).map(|row| row.try_into().unwrap());
    rows.take_while(|row: &[u64; 4]| row[3] != 0).collect()
}

/// Member 0 gets START 1, and no event delivers its JOIN, message 1. It gets START 1 again. Its second JOIN, message 3,
/// is delivered, and the round is decided.
#[test]
fn a_lost_join_is_sent_again() {
    let lost = "n=3 s(1,1,70) d(0,0) d(0,1) d(2,1) d(0,0) d(3,1) d(4,0) d(4,1) d(5,1) d(6,1)";
    let left = run(lost, 100, 64);
    assert_eq!(left.answers(), [0; 10]);
    assert_eq!(left.result.map(counts), Ok([10, 7, 1, 1, 0]));
    assert_eq!(words(&left, 1), [0, 2, 1, 0, 0, 0, 0, 0]);
    assert_eq!(words(&left, 3), [0, 2, 1, 0, 0, 0, 0, 0]);
    assert_eq!(rows(&left), [[0, 0, 0, 3], [1, 0, 70, 3]]);
    // Delivered late, the first JOIN isn't awaited; delivered before a quorum, one of the two is counted.
    assert_eq!(answers(&format!("{lost} d(1,1)"))[10..], [24]);
    assert_eq!(answers("n=3 s(1,1,70) d(0,0) d(0,0) d(2,1) d(1,1)"), [0, 0, 0, 0, 25]);
}

/// Member 0 votes for 70 in round 1. Its JOIN of round 2, message 6, is lost. The second, message 8, tells the vote
/// too, and round 2 proposes and decides 70.
#[test]
fn a_lost_join_with_a_vote_is_sent_again() {
    let lost = "n=3 s(1,1,70) d(0,0) d(0,1) d(1,1) d(2,1) d(3,0) s(2,2,80) d(5,0) d(5,2) d(7,2) d(5,0) d(8,2) d(9,0) \
                d(9,2) d(10,2) d(11,2)";
    let left = run(lost, 100, 64);
    assert_eq!(left.answers(), [0; 16]);
    assert_eq!(left.result.map(counts), Ok([16, 12, 2, 1, 0]));
    assert_eq!(words(&left, 6), [0, 2, 2, 0, 1, 1, 0, 70]);
    assert_eq!(words(&left, 8), [0, 2, 2, 0, 1, 1, 0, 70]);
    assert_eq!(rows(&left), [[0, 0, 0, 3], [1, 0, 70, 1], [2, 1, 70, 3]]);
}

/// 30 while J = r and V < r; 22 comes before it at V = r and at J > r.
#[test]
fn repeated_starts_on_a_full_store() {
    assert_eq!(run("n=3 s(1,1,70) d(0,0) d(0,0)", 3, 1).answers(), [0, 0, 0]);
    let full = run("n=3 s(1,1,70) d(0,0) d(0,0) d(0,0)", 2, 1);
    assert_eq!(full.answers(), [0, 0, 30, 30]);
    assert_eq!(full.result.map(counts), Ok([2, 2, 0, 0, 0]));
    let voted = run("n=3 s(1,1,70) d(0,0) d(0,1) d(1,1) d(2,1) d(3,0) d(0,0) d(0,1)", 5, 2);
    assert_eq!(voted.answers(), [0, 0, 0, 0, 0, 0, 22, 30]);
    assert_eq!(run("n=3 s(1,1,70) s(2,2,80) d(1,0) d(0,0) d(1,0)", 3, 1).answers(), [0, 0, 0, 22, 30]);
}

/// Rounds 1, 2 and 3 are proposed in this order. No one votes, so each edge is from the root and crosses those before.
const SIDE_BY_SIDE: &str = "n=3 s(1,1,70) d(0,0) d(0,1) d(1,1) d(2,1) s(2,2,80) d(4,0) d(4,2) d(5,2) d(6,2) s(0,3,90) \
                            d(8,0) d(8,1) d(9,0) d(10,0)";

/// Round 2 makes round 1 GHOST, round 3 makes round 2 so.
#[test]
fn rounds_made_ghost_one_after_another() {
    let left = run(SIDE_BY_SIDE, 100, 64);
    assert_eq!(left.answers(), [0; 15]);
    assert_eq!(left.result.map(counts), Ok([15, 12, 3, 0, 2]));
    assert_eq!(rows(&left), [[0, 0, 0, 3], [1, 0, 70, 2], [2, 0, 80, 2], [3, 0, 90, 1]]);
    // Round 3's proposal finds the table or the store full, twice.
    for (store, table, number) in [(100, 3, 9), (11, 64, 30)] {
        let left = run(&format!("{SIDE_BY_SIDE} d(10,0)"), store, table);
        assert_eq!(left.answers()[14..], [number; 2]);
        assert_eq!(left.result.map(counts), Ok([14, 11, 2, 0, 1]));
        assert_eq!(rows(&left), [[0, 0, 0, 3], [1, 0, 70, 2], [2, 0, 80, 1]]);
    }
}

/// Member 0 votes in round 1, and round 2 hears of it. Round 3 hears of no vote and makes both GHOST.
#[test]
fn two_rounds_made_ghost_at_once() {
    let left = run(
        "n=3 s(1,1,70) d(0,0) d(0,1) d(1,1) d(2,1) d(3,0) s(2,2,80) d(5,0) d(5,2) d(6,2) d(7,2) s(0,3,90) d(9,1) \
         d(9,2) d(10,0) d(11,0)",
        100,
        64,
    );
    assert_eq!(left.result.map(counts), Ok([16, 13, 3, 0, 2]));
    assert_eq!(rows(&left), [[0, 0, 0, 3], [1, 0, 70, 2], [2, 1, 70, 2], [3, 0, 90, 1]]);
}

/// Round 2 is proposed after round 3 and so is GHOST from the first. It isn't counted, whether it makes another GHOST or not.
#[test]
fn rounds_born_ghost() {
    let alone = run("n=3 s(2,2,80) d(0,1) d(0,2) s(0,3,90) d(3,0) d(3,1) d(4,0) d(5,0) d(1,2) d(2,2)", 100, 64);
    assert_eq!(alone.result.map(counts), Ok([10, 8, 2, 0, 0]));
    assert_eq!(rows(&alone), [[0, 0, 0, 3], [3, 0, 90, 1], [2, 0, 80, 2]]);
    // Round 3 hears of member 0's vote in round 1, round 2 doesn't.
    let with_another = run(
        "n=3 s(1,1,70) d(0,0) d(0,1) d(1,1) d(2,1) d(3,0) s(2,2,80) d(5,1) d(5,2) s(0,3,90) d(8,0) d(8,1) d(9,0) \
         d(10,0) d(6,2) d(7,2)",
        100,
        64,
    );
    assert_eq!(with_another.result.map(counts), Ok([16, 13, 3, 0, 1]));
    assert_eq!(rows(&with_another), [[0, 0, 0, 3], [1, 0, 70, 2], [3, 1, 70, 1], [2, 0, 80, 2]]);
}

/// Faults seen on earlier builds, each with a list that shows it.
#[test]
fn faults_seen_on_earlier_builds() {
    // Presence left out and taken as 0: round 2 proposes 80.
    let table = run(REHEARSAL, 1000, 64).table(Slot(0)).to_vec();
    assert_eq!(nodes(&table).map(|node| node.value).collect::<Vec<_>>(), [0, 70, 70]);
    // One sender's JOIN counted twice.
    assert_eq!(answers("n=3 s(1,1,70) d(0,0) d(1,1) d(1,1)"), [0, 0, 0, 25]);
    // START accepted when V = r: member 0 has voted in round 1.
    assert_eq!(answers("n=3 s(1,1,70) d(0,0) d(0,1) d(1,1) d(2,1) d(3,0) d(0,0)"), [0, 0, 0, 0, 0, 0, 22]);
    // Status GHOST written over COMMITTED: round 1 is decided, round 3 follows it and strikes out round 2.
    let committed =
        "n=3 s(1,1,70) d(0,0) d(0,1) d(1,1) d(2,1) d(3,0) d(3,1) d(4,1) d(5,1) s(2,2,80) d(6,0) d(6,2) d(7,2) \
                     d(8,2) s(0,3,90) d(10,0) d(10,1) d(11,0) d(12,0)";
    let left = run(committed, 1000, 64);
    let statuses: Vec<Status> = nodes(left.table(Slot(0))).map(|node| node.status).collect();
    assert_eq!(statuses, [Status::Committed, Status::Committed, Status::Ghost, Status::Added]);
    assert_eq!(left.result.map(|played| played.ghosts), Ok(1));
    // The first JOIN's value taken in place of the highest voted round's: member 1 voted for 70 in round 1, member 2
    // for 80 in round 2, and round 3 hears of round 1 first.
    let highest = "n=3 s(1,1,70) d(0,0) d(0,1) d(1,1) d(2,1) d(3,1) s(2,2,80) d(5,0) d(5,2) d(6,2) d(7,2) d(8,2) \
                   s(0,3,90) d(10,1) d(10,2) d(11,0) d(12,0)";
    let left = run(highest, 1000, 64);
    assert!(left.answers().iter().all(|answer| *answer == 0), "{:?}", left.answers());
    let rows: Vec<_> = nodes(left.table(Slot(0))).map(|node| (node.round.0, node.parent.0, node.value)).collect();
    assert_eq!(rows, [(0, 0, 0), (1, 0, 70), (2, 0, 80), (3, 2, 80)]);
}

#[derive(Default, Debug)]
struct Reached {
    lists: usize,
    events: usize,
    longest: usize,
    proposed: usize,
    decided: usize,
    taken_over: usize,
    joined_again: usize,
    late_decision: usize,
    two_decisions: usize,
    full_store: usize,
    full_table: usize,
    made_ghost: usize,
    made_several: usize,
    born_ghost: usize,
    two_slots: usize,
    two_slots_decided: usize,
    full_beside_free: usize,
    slot_above_7: usize,
    another_slot: usize,
}

impl Reached {
    fn count(&mut self, run: &Run) {
        let slots = &run.model.slots;
        let accepted: BTreeSet<Slot> = events(run, 0).map(Event::slot).collect();
        self.lists += 1;
        self.events += run.answers.len();
        self.longest = self.longest.max(run.answers.len());
        self.proposed += usize::from(run.proposals().next().is_some());
        self.decided += usize::from(run.decisions().next().is_some());
        self.taken_over += usize::from(run.proposals().any(|(_, made)| made.parent.0 > 0));
        self.joined_again += usize::from(joined_again(run));
        self.late_decision += usize::from(slots.iter().any(decided_late));
        self.two_decisions += usize::from(slots.iter().any(|of_slot| of_slot.decisions().count() > 1));
        self.full_store += usize::from(run.answers.contains(&30));
        self.full_table += usize::from(run.answers.contains(&9));
        self.two_slots += usize::from(accepted.len() > 1);
        self.two_slots_decided += usize::from(slots.iter().filter(|of| of.decisions().next().is_some()).count() > 1);
        let full: BTreeSet<Slot> = events(run, 9).map(Event::slot).collect();
        self.full_beside_free +=
            usize::from(!full.is_empty() && run.proposals().any(|(slot, _)| !full.contains(&slot)));
        self.slot_above_7 += usize::from(events(run, 32).any(|event| !event.slot().in_range()));
        self.another_slot += usize::from(events(run, 32).any(|event| event.slot().in_range()));
        let [made, born] = ghosts(run);
        self.made_ghost += usize::from(made > 0);
        self.made_several += usize::from(made > 1);
        self.born_ghost += usize::from(born > 0);
    }
}

/// The events of a run that got this answer.
fn events(run: &Run, answer: u32) -> impl Iterator<Item = &Event> {
    let events = run.case.list.events.iter().zip(&run.answers);
    events.filter(move |(_, given)| **given == answer).map(|(event, _)| event)
}

/// Whether a round of this slot is decided after a higher one was proposed.
fn decided_late(of_slot: &OfSlot) -> bool {
    let mut highest = Round::ROOT;
    of_slot.made.iter().any(|at| match at.made {
        Made::Proposal(made) => {
            highest = highest.max(made.round);
            false
        }
        Made::Decision(made) => made.round < highest,
    })
}

/// The rounds that the model's proposals made GHOST, and those that were GHOST from the first, since a higher one of the slot was
/// proposed before. Play says the first, and the two are all that are GHOST at the end.
fn ghosts(run: &Run) -> [u32; 2] {
    let made = model_ghosts(&run.model).unwrap().iter().map(|(_, ghosts)| ghosts).sum();
    let born = |of_slot: &OfSlot| {
        let rounds: Vec<Round> = of_slot.proposals().map(|made| made.round).collect();
        (0..rounds.len()).filter(|at| rounds[..*at].iter().any(|before| *before > rounds[*at])).count() as u32
    };
    let born = run.model.slots.iter().map(born).sum();
    let left = run.nodes().filter(|(_, node)| node.status == Status::Ghost).count() as u32;
    assert_eq!((run.left.result.unwrap().ghosts, left), (made, made + born), "{}", run.case.list);
    [made, born]
}

/// Whether a JOIN is sent again. The JOINs of one member and round of a slot are the same.
fn joined_again(run: &Run) -> bool {
    let mut votes = HashMap::new();
    let mut again = false;
    for sent in &run.model.sent {
        let Message::Join { slot, round, sender, vote, .. } = *sent else { continue };
        if let Some(before) = votes.insert((slot, round, sender), vote) {
            assert_eq!(before, vote, "JOIN {round} of member {sender}\n{}", run.case.list);
            again = true;
        }
    }
    again
}

/// What document 01 says of every run, on steered lists; and that the steering reaches what it is to reach.
#[test]
fn third_demand_on_random_lists() {
    let mut random = Random::new(1);
    let mut reached = Reached::default();
    for _ in 0..40_000 {
        let run = Run::new(&second::CALLS, &generate::case(&mut random)).unwrap();
        for property in ALWAYS {
            if let Some(how) = (property.fails)(&second::CALLS, &run) {
                panic!("{}: {how}\n{}", property.name, run.case.list);
            }
        }
        reached.count(&run);
    }
    println!("{reached:#?}");
    assert!(reached.longest > 900);
    let shares = [
        (reached.proposed, 60),
        (reached.decided, 35),
        (reached.taken_over, 30),
        (reached.joined_again, 30),
        (reached.late_decision, 6),
        (reached.two_decisions, 10),
        (reached.full_store, 10),
        (reached.full_table, 5),
        (reached.made_ghost, 10),
        (reached.made_several, 5),
        (reached.born_ghost, 3),
        (reached.two_slots, 15),
        (reached.two_slots_decided, 3),
        (reached.full_beside_free, 1),
        (reached.slot_above_7, 3),
        (reached.another_slot, 10),
    ];
    for (count, percent) in shares {
        assert!(count * 100 >= reached.lists * percent, "{percent}: {reached:#?}");
    }
}
