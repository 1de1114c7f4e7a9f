//! The proved core against the second implementation, lent memory included.

#![cfg(feature = "core")]

mod compared;

use compared::{same, seed};
use kalebasin::tree::{Command, Kind, Tree, Value};
use kalebasin::{ffi, notation, number_of, read_message, sent};
use kalebasin::{Event, EventList, Message, MessageNumber, Refusal, Round, Slot};
use kalebasin::{SLOTS, STORE_ROW, STORE_ROWS, TABLE_ROW, TABLE_ROWS};
use kalebasin_rig::compare::{play, Left, Lent};
use kalebasin_rig::generate::{self, Slots};
use kalebasin_rig::random::Random;
use kalebasin_rig::suite::{self, LOST_JOIN, REHEARSAL};
use kalebasin_rig::{proved, rehearsal, second, Calls};

const PAIR: [&Calls; 2] = [&proved::CALLS, &second::CALLS];

#[test]
fn every_list_of_up_to_four_events() {
    same("short lists", suite::short_lists(PAIR));
}

#[test]
fn every_three_events_after_each_part_of_the_rehearsal() {
    same("rehearsal tails", suite::rehearsal_tails(PAIR));
}

#[test]
fn every_list_of_up_to_four_events_in_slots() {
    same("lists in slots", suite::slot_lists(PAIR));
}

#[test]
fn every_two_events_after_each_part_of_the_rehearsal_in_another_slot() {
    same("rehearsal tails in slots", suite::slot_tails(PAIR));
}

#[test]
fn every_damaged_byte_of_some_lists() {
    same("damaged lists", suite::damaged_lists(PAIR));
}

#[test]
fn every_small_byte_string_as_a_list() {
    same("small list bytes", suite::small_list_bytes(PAIR));
}

#[test]
fn random_lists() {
    same("random lists", suite::random_lists(PAIR, seed(), 120_000, &mut |_| ()));
}

#[test]
fn every_small_message_and_every_damaged_byte() {
    same("messages", suite::messages(PAIR));
}

#[test]
fn every_small_message_delivered() {
    same("messages delivered", suite::delivered_messages(PAIR));
}

#[test]
fn messages_written() {
    same("messages written", suite::written_messages(PAIR));
}

#[test]
fn every_small_record() {
    same("small records", suite::small_records(PAIR));
}

#[test]
fn random_members() {
    same("random members", suite::random_members(PAIR, seed(), 40_000));
}

#[test]
fn every_small_table() {
    same("small tables", suite::small_tables(PAIR));
}

#[test]
fn random_trees() {
    same("random trees", suite::random_trees(PAIR, seed(), 20_000));
}

#[test]
fn rehearsal_to_the_letter() {
    let list = notation::parse(REHEARSAL, None).unwrap().to_bytes();
    let expected = "0 0 0 0 25 0 0 0 0 0 0 0 0 0 0\n0 0 0 3\n1 0 70 3\n2 1 70 1\n".to_owned() + &"0 0 0 3\n".repeat(7);
    assert_eq!(rehearsal::output(&proved::CALLS, &list), (expected, Ok(())));
}

/// The START that comes again gets the bytes of the lost JOIN, and the round is decided; in a full store it gets 30.
#[test]
fn a_lost_join_is_sent_again() {
    let list = notation::parse(LOST_JOIN, None).unwrap().to_bytes();
    let left = play(&proved::CALLS, &list, &Lent::rows(7, 2, 11));
    assert_eq!(left.answers(), [0, 0, 0, 0, 0, 0, 0, 0, 0, 0, 22]);
    assert_eq!(left.table(Slot(0)), [0, 0, 0, 3, 1, 0, 70, 3]);
    let sent: Vec<&[u8]> = sent(left.store(), 7).collect();
    assert_eq!([sent[1], sent[2]], [[0, 0, 0, 0, 0, 0, 0, 2, 0, 0, 0, 1, 0, 0, 0, 0, 0, 0, 0, 0]; 2]);
    assert_eq!(play(&proved::CALLS, &list, &Lent::rows(2, 2, 11)).answers()[..3], [0, 0, 30]);
}

/// The fields of a C result: number, slot, kind, round, sender, present, voted; value.
type Fields = ([u32; 7], u64);

fn fields(raw: &ffi::MessageResult) -> Fields {
    ([raw.number, raw.slot, raw.kind, raw.round, raw.sender, raw.present, raw.voted], raw.value)
}

/// The fields that a read should have: those that the kind doesn't have are 0, on a refusal all but the number.
fn expected_fields(read: Result<Message, Refusal>) -> Fields {
    let Ok(message) = read else { return ([number_of(&read), 0, 0, 0, 0, 0, 0], 0) };
    let (slot, round, sender) = (message.slot().0, message.round().0, message.sender().0);
    match message {
        Message::Start { .. } => ([0, slot, 1, round, sender, 0, 0], 0),
        Message::Join { vote: None, .. } => ([0, slot, 2, round, sender, 0, 0], 0),
        Message::Join { vote: Some(vote), .. } => ([0, slot, 2, round, sender, 1, vote.round.0], vote.value),
        Message::Propose { value, .. } => ([0, slot, 3, round, sender, 0, 0], value),
        Message::Vote { .. } => ([0, slot, 4, round, sender, 0, 0], 0),
    }
}

#[test]
fn message_results_field_by_field() {
    let look = &mut |bytes: &[u8]| {
        // SAFETY: pointer and length come from one slice.
        let raw = unsafe { ffi::kalebasin_read_message(bytes.as_ptr(), bytes.len()) };
        assert_eq!(fields(&raw), expected_fields(second::message::read(bytes)), "{bytes:02x?}");
        Ok(())
    };
    suite::each_message(look).unwrap();
}

/// The number that the order of checks in docs/REFERENCE.md gives to fields to write.
fn number_to_write([slot, kind, round, sender, present, voted]: [u32; 6], value: u64, room: usize) -> u32 {
    let told = kind == 2 && present == 1;
    let spare = (kind != 2 && present != 0) || (!told && voted != 0) || (!told && kind != 3 && value != 0);
    let in_range = (1..=1_000_000).contains(&round) && sender <= 6 && (!told || (1..round).contains(&voted));
    match () {
        () if slot > 7 => 32,
        () if !(1..=4).contains(&kind) => 15,
        () if (kind == 2 && present > 1) || spare => 16,
        () if room < 32 => 18,
        () if !in_range => 16,
        () => 0,
    }
}

/// Fields that are no message too: what is written reads back as them, and a refusal writes nothing.
#[test]
fn fields_written() {
    let mut accepted = 0;
    for code in 0..7 * 6 * 4 * 4 * 4 * 3 * 3 * 4 {
        let digit = |below: usize, of: usize| code / below % of;
        let fields = [
            [0, 7, 8, u32::MAX][digit(24_192, 4)],
            [0, 1, 2, 3, 4, 5, u32::MAX][digit(1, 7)],
            [0, 1, 2, 9, 1_000_000, 1_000_001][digit(7, 6)],
            [0, 6, 7, u32::MAX][digit(42, 4)],
            [0, 1, 2, u32::MAX][digit(168, 4)],
            [0, 1, 8, 9][digit(672, 4)],
        ];
        let (value, room) = ([0, 1, u64::MAX][digit(2_688, 3)], [31, 32, 35][digit(8_064, 3)]);
        let [slot, kind, round, sender, present, voted] = fields;
        let mut buffer = [0xaa; 35];
        // SAFETY: the buffer has at least `room` bytes.
        let written = unsafe {
            let at = buffer.as_mut_ptr();
            ffi::kalebasin_write_message(slot, kind, round, sender, present, voted, value, at, room)
        };
        assert_eq!(written.number, number_to_write(fields, value, room), "{fields:?} {value} into {room} bytes");
        let (message, behind) = buffer.split_at(written.length as usize);
        assert!(behind.iter().all(|byte| *byte == 0xaa), "{fields:?} {value} into {room} bytes");
        if written.number == 0 {
            accepted += 1;
            // SAFETY: pointer and length come from one slice.
            let read = unsafe { ffi::kalebasin_read_message(message.as_ptr(), message.len()) };
            assert_eq!(self::fields(&read), ([0, slot, kind, round, sender, present, voted], value));
        } else {
            assert_eq!(written.length, 0);
        }
    }
    assert!(accepted > 200, "{accepted} messages were written");
}

/// A refused member call gives the record back as it came, of fresh zeros, and 0 in every other field.
#[test]
fn refused_members_field_by_field() {
    let mut record = ffi::MemberRecord::default();
    (record.me, record.n, record.vote, record.flags, record.slot) = (1, 3, u64::MAX, u32::MAX, 7);
    let (mut no_slot, mut sound) = (record, record);
    (no_slot.vote, no_slot.flags, no_slot.slot) = (0, 0, 8);
    (sound.vote, sound.flags) = (0, 0);
    let other_slot = [0, 0, 0, 6, 0, 0, 0, 1, 0, 0, 0, 1, 0, 0, 0, 1];
    let mut reply = [0xaa; 32];
    let (at, room) = (reply.as_mut_ptr(), reply.len());
    // SAFETY: pointers and lengths come from arrays.
    let refused = unsafe {
        [
            (ffi::kalebasin_member_fresh(7, 3, 3), 17, ffi::MemberRecord::default()),
            (ffi::kalebasin_member_fresh(8, 1, 3), 17, ffi::MemberRecord::default()),
            (ffi::kalebasin_member_start(record, 1, 70, at, room), 17, record),
            (ffi::kalebasin_member_start(no_slot, 1, 70, at, room), 17, no_slot),
            (ffi::kalebasin_member_deliver(record, [0; 16].as_ptr(), 16, at, room), 17, record),
            (ffi::kalebasin_member_deliver(no_slot, [0; 16].as_ptr(), 16, at, room), 17, no_slot),
            (ffi::kalebasin_member_deliver(sound, other_slot.as_ptr(), 16, at, room), 32, sound),
            (ffi::kalebasin_member_deliver(sound, other_slot.as_ptr(), 7, at, room), 14, sound),
        ]
    };
    for (result, number, as_it_came) in refused {
        assert_eq!((result.number, result.record), (number, as_it_came));
        assert_eq!((result.sent, result.round, result.parent, result.value), (0, 0, 0, 0));
    }
    assert_eq!(reply, [0xaa; 32]);
}

/// Where the lengths don't fill the words exactly, or one isn't a table's, play gives 1 and changes nothing: not the words, the store and
/// the answers, nor what stands on both sides of them.
#[test]
fn lengths_that_do_not_fill_the_words() {
    let list = notation::parse("s(1,1,70) 7:s(1,1,80)", None).unwrap().to_bytes();
    let untouched = |lent: &Lent| {
        let calls = Calls { play: |_, _, _, _, _| Err(Refusal::TableLength), ..second::CALLS };
        play(&calls, &list, lent)
    };
    let fitting = Lent { tables: [8, 4, 16, 4, 4, 1_024, 4, 12], dirt: 9, ..Lent::rows(4, 1, 3) };
    let left = PAIR.map(|calls| play(calls, &list, &fitting));
    assert!(left[0] == left[1] && left[0].result.is_ok());
    let with = |change: &dyn Fn(&mut Lent)| {
        let mut lent = fitting;
        change(&mut lent);
        lent
    };
    let misfits = [-1_076, -1_075, -12, -8, -4, -1, 1, 4, 8].map(|misfit| with(&|lent| lent.misfit = misfit));
    let lengths = [0, 1, 3, 5, 1_025, 1_028];
    let odd = (0..SLOTS).flat_map(|slot| lengths.map(|length| with(&|lent| lent.tables[slot] = length)));
    // the sum of the lengths is the count of the words, and some lengths aren't those of tables
    let moved = (1..SLOTS).flat_map(|slot| {
        [1, 2, 4].map(|words| with(&|lent| (lent.tables[0], lent.tables[slot]) = (4 + words, 4 - words)))
    });
    for lent in misfits.into_iter().chain(odd).chain(moved) {
        let left = play(&proved::CALLS, &list, &lent);
        assert!(left == untouched(&lent), "{lent:?}: {:?}", left.result);
        assert!(left == play(&second::CALLS, &list, &lent), "{lent:?}");
    }
    // a sum that is the count of the words once it has grown past the highest count
    let mut words = [7; 32];
    let lengths = [usize::MAX - 27, 4, 4, 4, 4, 4, 4, 36];
    let (mut store, mut answers) = ([7; 32], [7; 2]);
    for calls in PAIR {
        let refused = (calls.play)(&list, &mut store, &mut words, &lengths, &mut answers);
        assert_eq!((refused, words, store, answers), (Err(Refusal::TableLength), [7; 32], [7; 32], [7; 2]));
    }
}

/// What happens in one slot leaves every other as it is: of lists in two slots, the events of one of them get the same answers alone,
/// and leave the same tree.
#[test]
fn each_slot_alone() {
    let (mut random, mut proposals, mut decisions) = (Random::new(seed()), 0, 0);
    let slots = Slots { used: vec![Slot(2), Slot(5)], stray: 5 };
    let lent = Lent::rows(STORE_ROWS, 8, 150);
    for _ in 0..300 {
        let list = generate::list_in(&slots, &mut random, 3, 150, STORE_ROWS, [8; SLOTS]).unwrap();
        let left = play(&proved::CALLS, &list.to_bytes(), &lent);
        let played = left.result.unwrap();
        (proposals, decisions) = (proposals + played.proposals, decisions + played.decisions);
        for slot in Slot::ALL {
            let (alone, answers) = alone(&list, &left, played.messages, slot);
            let apart = play(&proved::CALLS, &alone.to_bytes(), &lent);
            assert_eq!(apart.answers()[..answers.len()], answers, "slot {slot} of {list}");
            assert_eq!(apart.table(slot), left.table(slot), "slot {slot} of {list}");
        }
    }
    assert!(proposals > 600 && decisions > 60, "{proposals} proposals, {decisions} decisions");
}

/// The events of a slot but for those with 29 and 32, with the messages of the slot numbered from 0, and the answers that they got.
fn alone(list: &EventList, left: &Left, messages: u32, slot: Slot) -> (EventList, Vec<u8>) {
    let of_slot: Vec<bool> =
        sent(left.store(), messages).map(|bytes| read_message(bytes).unwrap().slot() == slot).collect();
    let number = |message: MessageNumber| of_slot[..message.0 as usize].iter().filter(|own| **own).count() as u32;
    let taken = list
        .events
        .iter()
        .zip(left.answers())
        .filter(|(event, answer)| event.slot() == slot && ![29, 32].contains(*answer));
    let mut alone = EventList::new(list.n);
    let mut answers = Vec::new();
    for (event, answer) in taken {
        alone.events.push(match *event {
            Event::Deliver { message, member, .. } => {
                Event::deliver(MessageNumber(number(message)), member).in_slot(slot)
            }
            start => start,
        });
        answers.push(*answer);
    }
    (alone, answers)
}

/// A refused play, add, preview or path has 0 in every other field.
#[test]
fn refused_results_field_by_field() {
    let (mut store, mut table, mut answers) = ([0u8; 32], [0u64; 8], [0u8; 4]);
    let (mut second, mut out) = ([0u64; 8], [0u64; 4]);
    let list = notation::parse("n=4 s(1,1,70)", None).unwrap().to_bytes();
    // SAFETY: each pointer and length come from one slice.
    let (played, adds, previews, paths) = unsafe {
        let played = ffi::kalebasin_play(
            list.as_ptr(),
            list.len(),
            store.as_mut_ptr(),
            store.len(),
            table.as_mut_ptr(),
            table.len(),
            &[1; SLOTS],
            answers.as_mut_ptr(),
            answers.len(),
        );
        let (words, length, rounds, room) = (table.as_mut_ptr(), table.len(), out.as_mut_ptr(), out.len());
        let shown = second.as_mut_ptr();
        let adds =
            [ffi::kalebasin_tree_add(words, length, 1, 70, 0), ffi::kalebasin_command_add(words, length, 1, 70, 0)];
        let previews = [
            ffi::kalebasin_tree_preview(words, length, shown, length, 1, 70, 0),
            ffi::kalebasin_command_preview(words, length, shown, length, 1, 70, 0),
        ];
        let paths = [
            ffi::kalebasin_tree_path(words, length, 0, rounds, room),
            ffi::kalebasin_command_path(words, length, 0, rounds, room),
        ];
        (played, adds, previews, paths)
    };
    let counts = [played.accepted, played.messages, played.proposals, played.decisions, played.ghosts];
    assert_eq!((played.number, counts), (27, [0; 5]));
    assert_eq!([adds, previews], [[ffi::AddResult { number: 2, ghosts: 0 }; 2]; 2]);
    assert_eq!(paths, [ffi::PathResult { number: 2, count: 0 }; 2]);
}

/// A full table, with the value and the status of its last round.
const fn full(value: u64, status: u64) -> [u64; 12] {
    [0, 0, 0, 3, 2, 0, 70, 1, 4, 2, value, status]
}

/// An add that is refused: the table, the round, the value, the parent, and the number of each kind.
struct Refused([u64; 12], u32, u64, u32, [u32; 2]);

/// But for the one with 6, each one's edge crosses a round that is ADDED. One table is a tree of commands alone, and one has a
/// COMMITTED round.
const REFUSED: [Refused; 8] = [
    Refused(full(80, 1), 5, 80, 0, [2, 9]),
    Refused(full(70, 1), 1_000_001, 70, 0, [3, 3]),
    Refused(full(70, 1), 4, 70, 0, [4, 4]),
    Refused(full(70, 1), 5, 70, 1, [5, 5]),
    Refused(full(70, 1), 3, 70, 4, [6, 6]),
    Refused(full(70, 1), 5, 80, 2, [7, 9]),
    Refused(full(70, 3), 5, 80, 0, [8, 8]),
    Refused(full(70, 1), 5, 80, 0, [9, 9]),
];

/// A refused add counts none and changes nothing.
#[test]
fn refused_adds_count_none() {
    type Add = unsafe extern "C" fn(*mut u64, usize, u32, u64, u32) -> ffi::AddResult;
    let adds: [Add; 2] = [ffi::kalebasin_tree_add, ffi::kalebasin_command_add];
    for Refused(before, round, value, parent, numbers) in REFUSED {
        for (add, number) in adds.into_iter().zip(numbers) {
            let mut table = before;
            // SAFETY: pointer and length come from one array.
            let result = unsafe { add(table.as_mut_ptr(), table.len(), round, value, parent) };
            assert_eq!((result, table), (ffi::AddResult { number, ghosts: 0 }, before));
        }
    }
}

/// A refused preview counts none and leaves both tables, whatever the second holds: 1 for the length of the first, 31 where the
/// second has another, then what the add gets.
#[test]
fn refused_previews_count_none() {
    type Preview = unsafe extern "C" fn(*const u64, usize, *mut u64, usize, u32, u64, u32) -> ffi::AddResult;
    let previews: [Preview; 2] = [ffi::kalebasin_tree_preview, ffi::kalebasin_command_preview];
    let fresh: [u64; 16] = std::array::from_fn(|word| if word == 3 { 3 } else { 0 });
    let lengths = [(12, 0, 31), (12, 8, 31), (12, 11, 31), (12, 16, 31), (11, 11, 1), (11, 12, 1), (0, 0, 1)];
    for Refused(before, round, value, parent, numbers) in REFUSED {
        for (preview, number) in previews.into_iter().zip(numbers) {
            for (length, room, number) in lengths.into_iter().chain([(12, 12, number)]) {
                for held in [fresh, [u64::MAX; 16]] {
                    let (mut table, mut second) = (before, held);
                    let (words, shown) = (table.as_mut_ptr(), second.as_mut_ptr());
                    // SAFETY: the arrays have at least so many words each.
                    let result = unsafe { preview(words, length, shown, room, round, value, parent) };
                    assert_eq!((result, table, second), (ffi::AddResult { number, ghosts: 0 }, before, held));
                }
            }
        }
    }
}

/// Runs some work on a thread whose whole stack is 64 KiB; more than that ends the program.
fn on_a_small_stack<T: Send>(work: impl FnOnce() -> T + Send) -> T {
    std::thread::scope(|scope| {
        let thread = std::thread::Builder::new().stack_size(64 * 1024).spawn_scoped(scope, work);
        thread.unwrap().join().unwrap()
    })
}

/// The largest plays, of any order: 1,000 events, seven members, 2,000 store rows, 256 table rows in each slot; in one slot, and in all.
#[test]
fn the_largest_plays_on_a_stack_of_64_kib() {
    largest_play(&Slots::one(Slot(7)), 30);
    largest_play(&Slots { used: Slot::ALL.into(), stray: 1 }, 20);
}

fn largest_play(slots: &Slots, proposals: u32) {
    let list = generate::list_in(slots, &mut Random::new(5), 7, EventList::MOST, STORE_ROWS, [TABLE_ROWS; SLOTS]);
    let list = list.unwrap().to_bytes();
    let lent = || (vec![1; STORE_ROWS * STORE_ROW], vec![1; SLOTS * TABLE_ROWS * TABLE_ROW], vec![1; EventList::MOST]);
    let play = |calls: &Calls, (store, words, answers): &mut (Vec<u8>, Vec<u64>, Vec<u8>)| {
        (calls.play)(&list, store, words, &[TABLE_ROWS * TABLE_ROW; SLOTS], answers).unwrap()
    };
    let (mut left, mut expected) = (lent(), lent());
    let played = on_a_small_stack(|| play(&proved::CALLS, &mut left));
    assert_eq!((played, &left), (play(&second::CALLS, &mut expected), &expected));
    assert!(played.accepted > 900 && played.proposals > proposals && played.decisions > 1, "{played:?}");
}

/// The deepest recursion of the core: a path of 256 rounds.
#[test]
fn the_longest_path_on_a_stack_of_64_kib() {
    longest_path::<Value>();
    longest_path::<Command>();
}

fn longest_path<K: Kind>() {
    let (mut table, mut path) = (vec![1; TABLE_ROWS * TABLE_ROW], vec![0; TABLE_ROWS]);
    let count = on_a_small_stack(|| {
        let mut tree = Tree::<K, _>::fresh(&mut table)?;
        for round in 1..TABLE_ROWS as u32 {
            tree.add(Round(round), 70, Round(round - 1))?;
            tree.commit(Round(round))?;
        }
        tree.path(Round(TABLE_ROWS as u32 - 1), &mut path)
    });
    assert_eq!(count, Ok(TABLE_ROWS));
    assert!(path.iter().copied().eq(0..TABLE_ROWS as u64));
}

/// The largest preview: in a table of 256 rows with one free, of an add that makes all rounds GHOST. The add then does the same.
#[test]
fn the_largest_preview_on_a_stack_of_64_kib() {
    largest_preview::<Value>();
    largest_preview::<Command>();
}

fn largest_preview<K: Kind>() {
    let (mut table, mut second) = (vec![1; TABLE_ROWS * TABLE_ROW], vec![u64::MAX; TABLE_ROWS * TABLE_ROW]);
    let last = TABLE_ROWS as u32 - 1;
    let ghosts = on_a_small_stack(|| {
        let mut tree = Tree::<K, _>::fresh(&mut table)?;
        for round in 1..last {
            tree.add(Round(round), 70, Round(round - 1))?;
        }
        Ok([tree.preview(&mut second, Round(last), 80, Round::ROOT)?, tree.add(Round(last), 80, Round::ROOT)?])
    });
    assert_eq!(ghosts, Ok::<_, Refusal>([last - 1; 2]));
    assert_eq!(second, table);
}

#[test]
fn members_on_a_stack_of_64_kib() {
    same("members on a small stack", on_a_small_stack(|| suite::random_members(PAIR, seed(), 2_000)));
}
