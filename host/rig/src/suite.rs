//! The comparison of two implementations, part by part. Each part returns how many calls it compared, or a report of
//! the first difference with the smallest input that shows it.

use crate::compare::{compare, compare_bytes, Lent};
use crate::generate::{self, Case};
use crate::random::Random;
use crate::second::message;
use crate::shrink::shortest;
use crate::Calls;
use kalebasin::notation::parse;
use kalebasin::{
    nodes, number_of, Event, EventList, Member, MemberFields, Message, MessageNumber, Node, Refusal, Report, Round,
    Slot, TreeCall, TreeKind, Vote, SLOTS, STORE_ROW, TABLE_ROW,
};
use std::collections::BTreeSet;

/// The two implementations; the second is the reference.
pub type Pair<'a> = [&'a Calls; 2];
/// How many calls were compared, or a report of the first difference.
pub type Compared = Result<usize, String>;

/// Document 01's rehearsal.
pub const REHEARSAL: &str = "n=3 s(1,1,70) d(0,0) d(0,1) d(1,1) d(1,1) d(2,1) d(3,0) s(2,2,80) d(5,0) d(5,2) d(7,2) \
                             d(6,2) d(3,1) d(4,1) d(9,1)";

/// Document 02's lost JOIN: no event delivers message 1, the START is delivered again, message 2 is the same JOIN, and round 1
/// is decided. After its vote the member refuses the START.
pub const LOST_JOIN: &str = "n=3 s(1,1,70) d(0,0) d(0,0) d(0,1) d(2,1) d(3,1) d(4,0) d(4,1) d(5,1) d(6,1) d(0,0)";

/// Rounds 1 and 2 are made GHOST by round 4; round 3, proposed behind it, is GHOST from the first.
pub const MADE_GHOST: &str = "n=3 s(1,1,70) d(0,0) d(0,1) d(1,1) d(2,1) d(3,0) s(2,2,80) d(5,0) d(5,2) d(6,2) d(7,2) \
                              s(0,3,90) d(9,1) d(9,2) d(10,0) s(1,4,60) d(12,1) d(12,2) d(13,1) d(14,1) d(11,0)";

fn rehearsal() -> EventList {
    parse(REHEARSAL, None).expect("the rehearsal is written correctly")
}

fn deliveries(messages: u32, members: u32) -> impl Iterator<Item = Event> {
    (0..messages)
        .flat_map(move |message| (0..members).map(move |member| Event::deliver(MessageNumber(message), Member(member))))
}

fn start(member: u32, round: u32, offer: u64) -> Event {
    Event::start(Member(member), Round(round), offer)
}

/// Every list of up to 4 events for three members from 27: the starts of rounds 1 to 3 by anyone, starts out of range,
/// messages 0 to 3 to anyone, a member and a message that aren't there.
pub fn short_lists(calls: Pair) -> Compared {
    let mut alphabet: Vec<Event> =
        (0..3).flat_map(|member| (1..=3).map(move |round| start(member, round, 7))).collect();
    alphabet.extend([start(3, 1, 7), start(1, 0, 7), start(1, 1_000_001, 7), start(1, 4, 8)]);
    alphabet.extend(
        deliveries(4, 3)
            .chain([(0, 3), (4, 0)].map(|(message, member)| Event::deliver(MessageNumber(message), Member(member)))),
    );
    let mut list = EventList::new(3);
    each_tail(calls, &alphabet, 4, &mut list, Lent { dirt: 77, ..Lent::rows(3, 2, 0) })
}

/// Each beginning of the rehearsal, followed by every 3 events from 33: messages 0 to 9 to anyone,
/// and later starts.
pub fn rehearsal_tails(calls: Pair) -> Compared {
    let mut alphabet: Vec<Event> = deliveries(10, 3).collect();
    alphabet.extend([start(2, 2, 80), start(0, 3, 90), start(1, 4, 60)]);
    let whole = rehearsal();
    let mut compared = 0;
    for length in 0..=whole.events.len() {
        let mut list: EventList = whole.events[..length].iter().copied().collect();
        compared += each_tail(calls, &alphabet, 3, &mut list, Lent { dirt: 99, ..Lent::rows(11, 3, 0) })?;
    }
    Ok(compared)
}

/// Every list of up to 4 events for three members from 22: starts of round 1 in slots 0, 7 and 8, messages 0 to 2 to members 0
/// and 1 there, and a member and a message that aren't there, in slot 8. The tables differ in length.
pub fn slot_lists(calls: Pair) -> Compared {
    let slots = [0, 7, 8].map(Slot);
    let mut alphabet: Vec<Event> = slots.iter().map(|slot| start(1, 1, 7).in_slot(*slot)).collect();
    alphabet.extend(slots.iter().flat_map(|slot| deliveries(3, 2).map(|event| event.in_slot(*slot))));
    alphabet.push(Event::deliver(MessageNumber(9), Member(9)).in_slot(Slot(8)));
    let tables = [2, 1, 3, 1, 1, 4, 1, 2].map(|rows| rows * TABLE_ROW);
    each_tail(calls, &alphabet, 4, &mut EventList::new(3), Lent { dirt: 88, tables, ..Lent::rows(3, 0, 0) })
}

/// Each beginning of the rehearsal in slot 5, followed by every 2 events from 66: messages 0 to 9 to anyone, and later starts,
/// in slots 5 and 0.
pub fn slot_tails(calls: Pair) -> Compared {
    let mut alphabet: Vec<Event> = deliveries(10, 3).collect();
    alphabet.extend([start(2, 2, 80), start(0, 3, 90), start(1, 4, 60)]);
    alphabet.extend(alphabet.clone().iter().map(|event| event.in_slot(Slot(5))));
    let whole = rehearsal();
    let mut compared = 0;
    for length in 0..=whole.events.len() {
        let mut list: EventList = whole.events[..length].iter().map(|event| event.in_slot(Slot(5))).collect();
        compared += each_tail(calls, &alphabet, 2, &mut list, Lent { dirt: 66, ..Lent::rows(11, 3, 0) })?;
    }
    Ok(compared)
}

/// Compares the list and every longer one by up to `more` events.
fn each_tail(calls: Pair, alphabet: &[Event], more: usize, list: &mut EventList, lent: Lent) -> Compared {
    let lent = Lent { answers: list.events.len() + 1, ..lent };
    if compare_bytes(calls, &list.to_bytes(), &lent).is_some() {
        return Err(report(calls, Case { list: list.clone(), lent }));
    }
    let mut compared = 1;
    if more > 0 {
        for event in alphabet {
            list.events.push(*event);
            compared += each_tail(calls, alphabet, more - 1, list, lent)?;
            list.events.pop();
        }
    }
    Ok(compared)
}

/// The difference that a case shows, with the shortest list found that shows one.
fn report(calls: Pair, case: Case) -> String {
    let shortest = shortest(case, &mut |case| compare(calls, case).is_some());
    let how = compare(calls, &shortest).unwrap_or_default();
    format!("{how}\nthe shortest list found: {}\nlent: {:?}", shortest.list, shortest.lent)
}

fn report_bytes(calls: Pair, bytes: &[u8], lent: &Lent) -> Option<String> {
    let how = compare_bytes(calls, bytes, lent)?;
    match EventList::from_bytes(bytes) {
        Ok(list) => Some(report(calls, Case { list, lent: *lent })),
        Err(_) => Some(format!("{how}\nlist bytes: {bytes:02x?}\nlent: {lent:?}")),
    }
}

/// Every one-byte damage of some lists, each shorter one, and each longer by a byte.
pub fn damaged_lists(calls: Pair) -> Compared {
    let others = [
        "n=5 s(1,1,70) d(0,4) s(2,1000000,18446744073709551615)",
        "n=7 s(6,6,0) d(0,6) d(1,6)",
        "n=3 7:s(1,1,70) s(1,1,80) 7:d(0,1) 7:d(1,1) 7:d(2,1) 8:d(0,1)",
        "n=3",
    ];
    let mut lists = vec![rehearsal().to_bytes()];
    lists.extend(others.map(|text| parse(text, None).expect("the lists are written correctly").to_bytes()));
    let lent = Lent { dirt: 11, ..Lent::rows(12, 4, 16) };
    let mut compared = 0;
    for list in lists {
        each_damage(&list, &mut |damaged| {
            compared += 1;
            report_bytes(calls, damaged, &lent).map_or(Ok(()), Err)
        })?;
    }
    Ok(compared)
}

/// Every byte string of up to 2 bytes as a list, and every sequence of a few small words.
pub fn small_list_bytes(calls: Pair) -> Compared {
    let lent = Lent { dirt: 12, ..Lent::rows(2, 2, 3) };
    let mut compared = 0;
    let mut look = |bytes: &[u8]| {
        compared += 1;
        report_bytes(calls, bytes, &lent).map_or(Ok(()), Err)
    };
    each_byte_string(2, &mut look)?;
    each_word_string(&[0, 1, 2, 3, 4, 5, 7, 1_000, 1_001, u32::MAX], 5, &mut look)?;
    each_word_string(&[0, 1, 2, 3], 8, &mut look)?;
    each_word_string(&[1, 2, 3, 7, 8], 6, &mut look)?;
    Ok(compared)
}

/// Random lists, most as [`generate::case`] steers them, others with odd lengths, odd N or damaged bytes.
pub fn random_lists(calls: Pair, seed: u64, lists: usize, tell: &mut dyn FnMut(usize)) -> Compared {
    let mut random = Random::new(seed);
    for number in 0..lists {
        let mut case = generate::case(&mut random);
        if random.chance(15) {
            make_odd(&mut case, &mut random);
        }
        let mut bytes = case.list.to_bytes();
        if random.chance(3) {
            let at = random.below(bytes.len());
            bytes[at] = random.number() as u8;
        }
        if let Some(how) = report_bytes(calls, &bytes, &case.lent) {
            return Err(format!("{how}\nseed {seed}, list {number}"));
        }
        tell(number + 1);
    }
    Ok(lists)
}

/// Lengths and an N that may not be allowed, and tables that may not fill the words lent.
fn make_odd(case: &mut Case, random: &mut Random) {
    match random.below(6) {
        0 => case.lent.store = odd_length(case.lent.store, 2_001 * STORE_ROW, random),
        1 | 2 => {
            let slot = random.below(SLOTS);
            case.lent.tables[slot] = odd_length(case.lent.tables[slot], 1_032, random);
        }
        3 => case.lent.misfit = random.between(0, 8) as isize - 4,
        4 => case.lent.answers = odd_length(case.list.events.len(), 1_100, random),
        _ => case.list.n = random.below(10) as u32,
    }
}

fn odd_length(length: usize, most: usize, random: &mut Random) -> usize {
    match random.below(3) {
        0 => random.between(0, most),
        1 => length.saturating_sub(random.between(0, 8)),
        _ => length + random.between(0, 8),
    }
}

/// Messages of every kind, in range and just within it, in slots 0 and 7.
pub fn valid_messages() -> Vec<Vec<u8>> {
    let mut messages = Vec::new();
    for round in [1, 2, 300, 1_000_000].map(Round) {
        for sender in [0, 3, 6].map(Member) {
            messages.extend([
                Message::start(round, sender),
                Message::vote(round, sender),
                Message::join(round, sender, None),
                Message::propose(round, sender, 0x0102_0304_0506_0708),
            ]);
            for voted in [1, 299, 999_999].map(Round).into_iter().filter(|voted| *voted < round) {
                messages.push(Message::join(round, sender, Some(Vote { round: voted, value: u64::MAX })));
            }
        }
    }
    let bytes = |message: &Message| {
        let mut buffer = vec![0; Message::LONGEST];
        let length = message::write(message, &mut buffer).expect("the fields are in range");
        buffer.truncate(length);
        buffer
    };
    let in_slot = |slot| messages.iter().map(move |message| bytes(&message.in_slot(slot)));
    in_slot(Slot(0)).chain(in_slot(Slot(7))).collect()
}

/// Looks at message bytes: all that `each_spelt_message` gives, and every byte string of up to 3 bytes.
pub fn each_message(look: &mut Look) -> Result<(), String> {
    each_spelt_message(look)?;
    each_byte_string(3, look)
}

/// Looks at every one-byte damage of valid messages, each shorter one, and each longer by a byte; and at every sequence of a few
/// words behind slots there and not.
fn each_spelt_message(look: &mut Look) -> Result<(), String> {
    valid_messages().iter().try_for_each(|message| each_damage(message, look))?;
    for slot in [0, 7, 8, u32::MAX] {
        let mut behind = |words: &[u8]| look(&[&slot.to_be_bytes(), words].concat());
        each_word_string(&[0, 1, 2, 5, 7, 1_000_001], if slot == 0 { 7 } else { 6 }, &mut behind)?;
        each_word_string(&[0, 1, 2, 3, 4, 5, 6, 7, 1_000_000, 1_000_001, u32::MAX], 5, &mut behind)?;
    }
    Ok(())
}

/// The message reader on all that [`each_message`] gives.
pub fn messages(calls: Pair) -> Compared {
    let mut compared = 0;
    each_message(&mut |bytes| {
        compared += 1;
        let read = calls.map(|calls| (calls.read_message)(bytes));
        if read[0] == read[1] {
            return Ok(());
        }
        let names = calls.map(|calls| calls.name);
        Err(format!("{} reads {:?}, {} reads {:?}\nmessage bytes: {bytes:02x?}", names[0], read[0], names[1], read[1]))
    })?;
    Ok(compared)
}

/// All that `each_spelt_message` gives, delivered to the leader of round 2 of seven members, in slots 0 and 7.
pub fn delivered_messages(calls: Pair) -> Compared {
    let (mut compared, mut reply) = (0, [0; Message::LONGEST]);
    for slot in [Slot(0), Slot(7)] {
        let mut leader = (calls[1].member_fresh)(slot, Member(2), 7).map_err(|refusal| refusal.to_string())?;
        (calls[1].member_start)(&mut leader, Round(2), 70, &mut reply).map_err(|refusal| refusal.to_string())?;
        each_spelt_message(&mut |bytes| {
            compared += 1;
            compare_member(calls, &leader, &MemberCall::Deliver(bytes.to_vec()), Message::LONGEST).map(|_| ())
        })?;
    }
    Ok(compared)
}

/// The writer on messages in range and out of it, and on buffers of every length up to 34 bytes.
pub fn written_messages(calls: Pair) -> Compared {
    let mut compared = 0;
    for round in [0, 1, 2, 300, 1_000_000, 1_000_001, u32::MAX].map(Round) {
        for sender in [0, 6, 7, u32::MAX].map(Member) {
            let mut messages = vec![
                Message::start(round, sender),
                Message::vote(round, sender),
                Message::join(round, sender, None),
                Message::propose(round, sender, u64::MAX),
            ];
            for voted in [0, 1, round.0.wrapping_sub(1), round.0].map(Round) {
                messages.push(Message::join(round, sender, Some(Vote { round: voted, value: 0x0102_0304_0506_0708 })));
            }
            let slots = [0, 3, 7, 8, u32::MAX].map(Slot);
            for message in messages.iter().flat_map(|message| slots.map(|slot| message.in_slot(slot))) {
                for room in 0..=34 {
                    compared += 1;
                    let left = calls.map(|calls| {
                        let mut buffer = vec![0xaa; room];
                        ((calls.write_message)(&message, &mut buffer), buffer)
                    });
                    if left[0] != left[1] {
                        let names = calls.map(|calls| calls.name);
                        let (one, other) = (&left[0], &left[1]);
                        return Err(format!(
                            "{message} into {room} bytes\n{}: {one:?}\n{}: {other:?}",
                            names[0], names[1]
                        ));
                    }
                }
            }
        }
    }
    Ok(compared)
}

/// A call of a member.
#[derive(Clone, Debug, PartialEq, Eq, Hash)]
enum MemberCall {
    Fresh(Slot, Member, u32),
    Start(Round, u64),
    Deliver(Vec<u8>),
}

/// What a member call left: its answer, the record and the reply with a guard behind it.
#[derive(Clone, Debug, PartialEq, Eq)]
struct MemberLeft {
    answer: Result<Report, Refusal>,
    fields: MemberFields,
    reply: Vec<u8>,
}

fn member_call(calls: &Calls, fields: &MemberFields, call: &MemberCall, room: usize) -> MemberLeft {
    let mut left = MemberLeft { answer: Ok(Report::default()), fields: *fields, reply: vec![0xaa; room + GUARD] };
    let reply = &mut left.reply[..room];
    left.answer = match call {
        MemberCall::Fresh(slot, number, n) => (calls.member_fresh)(*slot, *number, *n).map(|fresh| {
            left.fields = fresh;
            Report::default()
        }),
        MemberCall::Start(round, offer) => (calls.member_start)(&mut left.fields, *round, *offer, reply),
        MemberCall::Deliver(bytes) => (calls.member_deliver)(&mut left.fields, bytes, reply),
    };
    left
}

/// Makes a member call by both; the number that they give, or how they differ.
fn compare_member(calls: Pair, fields: &MemberFields, call: &MemberCall, room: usize) -> Result<u32, String> {
    let [one, other] = calls.map(|calls| member_call(calls, fields, call, room));
    if one == other {
        return Ok(number_of(&other.answer));
    }
    let names = calls.map(|calls| calls.name);
    Err(format!(
        "{call:02x?} with {room} bytes for the reply on {fields:?}\n{}: {one:02x?}\n{}: {other:02x?}",
        names[0], names[1]
    ))
}

/// The numbers that member calls give.
const MEMBER_NUMBERS: [u32; 15] = [0, 3, 14, 15, 16, 17, 18, 19, 20, 21, 22, 23, 24, 25, 32];

/// The members that a START can find, by what they have joined and voted in.
const FOUND: [&str; 5] = [
    "in a lower round",
    "in its round that never voted",
    "in its round that voted in a lower one",
    "that voted in its round last",
    "in a higher round",
];

/// Which of [`FOUND`] a call finds that got this number; none where it is no START or the number is another than its row's.
fn found_by_start(fields: &MemberFields, call: &MemberCall, number: u32) -> Option<&'static str> {
    let MemberCall::Deliver(bytes) = call else { return None };
    let Ok(Message::Start { round, .. }) = message::read(bytes) else { return None };
    let found = match (fields.joined, fields.voted) {
        (joined, _) if joined < round => 0,
        (joined, _) if joined > round => 4,
        (_, voted) if voted == round => 3,
        (_, Round::ROOT) => 1,
        _ => 2,
    };
    let expected = if found < 3 { 0 } else { Refusal::MovedPast.number() };
    (number == expected).then_some(FOUND[found])
}

/// Random calls on random members, each on the record that the calls before have left, and on a damaged copy of it. That
/// every number is given is part of it, and that STARTs find members in every stage of a round.
pub fn random_members(calls: Pair, seed: u64, members: usize) -> Compared {
    let mut random = Random::new(seed);
    let (mut compared, mut given, mut found) = (0, BTreeSet::new(), BTreeSet::new());
    for _ in 0..members {
        let n = *random.pick(&[3, 3, 5, 7]);
        let (slot, number) = (*random.pick(&Slot::ALL), Member(random.below(n as usize) as u32));
        let mut fields = (calls[1].member_fresh)(slot, number, n).map_err(|refusal| refusal.to_string())?;
        for _ in 0..random.between(1, 40) {
            let call = random_member_call(&mut random, &fields);
            let room = *random.pick(&[32, 32, 32, 32, 40, 31, 0]);
            for fields in [fields, damaged_fields(&fields, &mut random)] {
                let number = compare_member(calls, &fields, &call, room)?;
                given.insert(number);
                found.extend(found_by_start(&fields, &call, number));
                compared += 1;
            }
            if !matches!(call, MemberCall::Fresh(..)) {
                fields = member_call(calls[1], &fields, &call, room).fields;
            }
        }
    }
    if let Some(number) = MEMBER_NUMBERS.iter().find(|number| !given.contains(number)) {
        return Err(format!("no call got {number}"));
    }
    match FOUND.iter().find(|member| !found.contains(*member)) {
        Some(member) => Err(format!("no START found a member {member}")),
        None => Ok(compared),
    }
}

/// Every record of three members of slot 3 with small numbers, sound or not: on a sound one every call with small numbers, on any
/// other one start and one delivery; and a start on the same record in slot 8.
pub fn small_records(calls: Pair) -> Compared {
    let every = small_member_calls();
    let some = [every[0].clone(), every[every.len() - 1].clone()];
    let (mut compared, mut sound) = (0, 0);
    for code in 0..4 * 4 * 4 * 2 * 4 * 5 * 2 * 4 * 16 {
        let digit = |below: u32, of: u32| code / below % of;
        let mut fields = MemberFields::default();
        fields.slot = Slot(3);
        fields.number = Member(digit(1, 4));
        fields.members = 3;
        fields.joined = Round(digit(4, 4));
        fields.voted = Round(digit(16, 4));
        fields.vote = u64::from(7 * digit(64, 2));
        fields.led = Round(digit(128, 4));
        fields.phase = digit(512, 5);
        fields.value = u64::from(8 * digit(2_560, 2));
        fields.source = Round(digit(5_120, 4));
        fields.flags = digit(20_480, 16);
        let number = compare_member(calls, &fields, &some[0], Message::LONGEST)?;
        let is_sound = number != Refusal::RecordUnsound.number();
        sound += usize::from(is_sound);
        for call in if is_sound { &every[..] } else { &some[1..] } {
            compare_member(calls, &fields, call, Message::LONGEST)?;
            compared += 1;
        }
        compare_member(calls, &fields, &some[1], Message::LONGEST - 1)?;
        fields.slot = Slot(8);
        compare_member(calls, &fields, &some[0], Message::LONGEST)?;
        compared += 3;
    }
    match sound {
        0 => Err("no record was sound".into()),
        _ => Ok(compared),
    }
}

/// Starts and messages of rounds 0 to 4 in slot 3, one in each other slot and in slot 8, and a message of no kind at the end.
fn small_member_calls() -> Vec<MemberCall> {
    let rounds = || (0..=4).map(Round);
    let mut calls: Vec<_> = rounds().flat_map(|round| [0, 7, 8].map(|offer| MemberCall::Start(round, offer))).collect();
    for round in rounds() {
        for sender in (0..4).map(Member) {
            let mut messages =
                vec![Message::start(round, sender), Message::join(round, sender, None), Message::vote(round, sender)];
            for value in [0, 7, 8] {
                messages.push(Message::propose(round, sender, value));
                messages.extend(rounds().map(|voted| Message::join(round, sender, Some(Vote { round: voted, value }))));
            }
            calls.extend(messages.iter().map(|message| deliver_in(Slot(3), message)));
        }
    }
    let start = Message::start(Round(1), Member(1));
    calls.extend((0..=8).map(Slot).filter(|slot| *slot != Slot(3)).map(|slot| deliver_in(slot, &start)));
    calls.push(MemberCall::Deliver([0, 0, 0, 3].into_iter().chain([0; 12]).collect()));
    calls
}

fn deliver_in(slot: Slot, message: &Message) -> MemberCall {
    MemberCall::Deliver(message_bytes(&message.in_slot(slot)))
}

/// A call that the member may accept: its next rounds, the messages that it waits for, votes and values of its own.
fn random_member_call(random: &mut Random, fields: &MemberFields) -> MemberCall {
    let n = fields.members;
    let value = *random.pick(&[7, 8, fields.vote, fields.value]);
    let near = fields.joined.0.max(fields.led.0) + random.below(9) as u32;
    let round = Round(*random.pick(&[near, near, fields.led.0, fields.led.0, fields.joined.0, 0, 999_999, 1_000_001]));
    let (any, any_slot) = (Member(random.below(9) as u32), Slot(random.below(SLOTS + 1) as u32));
    let sender = if random.chance(80) { round.leader(n).unwrap_or(any) } else { any };
    let vote = Vote { round: Round(random.below(round.0 as usize + 2) as u32), value };
    let message = match random.below(100) {
        0..=1 => return MemberCall::Fresh(any_slot, any, *random.pick(&[3, 4, 5, 7, 8])),
        2..=20 => {
            let own = near - near % n + fields.number.0;
            return MemberCall::Start(Round(*random.pick(&[own, own + n, round.0])), value);
        }
        21..=40 => Message::start(round, sender),
        41..=55 => Message::join(round, any, None),
        56..=65 => Message::join(round, any, Some(vote)),
        66..=80 => Message::propose(round, sender, value),
        _ => Message::vote(round, any),
    };
    let slot = if random.chance(95) { fields.slot } else { any_slot };
    let mut bytes = message_bytes(&message.in_slot(slot));
    if random.chance(15) {
        let at = random.below(bytes.len());
        bytes[at] = random.number() as u8;
    }
    if random.chance(5) {
        bytes.truncate(random.below(bytes.len()));
    }
    MemberCall::Deliver(bytes)
}

/// The bytes of a message, whatever its fields are.
pub fn message_bytes(message: &Message) -> Vec<u8> {
    let (slot, round, sender) = (message.slot().0, message.round().0, message.sender().0);
    let (words, value) = match *message {
        Message::Start { .. } => (vec![slot, 1, round, sender], None),
        Message::Join { vote: None, .. } => (vec![slot, 2, round, sender, 0], None),
        Message::Join { vote: Some(vote), .. } => (vec![slot, 2, round, sender, 1, vote.round.0], Some(vote.value)),
        Message::Propose { value, .. } => (vec![slot, 3, round, sender], Some(value)),
        Message::Vote { .. } => (vec![slot, 4, round, sender], None),
    };
    words.iter().flat_map(|word| word.to_be_bytes()).chain(value.iter().flat_map(|value| value.to_be_bytes())).collect()
}

/// A record with one field that may not fit the others.
fn damaged_fields(fields: &MemberFields, random: &mut Random) -> MemberFields {
    let mut fields = *fields;
    let near = random.below(12) as u32;
    let number = *random.pick(&[near, near, near, 999_999, 1_000_000, 1_000_001, u32::MAX]);
    match random.below(11) {
        0 => fields.number = Member(number),
        1 => fields.members = number,
        2 => fields.joined = Round(number),
        3 => fields.voted = Round(number),
        4 => fields.vote = u64::from(near),
        5 => fields.led = Round(number),
        6 => fields.phase = number % 6,
        7 => fields.value = u64::from(near),
        8 => fields.source = Round(number),
        9 => fields.slot = Slot(number),
        _ => {
            let bits = *random.pick(&[3, 7, 9, 32]);
            fields.flags ^= 1 << random.below(bits);
        }
    }
    fields
}

/// Looks at some bytes and reports what is wrong.
pub type Look<'a> = dyn FnMut(&[u8]) -> Result<(), String> + 'a;

fn each_byte_string(longest: usize, look: &mut Look) -> Result<(), String> {
    for length in 0..=longest {
        for code in 0..1u64 << (8 * length) {
            look(&code.to_le_bytes()[..length])?;
        }
    }
    Ok(())
}

/// Every sequence of up to `longest` of these words, whole and without its last byte.
fn each_word_string(words: &[u32], longest: usize, look: &mut Look) -> Result<(), String> {
    fn longer(words: &[u32], more: usize, bytes: &mut Vec<u8>, look: &mut Look) -> Result<(), String> {
        look(bytes)?;
        look(&bytes[..bytes.len().saturating_sub(1)])?;
        if more > 0 {
            for word in words {
                bytes.extend(word.to_be_bytes());
                longer(words, more - 1, bytes, look)?;
                bytes.truncate(bytes.len() - 4);
            }
        }
        Ok(())
    }
    longer(words, longest, &mut Vec::new(), look)
}

/// The bytes, each one-byte damage of them, each shorter string, and each that is longer by a byte.
pub fn each_damage(bytes: &[u8], look: &mut Look) -> Result<(), String> {
    look(bytes)?;
    for at in 0..bytes.len() {
        look(&bytes[..at])?;
        for damage in 1..=255 {
            let mut damaged = bytes.to_vec();
            damaged[at] ^= damage;
            look(&damaged)?;
        }
    }
    (0..=255).try_for_each(|last| look(&[bytes, &[last]].concat()))
}

/// What a tree call left: its answer, the table, and the words lent for a path or as a second table, with guards on both sides.
#[derive(Clone, Debug, PartialEq, Eq)]
struct TreeLeft {
    answer: Result<usize, Refusal>,
    table: Vec<u64>,
    out: Vec<u64>,
}

/// More than the 4 words that a core without 31 would write behind a second table.
const GUARD: usize = 8;
const MARK: u64 = 77_777;

fn tree_call(calls: &Calls, kind: TreeKind, table: &[u64], call: TreeCall, out: &[u64]) -> TreeLeft {
    let guarded = |words: &[u64]| [&[MARK; GUARD], words, &[MARK; GUARD]].concat();
    let mut left = TreeLeft { answer: Ok(0), table: guarded(table), out: guarded(out) };
    let (lent, out) = (&mut left.table[GUARD..GUARD + table.len()], &mut left.out[GUARD..GUARD + out.len()]);
    left.answer = calls.tree_call(kind, lent, call, out);
    left
}

/// Makes a call by both, with these words for a path or as a second table.
fn compare_tree(calls: Pair, kind: TreeKind, table: &[u64], call: TreeCall, out: &[u64]) -> Result<(), String> {
    let left = calls.map(|calls| tree_call(calls, kind, table, call, out));
    if left[0] == left[1] {
        return Ok(());
    }
    let smaller = |words: &[u64], at: usize| [&words[..at * TABLE_ROW], &words[(at + 1) * TABLE_ROW..]].concat();
    for at in 0..table.len() / TABLE_ROW {
        // lengths that are equal stay so
        let out = if out.len() == table.len() { smaller(out, at) } else { out.to_vec() };
        compare_tree(calls, kind, &smaller(table, at), call, &out)?;
    }
    // a second table that is shorter than the first gets no shorter, so that the guard is enough
    let shorter = matches!(call, TreeCall::Preview { .. }) && out.len() < table.len();
    for at in 0..if shorter { 0 } else { out.len() / TABLE_ROW } {
        compare_tree(calls, kind, table, call, &smaller(out, at))?;
    }
    let names = calls.map(|calls| calls.name);
    let of = |at: usize| {
        format!("{}: {:?}, table {:?}, lent {:?}", names[at], left[at].answer, left[at].table, left[at].out)
    };
    let lent = match call {
        TreeCall::Path(_) => format!(" with {} words lent", out.len()),
        TreeCall::Preview { .. } => format!(" in the table {out:?}"),
        _ => String::new(),
    };
    Err(format!("kind={kind} {call}{lent} on the table {table:?}\n{}\n{}", of(0), of(1)))
}

/// Every table of three rows with small words, and every call of either kind with small numbers on it; previews have the value 5
/// alone.
pub fn small_tables(calls: Pair) -> Compared {
    let mut tree_calls = vec![(TreeCall::Fresh, 0)];
    for round in (0..=4).map(Round) {
        tree_calls.extend([(TreeCall::Commit(round), 0), (TreeCall::Path(round), 2), (TreeCall::Path(round), 4)]);
        for parent in (0..=4).map(Round) {
            tree_calls.extend([0, 5].map(|value| (TreeCall::Add { round, value, parent }, 0)));
            tree_calls.extend([12, 16].map(|room| (TreeCall::Preview { round, value: 5, parent }, room)));
        }
    }
    let row = |code: u64| [code % 4, code / 4 % 4, code / 16 % 2 * 5, code / 32];
    let mut compared = 0;
    for code in 0..128 * 128 {
        for spare in [0, 4] {
            let mut table = [[0, 0, 0, 3], row(code % 128), row(code / 128)].concat();
            table.resize(12 + spare, 0);
            for (call, room) in &tree_calls {
                for kind in TreeKind::ALL {
                    compare_tree(calls, kind, &table, *call, &[MARK; 16][..*room])?;
                    compared += 1;
                }
            }
        }
    }
    Ok(compared)
}

/// Random calls of either kind on random trees of 1 to 256 rows, and on damaged ones. A tree is grown by calls of one kind, so
/// that the other's calls meet trees that aren't their own.
pub fn random_trees(calls: Pair, seed: u64, trees: usize) -> Compared {
    let mut random = Random::new(seed);
    let mut compared = 0;
    for _ in 0..trees {
        let rows = match random.below(20) {
            0 => random.between(1, 256),
            1..=4 => random.between(1, 40),
            _ => random.between(1, 10),
        };
        let grown = *random.pick(&TreeKind::ALL);
        let mut table = vec![0; rows * TABLE_ROW];
        (calls[1].tree_fresh)(&mut table).map_err(|refusal| refusal.to_string())?;
        let highest = *random.pick(&[rows + 3, 3 * rows + 3, 1_000_002]);
        for _ in 0..random.between(1, 2 * rows.min(60)) {
            let (call, few) = (random_call(&mut random, &table, highest), random.below(8));
            let room = *random.pick(&[few, rows]);
            let damage = damaged(&table, &mut random);
            for (table, other) in [(&table, &damage), (&damage, &table)] {
                let out = match call {
                    TreeCall::Preview { .. } => second_table(table, other, &mut random),
                    _ => vec![MARK; room],
                };
                for kind in TreeKind::ALL {
                    compare_tree(calls, kind, table, call, &out)?;
                    compared += 1;
                }
            }
            // what is in the table is kept
            if call != TreeCall::Fresh {
                let _ = calls[1].tree_call(grown, &mut table, call, &mut []);
            }
        }
    }
    Ok(compared)
}

/// What a preview of a table may find in the second: marks, the same table, or other words, of its length or now and then of another.
fn second_table(table: &[u64], other: &[u64], random: &mut Random) -> Vec<u64> {
    let marks = vec![MARK; table.len()];
    let mut second = random.pick(&[&marks[..], table, other]).to_vec();
    let few = random.below(10);
    let length = if random.chance(85) { table.len() } else { (table.len() + 5).saturating_sub(few) };
    second.resize(length, MARK);
    second
}

/// A call about a round up to `highest`, or about one of the last nodes that are there: adds below those make long paths.
fn random_call(random: &mut Random, table: &[u64], highest: usize) -> TreeCall {
    let there: Vec<Node> = nodes(table).collect();
    let node = random.chance(50).then(|| *random.pick(&there[there.len().saturating_sub(3)..]));
    let round = node.map_or(Round(random.between(0, highest) as u32), |node| node.round);
    match random.below(120) {
        0..=1 => TreeCall::Fresh,
        71..=85 => TreeCall::Commit(round),
        86..=99 => TreeCall::Path(round),
        other => {
            let (round, value, parent) = random_add(random, node, round);
            match other {
                2..=70 => TreeCall::Add { round, value, parent },
                _ => TreeCall::Preview { round, value, parent },
            }
        }
    }
}

/// The arguments of an add below this node, or else of this round.
fn random_add(random: &mut Random, node: Option<Node>, round: Round) -> (Round, u64, Round) {
    match node {
        Some(Node { round: parent, value, .. }) => {
            let round = Round(parent.0 + random.between(1, 3) as u32);
            (round, *random.pick(&[value, value, value, 6]), parent)
        }
        None => {
            let parent = if random.chance(50) { 0 } else { random.below(round.0 as usize + 2) };
            (round, *random.pick(&[5, 5, 5, 6]), Round(parent as u32))
        }
    }
}

/// The table with a word changed, two rows exchanged, or another length.
fn damaged(table: &[u64], random: &mut Random) -> Vec<u64> {
    let mut table = table.to_vec();
    let rows = table.len() / TABLE_ROW;
    match random.below(10) {
        0 => {
            let (one, other) = (random.below(rows) * TABLE_ROW, random.below(rows) * TABLE_ROW);
            (0..TABLE_ROW).for_each(|word| table.swap(one + word, other + word));
        }
        1 => {
            let length = (table.len() + 5).saturating_sub(random.below(10));
            table.resize(length, 0);
        }
        2 => {
            let at = random.below(table.len());
            table[at] = *random.pick(&[1_000_001, 1 << 32, (1 << 32) + table[at], u64::MAX]);
        }
        3..=5 => {
            let at = random.below(rows) * TABLE_ROW + TABLE_ROW - 1;
            table[at] = random.below(5) as u64;
        }
        _ => {
            let at = random.below(table.len());
            table[at] = random.below(8) as u64;
        }
    }
    table
}
