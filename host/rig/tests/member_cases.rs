//! The cases of the program `member_cases`, which makes the proved member calls with a reply: its stored input has them,
//! and its stored output is what the second implementation gives for each.

use kalebasin::{number_of, Member, Message, Round, Slot, Vote, SLOTS};
use kalebasin_rig::random::Random;
use kalebasin_rig::second::member::{deliver, fresh, quorum, start, Record, COLLECTING, DECIDED, IDLE, PROPOSED};
use kalebasin_rig::second::message;
use kalebasin_rig::suite::message_bytes;
use std::cmp::Ordering;
use std::collections::BTreeMap;
use std::fs;

/// A call without its record and its reply.
#[derive(Clone, Debug)]
enum Call {
    Fresh(Slot, Member, u32),
    Start(Round, u64),
    Deliver(Vec<u8>),
}

/// A call, the record and the length of the reply.
#[derive(Clone, Debug)]
struct Case {
    record: Record,
    call: Call,
    room: usize,
}

impl Case {
    /// The 148 bytes that the program reads.
    fn encoded(&self) -> Vec<u8> {
        let nobody = (Slot(0), Member(0), 0);
        let (kind, (slot, number, n), round, offer, message) = match &self.call {
            Call::Fresh(slot, number, n) => (0, (*slot, *number, *n), Round(0), 0, &b""[..]),
            Call::Start(round, offer) => (1, nobody, *round, *offer, &b""[..]),
            Call::Deliver(bytes) => (2, nobody, Round(0), 0, &bytes[..]),
        };
        let record = &self.record;
        let mut words = vec![kind, record.slot.0, record.number.0, record.n, record.j.0, record.v.0];
        words.extend(halves(record.w));
        words.extend([record.l.0, record.phase]);
        words.extend(halves(record.x));
        words.push(record.b.0);
        words.extend(record.flags.map(u32::from));
        words.extend([slot.0, number.0, n, round.0]);
        words.extend(halves(offer));
        words.extend([self.room as u32, message.len() as u32]);
        let mut bytes = spelt(&words);
        bytes.extend(message);
        assert!(bytes.len() <= 148 && self.room <= 40);
        bytes.resize(148, 0);
        bytes
    }

    /// The number of the answer, and the line that the program writes.
    fn worked(&self) -> (u32, String) {
        let mut record = self.record;
        let mut reply = vec![0xaa; self.room];
        let answer = match &self.call {
            Call::Fresh(slot, number, n) => fresh(*slot, *number, *n).map(|made| {
                record = made;
                Default::default()
            }),
            Call::Start(round, offer) => start(&mut record, &mut reply, *round, *offer),
            Call::Deliver(bytes) => deliver(&mut record, &mut reply, bytes),
        };
        let number = number_of(&answer);
        let (sent, step) = answer.unwrap_or_default();
        let (round, value, parent) = match (step.proposal, step.decision) {
            (Some(proposal), _) => (proposal.round, proposal.value, proposal.parent),
            (None, Some(decision)) => (decision.round, decision.value, Round(0)),
            (None, None) => (Round(0), 0, Round(0)),
        };
        let Record { slot, number: own, n, j, v, w, l, phase, x, b, flags } = record;
        let flags = flags.map(|flag| u32::from(flag).to_string()).join(" ");
        let reply: Vec<String> = reply.iter().map(|byte| format!("{byte:02x}")).collect();
        let report = format!("{number} {sent} {round} {value} {parent}");
        let after = format!("{slot} {own} {n} {j} {v} {w} {l} {phase} {x} {b} {flags}");
        (number, format!("{report} | {after} | {}\n", reply.concat()))
    }

    /// The call, or the kind of the message.
    fn kind(&self) -> &'static str {
        let bytes = match &self.call {
            Call::Fresh(..) => return "fresh",
            Call::Start(..) => return "start",
            Call::Deliver(bytes) => bytes,
        };
        match bytes.get(4..8) {
            Some([0, 0, 0, 1]) => "START",
            Some([0, 0, 0, 2]) if matches!(bytes.get(16..20), Some([0, 0, 0, 1])) => "JOIN with a vote",
            Some([0, 0, 0, 2]) => "JOIN",
            Some([0, 0, 0, 3]) => "PROPOSE",
            Some([0, 0, 0, 4]) => "VOTE",
            _ => "no kind",
        }
    }
}

fn halves(x: u64) -> [u32; 2] {
    [(x >> 32) as u32, x as u32]
}

fn spelt(words: &[u32]) -> Vec<u8> {
    words.iter().flat_map(|word| word.to_be_bytes()).collect()
}

fn starts(round: u32, offer: u64) -> Call {
    Call::Start(Round(round), offer)
}

/// The slot of the records and messages that are made by hand.
const OWN: Slot = Slot(5);

fn delivers(message: Message) -> Call {
    Call::Deliver(message_bytes(&message.in_slot(OWN)))
}

fn start_of(round: u32, sender: u32) -> Call {
    delivers(Message::start(Round(round), Member(sender)))
}

fn join(round: u32, sender: u32) -> Call {
    delivers(Message::join(Round(round), Member(sender), None))
}

fn voted_join(round: u32, sender: u32, voted: u32, value: u64) -> Call {
    delivers(Message::join(Round(round), Member(sender), Some(Vote { round: Round(voted), value })))
}

fn propose(round: u32, sender: u32, value: u64) -> Call {
    delivers(Message::propose(Round(round), Member(sender), value))
}

fn vote(round: u32, sender: u32) -> Call {
    delivers(Message::vote(Round(round), Member(sender)))
}

fn member(number: u32, n: u32) -> Record {
    fresh(OWN, Member(number), n).unwrap()
}

fn flags(set: &[usize]) -> [bool; 7] {
    std::array::from_fn(|at| set.contains(&at))
}

/// Member 1 of 3, which has joined round 5, voted for 9 in round 3, and collects JOINs of round 4.
fn collecting() -> Record {
    Record { j: Round(5), v: Round(3), w: 9, l: Round(4), phase: COLLECTING, x: 70, ..member(1, 3) }
}

fn proposed() -> Record {
    Record { phase: PROPOSED, ..collecting() }
}

fn decided() -> Record {
    Record { phase: DECIDED, flags: flags(&[0, 2]), ..collecting() }
}

/// Member 4 of 5 and member 6 of 7, which lead rounds 9 and 13 and are one flag short of the quorum.
fn nearly(phase: u32) -> [Record; 2] {
    let five = Record { l: Round(9), phase, x: 90, b: Round(2), flags: flags(&[0, 4]), ..member(4, 5) };
    let seven = Record { l: Round(13), phase, x: u64::MAX, b: Round(12), flags: flags(&[1, 3, 6]), ..member(6, 7) };
    [five, seven]
}

/// A start and a message of each kind. A record that collects takes all but the last, one that has proposed all but the
/// JOINs.
fn each_call() -> [Call; 6] {
    [starts(7, 80), start_of(6, 0), join(4, 0), voted_join(4, 0, 2, 66), propose(6, 0, 9), vote(4, 0)]
}

/// Each clause of document 01's "Sound", and document 02's of slots, broken in turn.
fn unsound() -> Vec<Record> {
    vec![
        Record { slot: Slot(8), ..collecting() },
        Record { slot: Slot(u32::MAX), ..member(0, 3) },
        Record { n: 0, ..member(0, 3) },
        Record { n: 4, ..member(0, 3) },
        Record { n: 9, ..member(0, 3) },
        Record { number: Member(3), ..member(0, 3) },
        Record { phase: 4, ..collecting() },
        Record { v: Round(6), ..collecting() },
        Record { j: Round(1_000_001), ..collecting() },
        Record { v: Round(0), ..collecting() },
        Record { flags: flags(&[3]), ..collecting() },
        Record { phase: IDLE, x: 0, ..collecting() },
        Record { phase: COLLECTING, ..member(0, 3) },
        Record { x: 1, ..member(0, 3) },
        Record { b: Round(1), ..member(0, 3) },
        Record { flags: flags(&[0]), ..member(0, 3) },
        Record { l: Round(1_000_003), ..collecting() },
        Record { l: Round(5), ..collecting() },
        Record { b: Round(4), ..collecting() },
        Record { flags: flags(&[0, 1]), ..collecting() },
        Record { flags: flags(&[0, 1]), ..proposed() },
        Record { flags: flags(&[2]), ..decided() },
        Record { flags: flags(&[0, 1, 2]), ..decided() },
    ]
}

/// Calls that are accepted if the reply has room: all that the cells of the member table do.
fn acceptable() -> Vec<(Record, Call)> {
    let flagged = Record { flags: flags(&[0]), b: Round(2), ..collecting() };
    let joined = Record { j: Round(4), ..member(2, 3) };
    let mut calls = vec![
        (member(1, 3), starts(1, 70)),
        (collecting(), starts(7, 80)),
        (decided(), starts(1_000_000, u64::MAX)),
        (member(2, 3), start_of(4, 1)),
        (joined, start_of(4, 1)),
        (collecting(), start_of(6, 0)),
        (collecting(), start_of(5, 2)),
        (collecting(), join(4, 0)),
        (flagged, join(4, 2)),
        (collecting(), voted_join(4, 0, 2, 66)),
        (flagged, voted_join(4, 2, 1, 67)),
        (flagged, voted_join(4, 2, 2, 67)),
        (flagged, voted_join(4, 2, 3, 67)),
        (collecting(), propose(5, 2, 0)),
        (collecting(), propose(1_000_000, 1, u64::MAX)),
        (Record { v: Round(5), ..collecting() }, propose(5, 2, 9)),
        (proposed(), vote(4, 0)),
        (Record { phase: PROPOSED, ..flagged }, vote(4, 2)),
    ];
    let [five, seven] = nearly(COLLECTING);
    calls.extend([(five, join(9, 3)), (seven, voted_join(13, 0, 12, 5)), (five, voted_join(9, 1, 3, 5))]);
    let [five, seven] = nearly(PROPOSED);
    calls.extend([(five, vote(9, 3)), (seven, vote(13, 0))]);
    calls
}

/// Calls that the rows round, start and deliver refuse.
fn refused() -> Vec<(Record, Call)> {
    let flagged = Record { flags: flags(&[0]), ..collecting() };
    let voted = Record { v: Round(5), ..collecting() };
    vec![
        (collecting(), starts(0, 80)),
        (collecting(), starts(1_000_001, 80)),
        (collecting(), starts(u32::MAX, 80)),
        (collecting(), starts(2, 80)),
        (collecting(), starts(5, 80)),
        (collecting(), starts(1, 80)),
        (collecting(), starts(4, 80)),
        (collecting(), start_of(6, 1)),
        (collecting(), start_of(3, 5)),
        (voted, start_of(5, 2)),
        (collecting(), start_of(4, 1)),
        (collecting(), start_of(3, 0)),
        (collecting(), join(4, 3)),
        (collecting(), join(7, 0)),
        (member(1, 3), join(1, 0)),
        (proposed(), join(4, 0)),
        (flagged, join(4, 0)),
        (collecting(), voted_join(7, 6, 3, 1)),
        (decided(), voted_join(4, 1, 3, 1)),
        (flagged, voted_join(4, 0, 3, 1)),
        (collecting(), propose(6, 1, 9)),
        (collecting(), propose(4, 1, 9)),
        (voted, propose(5, 2, 8)),
        (proposed(), vote(4, 3)),
        (collecting(), vote(4, 0)),
        (proposed(), vote(7, 0)),
        (decided(), vote(4, 1)),
        (Record { phase: PROPOSED, ..flagged }, vote(4, 0)),
    ]
}

/// Each size of an office, each phase but idle and each number of flags, with the call that tells them apart: a JOIN or
/// VOTE of a member that isn't flagged yet, where there is one, and a start of a member that has decided.
fn each_count() -> Vec<(Record, Call)> {
    let record = |n: u32, phase, counted: u32| {
        let flags = std::array::from_fn(|at| at < counted as usize);
        Record { j: Round(n), l: Round(n), phase, x: 70, flags, ..member(0, n) }
    };
    let call = |n: u32, phase, counted: u32| match phase {
        COLLECTING => join(n, counted.min(n - 1)),
        PROPOSED => vote(n, counted.min(n - 1)),
        _ => starts(2 * n, 80),
    };
    let sizes = [3, 5, 7].into_iter().flat_map(|n| [COLLECTING, PROPOSED, DECIDED].map(|phase| (n, phase)));
    sizes.flat_map(|(n, phase)| (0..=n).map(move |k| (record(n, phase, k), call(n, phase, k)))).collect()
}

/// Each call on members of slots 0 and 7, with messages of their own slot and of every other.
fn each_slot() -> Vec<(Record, Call)> {
    let mut calls = Vec::new();
    for slot in [Slot(0), Slot(7)] {
        for (record, call) in
            each_call().into_iter().flat_map(|call| [(collecting(), call.clone()), (proposed(), call)])
        {
            let record = Record { slot, ..record };
            let Call::Deliver(message) = &call else {
                calls.push((record, call));
                continue;
            };
            let mut message = message.clone();
            for of in (0..=8).chain([0x0100_0000 + slot.0, u32::MAX]) {
                message[..4].copy_from_slice(&of.to_be_bytes());
                calls.push((record, Call::Deliver(message.clone())));
            }
        }
    }
    calls
}

/// A message with one word changed, cut off, or longer than its kind.
fn damaged(message: &[u8]) -> Vec<Vec<u8>> {
    let with = |at: usize, word: u32| {
        let mut bytes = message.to_vec();
        bytes[4 * at..][..4].copy_from_slice(&word.to_be_bytes());
        bytes
    };
    let mut all = vec![with(1, 0), with(1, 5), with(1, 1 << 24), with(2, 0), with(2, 1_000_001), with(3, 7)];
    if message[7] == 2 {
        all.push(with(4, 2));
    }
    if message.len() == 32 {
        all.extend([with(4, 0), with(5, 0), with(5, 4)]);
    }
    all.extend([0, 3, 4, 7, 8, message.len() - 1].map(|length| message[..length].to_vec()));
    all.extend([1, 4].map(|more| [message, &[0; 4][..more]].concat()));
    // in another slot, cut off before the kind and behind it, and of no kind
    let (mut elsewhere, mut of_no_kind) = (with(0, OWN.0 + 1), with(0, OWN.0 + 1));
    of_no_kind[7] = 5;
    all.extend([7, 8].map(|length| elsewhere[..length].to_vec()));
    all.push(of_no_kind);
    elsewhere[3] = 8;
    all.push(elsewhere);
    all
}

fn by_hand() -> Vec<Case> {
    let mut cases = Vec::new();
    let mut add = |record: Record, call: &Call, room: usize| cases.push(Case { record, call: call.clone(), room });
    for old in [collecting(), unsound()[0]] {
        for (number, n) in [(0, 0), (0, 3), (2, 3), (3, 3), (0, 4), (4, 5), (5, 5), (6, 7), (7, 7), (u32::MAX, 7)] {
            add(old, &Call::Fresh(OWN, Member(number), n), 32);
        }
        for slot in (0..=8).chain([u32::MAX]) {
            add(old, &Call::Fresh(Slot(slot), Member(2), 3), 32);
        }
    }
    for record in unsound() {
        each_call().iter().for_each(|call| add(record, call, 40));
    }
    each_call().iter().for_each(|call| add(unsound()[0], call, 31));
    for (record, call) in acceptable() {
        [0, 31, 32, 40].iter().for_each(|room| add(record, &call, *room));
    }
    for (record, call) in refused().into_iter().chain(each_count()).chain(each_slot()) {
        add(record, &call, 32);
    }
    for call in each_call() {
        let Call::Deliver(message) = call else { continue };
        damaged(&message).into_iter().for_each(|bytes| add(collecting(), &Call::Deliver(bytes), 40));
    }
    cases
}

fn some_value(random: &mut Random) -> u64 {
    let any = random.number();
    *random.pick(&[0, 9, 70, 80, u64::MAX, any])
}

/// A sound record: often with a vote, mostly with a round that it leads.
fn sound_record(random: &mut Random) -> Record {
    let n = *random.pick(&[3, 5, 7]);
    let number = random.below(n);
    let mut record = Record { slot: *random.pick(&Slot::ALL), ..member(number as u32, n as u32) };
    record.j = Round(*random.pick(&[0, 5, 12, 999_999]));
    if random.chance(60) {
        let voted = Round(random.below(record.j.0 as usize + 1) as u32);
        record.v = *random.pick(&[record.j, voted]);
    }
    if record.v > Round(0) {
        record.w = some_value(random);
    }
    if random.chance(85) {
        record.l = Round((number + n * random.between(1, 3)) as u32);
        record.phase = *random.pick(&[COLLECTING, COLLECTING, PROPOSED, PROPOSED, DECIDED]);
        record.x = some_value(random);
        record.b = Round(random.below(record.l.0 as usize) as u32);
        let needed = quorum(record.n) as usize;
        let counted = if record.phase == DECIDED { needed } else { random.below(needed) };
        let mut members: Vec<usize> = (0..n).collect();
        random.shuffle(&mut members);
        record.flags = flags(&members[..counted]);
    }
    assert!(record.is_sound());
    record
}

/// Another number in one field.
fn change(random: &mut Random, record: &mut Record) {
    let number = *random.pick(&[0, 1, 2, 3, 4, 7, 8, 1_000_000, 1_000_001, u32::MAX]);
    match random.below(11) {
        0 => record.number = Member(number),
        1 => record.n = number,
        2 => record.j = Round(number),
        3 => record.v = Round(number),
        4 => record.w = some_value(random),
        5 => record.l = Round(number),
        6 => record.phase = number,
        7 => record.x = some_value(random),
        8 => record.b = Round(number),
        9 => record.slot = Slot(number),
        _ => record.flags[random.below(7)] ^= true,
    }
}

/// A message that the record may well take: of the round that it leads, or of one near the last joined, often that one.
fn some_message(random: &mut Random, record: &Record) -> Message {
    let n = record.n.max(1);
    let near = Round(record.j.0.saturating_add(*random.pick(&[0, 1, 1, 1, 2, 3])).saturating_sub(1));
    let leader = if random.chance(85) { near.leader(n).unwrap() } else { Member(random.below(8) as u32) };
    let round = if random.chance(90) { record.l } else { near };
    let senders = if random.chance(90) { n.min(7) } else { 8 };
    let sender = Member(random.below(senders as usize) as u32);
    let awaited = match record.phase {
        COLLECTING => random.between(0, 1),
        PROPOSED => 2,
        _ => random.between(3, 4),
    };
    let kind = if random.chance(50) { awaited } else { *random.pick(&[0, 1, 2, 3, 3, 4]) };
    match kind {
        0 => Message::join(round, sender, None),
        1 => {
            let vote = Vote { round: Round(random.below(round.0 as usize + 1) as u32), value: some_value(random) };
            Message::join(round, sender, Some(vote))
        }
        2 => Message::vote(round, sender),
        3 => Message::start(near, leader),
        _ => {
            let value = if random.chance(50) { record.w } else { some_value(random) };
            Message::propose(near, leader, value)
        }
    }
}

fn at_random(random: &mut Random) -> Case {
    let mut record = sound_record(random);
    if random.chance(15) {
        change(random, &mut record);
    }
    let call = match random.below(20) {
        0 => {
            let (slot, number) = (Slot(random.below(SLOTS + 1) as u32), Member(random.below(8) as u32));
            Call::Fresh(slot, number, *random.pick(&[3, 5, 7, 4]))
        }
        1..=3 => {
            let led = record.number.0 as u64 + u64::from(record.n) * random.below(6) as u64;
            let round = if random.chance(80) { led as u32 } else { random.below(20) as u32 };
            Call::Start(Round(round), some_value(random))
        }
        _ => {
            let slot = if random.chance(95) { record.slot } else { Slot(random.below(SLOTS + 1) as u32) };
            let mut message = message_bytes(&some_message(random, &record).in_slot(slot));
            if random.chance(8) {
                let at = random.below(message.len());
                message[at] ^= 1 << random.below(8);
            }
            if random.chance(4) {
                message.resize(random.below(37), 0);
            }
            Call::Deliver(message)
        }
    };
    Case { record, call, room: *random.pick(&[32, 32, 33, 36, 40, 40, 40, 31, 0]) }
}

fn random_cases() -> Vec<Case> {
    let mut random = Random::new(9);
    (0..300).map(|_| at_random(&mut random)).collect()
}

fn cases() -> Vec<Case> {
    [by_hand(), random_cases()].concat()
}

/// The program's files: what it reads, and what it writes then.
fn files() -> [(String, Vec<u8>); 2] {
    let cases = cases();
    let mut stdin = spelt(&[cases.len() as u32]);
    cases.iter().for_each(|case| stdin.extend(case.encoded()));
    let stdout = cases.iter().flat_map(|case| case.worked().1.into_bytes()).collect();
    let path = |name| format!("{}/../../crates/member_cases/{name}", env!("CARGO_MANIFEST_DIR"));
    [(path("stdin"), stdin), (path("stdout"), stdout)]
}

#[test]
fn the_program_member_cases() {
    for (path, bytes) in files() {
        assert!(fs::read(&path).unwrap() == bytes, "{path} has other bytes");
    }
}

#[test]
#[ignore = "writes the program's files anew, after a change of the cases"]
fn write_the_files() {
    for (path, bytes) in files() {
        fs::write(path, bytes).unwrap();
    }
}

/// How a START finds a record: J and V beside its round, whether there is a vote, and the number.
fn start_row(case: &Case) -> Option<(Ordering, Ordering, bool, u32)> {
    let Call::Deliver(bytes) = &case.call else { return None };
    let Ok(Message::Start { round, .. }) = message::read_of(case.record.slot, bytes) else { return None };
    let Record { j, v, .. } = case.record;
    Some((j.cmp(&round), v.cmp(&round), v > Round(0), case.worked().0))
}

/// A START of the round joined last sends the JOIN again, with a vote and without one; after a vote in the round, and in a
/// higher one, it gets 22. Each by hand and at random.
#[test]
fn every_start() {
    for cases in [by_hand(), random_cases()] {
        let rows: Vec<_> = cases.iter().filter_map(start_row).collect();
        for row in [
            (Ordering::Less, Ordering::Less, false, 0),
            (Ordering::Less, Ordering::Less, true, 0),
            (Ordering::Equal, Ordering::Less, false, 0),
            (Ordering::Equal, Ordering::Less, true, 0),
            (Ordering::Equal, Ordering::Equal, true, 22),
            (Ordering::Greater, Ordering::Less, true, 22),
        ] {
            assert!(rows.contains(&row), "{row:?}");
        }
    }
}

/// A record's size, phase and flags before a call, and after it the number, whether a round is named, and the phase.
fn count_row(case: &Case) -> (u32, u32, u32, u32, bool, String) {
    let (number, line) = case.worked();
    let words: Vec<&str> = line.split(' ').collect();
    let Record { n, phase, .. } = case.record;
    (n, phase, case.record.counted(), number, words[2] != "0", words[13].to_string())
}

/// The flag that makes 2 of 3, 3 of 5 or 4 of 7 ends phase 1 or 2, and there a record with as many or more isn't sound; in
/// phase 3 one with exactly as many is, and may start another round.
#[test]
fn every_count() {
    let rows: Vec<_> = by_hand().iter().map(count_row).collect();
    for (n, needed) in [(3, 2), (5, 3), (7, 4)] {
        for counted in 0..=n {
            for phase in [COLLECTING, PROPOSED, DECIDED] {
                let (number, ends, after) = match phase {
                    DECIDED if counted == needed => (0, false, COLLECTING),
                    COLLECTING | PROPOSED if counted + 1 == needed => (0, true, phase + 1),
                    COLLECTING | PROPOSED if counted < needed => (0, false, phase),
                    _ => (17, false, phase),
                };
                let row = (n, phase, counted, number, ends, after.to_string());
                assert!(rows.contains(&row), "{row:?}");
            }
        }
    }
}

/// Each call and each kind of message gets each number that it can get, and most records are sound.
#[test]
fn every_number() {
    let (cases, mut counts) = (cases(), BTreeMap::new());
    for case in &cases {
        *counts.entry((case.kind(), case.worked().0)).or_insert(0) += 1;
    }
    counts.iter().for_each(|((kind, number), count)| println!("{kind}: {number} {count} times"));
    let expected: [(&str, &[u32]); 8] = [
        ("fresh", &[0, 17]),
        ("start", &[0, 3, 17, 18, 19, 20]),
        ("START", &[0, 14, 16, 17, 18, 21, 22, 32]),
        ("JOIN", &[0, 14, 16, 17, 18, 21, 24, 25, 32]),
        ("JOIN with a vote", &[0, 14, 16, 17, 18, 21, 24, 25, 32]),
        ("PROPOSE", &[0, 14, 16, 17, 18, 21, 22, 23, 32]),
        ("VOTE", &[0, 14, 16, 17, 18, 21, 24, 25, 32]),
        ("no kind", &[14, 15, 32]),
    ];
    for (kind, numbers) in expected {
        numbers.iter().for_each(|number| assert!(counts.contains_key(&(kind, *number)), "{kind} never gets {number}"));
    }
    let sound = cases.iter().filter(|case| case.record.is_sound()).count();
    assert!(sound * 2 > cases.len(), "{sound} of {} records are sound", cases.len());
}
