//! The second implementation's members against document 01 and Tickets 2, 4 and 6 of document 02: soundness field by field,
//! the quorum of each size, each row of the member table, messages of other slots, and that a refused step changes nothing.

use kalebasin::notation::parse;
use kalebasin::{number_of, Event, Member, Message, Refusal, Round, Slot, Vote};
use kalebasin_rig::second::member::{deliver, fresh, start, Record, COLLECTING, DECIDED, PROPOSED};
use kalebasin_rig::second::member::{Decision, Proposal, Step};
use kalebasin_rig::second::message::{read, write};
use kalebasin_rig::suite::REHEARSAL;

fn member(number: u32) -> Record {
    fresh(Slot(0), Member(number), 3).unwrap()
}

/// Member 1 of 3, which has joined round 5, voted for 9 in round 3, and collects JOINs of round 4.
fn collecting() -> Record {
    Record { j: Round(5), v: Round(3), w: 9, l: Round(4), phase: COLLECTING, x: 70, ..member(1) }
}

fn put(message: Message) -> Vec<u8> {
    let mut bytes = vec![0; 32];
    let length = write(&message, &mut bytes).unwrap();
    bytes.truncate(length);
    bytes
}

/// The answer of a delivery, with the message sent; a refusal changes neither record nor reply.
fn give(record: &mut Record, message: Message) -> Result<Option<Message>, u32> {
    let before = *record;
    let mut reply = [0xaa; 37];
    match deliver(record, &mut reply, &put(message)) {
        Ok((sent, step)) => {
            assert!(reply[sent..].iter().all(|byte| *byte == 0xaa));
            assert_eq!(step.sent, if sent == 0 { None } else { read(&reply[..sent]).ok() });
            assert!(record.is_sound());
            Ok(step.sent)
        }
        Err(refusal) => {
            assert_eq!(*record, before);
            assert_eq!(reply, [0xaa; 37]);
            Err(refusal.number())
        }
    }
}

#[test]
fn fresh_members() {
    for n in 0..=9 {
        for number in 0..=9 {
            for slot in (0..=9).chain([u32::MAX]) {
                let allowed = [3, 5, 7].contains(&n) && number < n && slot <= 7;
                let made = fresh(Slot(slot), Member(number), n);
                assert_eq!(number_of(&made), if allowed { 0 } else { 17 });
                assert!(made.is_ok_and(|record| record.is_sound() && record.slot == Slot(slot)) == allowed);
            }
        }
    }
}

#[test]
fn soundness() {
    let flags = |set: &[usize]| {
        let mut flags = [false; 7];
        set.iter().for_each(|at| flags[*at] = true);
        flags
    };
    let base = collecting();
    let proposed = Record { phase: PROPOSED, ..base };
    let decided = Record { phase: DECIDED, flags: flags(&[0, 2]), ..base };
    let sound = [
        base,
        proposed,
        decided,
        Record { flags: flags(&[2]), ..base },
        Record { w: 0, ..base },
        Record { v: Round(0), w: 0, ..base },
        Record { b: Round(3), ..base },
        Record { j: Round(1_000_000), l: Round(1_000_000), ..base },
        Record { j: Round(0), v: Round(0), w: 0, ..base },
        Record { j: Round(7), v: Round(7), ..member(2) },
        Record { slot: Slot(7), ..decided },
    ];
    let unsound = [
        Record { slot: Slot(8), ..base },
        Record { slot: Slot(u32::MAX), ..member(0) },
        Record { n: 4, ..base },
        Record { n: 0, ..base },
        Record { number: Member(3), ..base },
        Record { phase: 4, ..base },
        Record { v: Round(6), ..base },
        Record { j: Round(1_000_001), ..base },
        Record { v: Round(0), w: 9, ..base },
        Record { flags: flags(&[3]), ..base },
        Record { flags: flags(&[0, 1]), ..base },
        Record { flags: flags(&[0, 1]), ..proposed },
        Record { flags: flags(&[0]), ..decided },
        Record { flags: flags(&[0, 1, 2]), ..decided },
        Record { phase: 0, ..base },
        Record { l: Round(0), ..base },
        Record { l: Round(5), ..base },
        Record { l: Round(1_000_003), ..base },
        Record { b: Round(4), ..base },
        Record { x: 1, ..member(0) },
        Record { b: Round(1), ..member(0) },
        Record { flags: flags(&[0]), ..member(0) },
    ];
    sound.iter().for_each(|record| assert!(record.is_sound(), "{record:?}"));
    for mut record in unsound {
        let before = record;
        assert!(!record.is_sound(), "{record:?}");
        assert_eq!(start(&mut record, &mut [], Round(0), 0), Err(Refusal::RecordUnsound));
        assert_eq!(deliver(&mut record, &mut [], &[]), Err(Refusal::RecordUnsound));
        assert_eq!(record, before);
    }
}

#[test]
fn short_reply_before_message_and_round() {
    let mut record = member(1);
    assert_eq!(start(&mut record, &mut [0; 31], Round(0), 0), Err(Refusal::ReplyTooShort));
    assert_eq!(deliver(&mut record, &mut [0; 31], &[]), Err(Refusal::ReplyTooShort));
    assert_eq!(deliver(&mut record, &mut [0; 32], &[]), Err(Refusal::MessageLength));
    assert_eq!(deliver(&mut record, &mut [0; 32], &[0, 0, 0, 0, 0, 0, 0, 9]), Err(Refusal::MessageKind));
}

/// A member takes messages of its slot alone: any other gets 32, before its kind is looked at, its fields, its sender or its round.
#[test]
fn messages_of_other_slots() {
    let bytes = |words: &[u32]| words.iter().flat_map(|word| word.to_be_bytes()).collect::<Vec<u8>>();
    let behind: [&[u32]; 7] = [&[1, 7, 1], &[9], &[1], &[1, 0, 0], &[1, 7, 2], &[2, 4, 0, 0], &[4, 4, 0]];
    for own in Slot::ALL {
        let record = Record { slot: own, ..collecting() };
        for other in (0..=8).chain([u32::MAX]).filter(|other| Slot(*other) != own) {
            for words in behind {
                let (mut after, mut reply) = (record, [0xaa; 32]);
                let message = bytes(&[&[other], words].concat());
                assert_eq!(deliver(&mut after, &mut reply, &message), Err(Refusal::WrongSlot), "{own} {message:?}");
                assert_eq!(deliver(&mut after, &mut reply[..31], &message), Err(Refusal::ReplyTooShort));
                assert_eq!(deliver(&mut after, &mut reply, &message[..7]), Err(Refusal::MessageLength));
                assert_eq!((after, reply), (record, [0xaa; 32]));
            }
            let mut after = record;
            let start = Message::start(Round(7), Member(1)).in_slot(Slot(other));
            assert_eq!((after.deliver(&start), after), (Err(Refusal::WrongSlot), record));
        }
        let numbers = behind.map(|words| {
            let message = bytes(&[&[own.0], words].concat());
            number_of(&deliver(&mut record.clone(), &mut [0; 32], &message))
        });
        assert_eq!(numbers, [0, 15, 14, 16, 21, 0, 24], "in slot {own}");
    }
}

/// What a member sends is of its slot, and the slot changes nothing else.
#[test]
fn the_same_steps_in_every_slot() {
    for slot in Slot::ALL {
        let (mut records, mut in_slot) = ([0, 1, 2].map(member), [0, 1, 2].map(member));
        in_slot.iter_mut().for_each(|record| record.slot = slot);
        let mut sent: Vec<Message> = Vec::new();
        for event in parse(REHEARSAL, None).unwrap().events {
            let at = event.member().0 as usize;
            let [one, other] = match event {
                Event::Start { round, offer, .. } => [records[at].start(round, offer), in_slot[at].start(round, offer)],
                Event::Deliver { message, .. } => {
                    let message = sent[message.0 as usize];
                    [records[at].deliver(&message), in_slot[at].deliver(&message.in_slot(slot))]
                }
                other => panic!("the rehearsal has starts and deliveries, not {other}"),
            };
            let moved = one.map(|step| Step { sent: step.sent.map(|message| message.in_slot(slot)), ..step });
            assert_eq!((moved, Record { slot, ..records[at] }), (other, in_slot[at]));
            sent.extend(one.ok().and_then(|step| step.sent));
        }
    }
}

#[test]
fn starts() {
    let mut record = collecting();
    let before = record;
    let mut reply = [0xaa; 34];
    for (round, number) in [(0, 3), (1_000_001, 3), (u32::MAX, 3), (5, 19), (2, 19), (1, 20), (4, 20)] {
        assert_eq!(number_of(&start(&mut record, &mut reply, Round(round), 80)), number, "{round}");
        assert_eq!((record, reply), (before, [0xaa; 34]));
    }
    let (sent, step) = start(&mut record, &mut reply, Round(7), 80).unwrap();
    assert_eq!(step.sent, Some(Message::start(Round(7), Member(1))));
    assert_eq!(read(&reply[..sent]).ok(), step.sent);
    assert!(reply[sent..].iter().all(|byte| *byte == 0xaa));
    assert_eq!(record, Record { l: Round(7), phase: COLLECTING, x: 80, b: Round(0), flags: [false; 7], ..before });
}

fn start_of(round: u32, sender: u32) -> Message {
    Message::start(Round(round), Member(sender))
}

fn join(round: u32, sender: u32, vote: Option<(u32, u64)>) -> Message {
    Message::join(Round(round), Member(sender), vote.map(|(round, value)| Vote { round: Round(round), value }))
}

#[test]
fn start_messages() {
    let mut record = member(2);
    assert_eq!(give(&mut record, start_of(4, 0)), Err(21));
    assert_eq!(give(&mut record, start_of(4, 1)), Ok(Some(join(4, 2, None))));
    assert_eq!(record, Record { j: Round(4), ..member(2) });
    assert_eq!(give(&mut record, start_of(3, 0)), Err(22));
    let mut voted = Record { j: Round(4), v: Round(3), w: 0, ..member(2) };
    assert_eq!(give(&mut voted, start_of(6, 0)), Ok(Some(join(6, 2, Some((3, 0))))));
    assert_eq!(voted, Record { j: Round(6), v: Round(3), w: 0, ..member(2) });
}

/// The answers to START 4, by J and then by V.
const START_4: [&[u32]; 6] = [&[0], &[0, 0], &[0, 0, 0], &[0, 0, 0, 0], &[0, 0, 0, 0, 22], &[22, 22, 22, 22, 22, 22]];

#[test]
fn start_messages_by_joined_and_voted_round() {
    for (j, numbers) in (0..).zip(START_4) {
        for (v, number) in (0..).zip(numbers) {
            let voted = (v > 0).then_some((v, 9));
            let before = Record { j: Round(j), v: Round(v), w: voted.map_or(0, |(_, value)| value), ..member(2) };
            let mut record = before;
            match give(&mut record, start_of(4, 1)) {
                Ok(sent) => {
                    assert_eq!((0, sent), (*number, Some(join(4, 2, voted))), "{before:?}");
                    assert_eq!(record, Record { j: Round(4), ..before });
                }
                Err(given) => assert_eq!(given, *number, "{before:?}"),
            }
        }
    }
}

/// START r at J = r and V < r, however often it comes: every field stays, and the JOIN is the same.
#[test]
fn repeated_start_messages() {
    let with_flags = |set: &[usize], record| Record { flags: std::array::from_fn(|at| set.contains(&at)), ..record };
    let counting = with_flags(&[2], Record { x: 66, b: Round(2), ..collecting() });
    let last = Record { j: Round(1_000_000), v: Round(999_999), w: u64::MAX, ..member(0) };
    let of_five = fresh(Slot(0), Member(4), 5).unwrap();
    let of_seven = fresh(Slot(0), Member(0), 7).unwrap();
    // The record, the round and its leader, the vote that the JOIN tells.
    let cases = [
        (Record { j: Round(1), ..member(0) }, 1, 1, None),
        (Record { j: Round(4), ..member(2) }, 4, 1, None),
        (Record { j: Round(6), v: Round(3), w: 9, ..member(2) }, 6, 0, Some((3, 9))),
        (Record { j: Round(6), v: Round(5), w: 0, ..member(2) }, 6, 0, Some((5, 0))),
        (last, 1_000_000, 1, Some((999_999, u64::MAX))),
        (Record { j: Round(7), ..of_five }, 7, 2, None),
        (Record { j: Round(20), v: Round(1), w: 70, ..of_seven }, 20, 6, Some((1, 70))),
        // A leader of round 4 gets START 5.
        (counting, 5, 2, Some((3, 9))),
        (Record { phase: PROPOSED, ..counting }, 5, 2, Some((3, 9))),
        (with_flags(&[0, 2], Record { phase: DECIDED, ..counting }), 5, 2, Some((3, 9))),
        // It gets its own START.
        (Record { j: Round(4), ..counting }, 4, 1, Some((3, 9))),
        (Record { j: Round(4), v: Round(0), w: 0, phase: PROPOSED, ..counting }, 4, 1, None),
    ];
    for (before, round, leader, voted) in cases {
        let mut record = before;
        for _ in 0..3 {
            let answer = give(&mut record, start_of(round, leader));
            assert_eq!(answer, Ok(Some(join(round, before.number.0, voted))), "{before:?}");
            assert_eq!(record, before);
        }
        assert_eq!(give(&mut record, start_of(round, (leader + 1) % 7)), Err(21), "{before:?}");
    }
}

/// The bytes of a JOIN that is sent twice, by a member that never voted and by one that has.
#[test]
fn bytes_of_a_join_sent_again() {
    let mut never = member(2);
    let mut voted = Record { j: Round(4), v: Round(4), w: 9, ..member(2) };
    let bytes_sent = |record: &mut Record, start| {
        let mut reply = [0xaa; 32];
        let (sent, _) = deliver(record, &mut reply, &put(start)).unwrap();
        reply[..sent].to_vec()
    };
    let bytes = |words: &[u32]| words.iter().flat_map(|word| word.to_be_bytes()).collect::<Vec<u8>>();
    for _ in 0..2 {
        assert_eq!(bytes_sent(&mut never, start_of(4, 1)), bytes(&[0, 2, 4, 2, 0]));
        assert_eq!(bytes_sent(&mut voted, start_of(6, 0)), bytes(&[0, 2, 6, 2, 1, 4, 0, 9]));
    }
}

/// START r is refused from the vote in r on: at J = V = r, and at J > r.
#[test]
fn start_messages_after_the_vote() {
    let propose = |round, sender, value| Message::propose(Round(round), Member(sender), value);
    let vote = |round| Ok(Some(Message::vote(Round(round), Member(2))));
    let mut record = member(2);
    assert_eq!(give(&mut record, start_of(4, 1)), Ok(Some(join(4, 2, None))));
    assert_eq!(give(&mut record, start_of(4, 1)), Ok(Some(join(4, 2, None))));
    assert_eq!(give(&mut record, propose(4, 1, 9)), vote(4));
    assert_eq!(give(&mut record, start_of(4, 1)), Err(22));
    assert_eq!(give(&mut record, start_of(4, 0)), Err(21));
    assert_eq!(record, Record { j: Round(4), v: Round(4), w: 9, ..member(2) });
    assert_eq!(give(&mut record, start_of(6, 0)), Ok(Some(join(6, 2, Some((4, 9))))));
    assert_eq!(give(&mut record, start_of(4, 1)), Err(22));
    assert_eq!(give(&mut record, start_of(5, 2)), Err(22));
    assert_eq!(give(&mut record, start_of(6, 0)), Ok(Some(join(6, 2, Some((4, 9))))));
    assert_eq!(give(&mut record, propose(6, 0, 9)), vote(6));
    assert_eq!(give(&mut record, start_of(6, 0)), Err(22));
    // A vote without a JOIN before it.
    let mut record = member(2);
    assert_eq!(give(&mut record, propose(4, 1, 0)), vote(4));
    assert_eq!(give(&mut record, start_of(4, 1)), Err(22));
}

#[test]
fn join_messages() {
    let mut record = collecting();
    assert_eq!(give(&mut record, join(4, 3, None)), Err(21));
    assert_eq!(give(&mut record, join(7, 0, None)), Err(24));
    assert_eq!(give(&mut record, join(4, 0, Some((2, 66)))), Ok(None));
    assert_eq!((record.b, record.x, record.counted()), (Round(2), 66, 1));
    assert_eq!(give(&mut record, join(4, 0, Some((3, 67)))), Err(25));
    let mut same = record;
    assert_eq!(give(&mut same, join(4, 2, Some((2, 99)))), Ok(Some(Message::propose(Round(4), Member(1), 66))));
    let mut reply = [0; 32];
    let (_, step) = deliver(&mut record, &mut reply, &put(join(4, 2, Some((3, 67))))).unwrap();
    assert_eq!(step.proposal, Some(Proposal { round: Round(4), value: 67, parent: Round(3) }));
    assert_eq!((record.phase, record.flags), (PROPOSED, [false; 7]));
    assert_eq!(give(&mut record, join(4, 1, None)), Err(24));
}

#[test]
fn propose_messages() {
    let propose = |round, sender, value| Message::propose(Round(round), Member(sender), value);
    let vote = |round| Ok(Some(Message::vote(Round(round), Member(2))));
    let mut record = Record { j: Round(5), ..member(2) };
    assert_eq!(give(&mut record, propose(5, 1, 9)), Err(21));
    assert_eq!(give(&mut record, propose(4, 1, 9)), Err(22));
    assert_eq!(give(&mut record, propose(5, 2, 9)), vote(5));
    assert_eq!(record, Record { j: Round(5), v: Round(5), w: 9, ..member(2) });
    assert_eq!(give(&mut record, propose(5, 2, 8)), Err(23));
    assert_eq!(give(&mut record, propose(5, 2, 9)), vote(5));
    assert_eq!(give(&mut record, propose(9, 0, 0)), vote(9));
    assert_eq!(record, Record { j: Round(9), v: Round(9), w: 0, ..member(2) });
    assert_eq!(give(&mut record, propose(5, 2, 8)), Err(22));
}

#[test]
fn vote_messages() {
    let vote = |round, sender| Message::vote(Round(round), Member(sender));
    let mut record = Record { phase: PROPOSED, ..collecting() };
    assert_eq!(give(&mut collecting(), vote(4, 0)), Err(24));
    assert_eq!(give(&mut record, vote(4, 3)), Err(21));
    assert_eq!(give(&mut record, vote(7, 0)), Err(24));
    assert_eq!(give(&mut record, vote(4, 0)), Ok(None));
    assert_eq!(give(&mut record, vote(4, 0)), Err(25));
    let mut reply = [0; 32];
    let (sent, step) = deliver(&mut record, &mut reply, &put(vote(4, 2))).unwrap();
    assert_eq!((sent, step.decision), (0, Some(Decision { round: Round(4), value: 70 })));
    assert_eq!((record.phase, record.counted()), (DECIDED, 2));
    assert_eq!(give(&mut record, vote(4, 1)), Err(24));
}

#[test]
fn quorums() {
    use kalebasin_rig::second::member::quorum;

    assert_eq!([3, 5, 7].map(quorum), [2, 3, 4]);
    for f in 1..=3 {
        assert_eq!(quorum(2 * f + 1), f + 1, "f = {f}");
    }
    for n in [0, 1, 2, 4, 6, 8, 9, u32::MAX] {
        assert_eq!(quorum(n), u32::MAX, "N = {n}");
    }
}

/// A step's line: the number, the message sent, what is proposed or decided.
fn line(answer: Result<Step, Refusal>) -> String {
    let mut line = number_of(&answer).to_string();
    let Ok(step) = answer else { return line };
    if let Some(message) = step.sent {
        let (name, numbers) = match message {
            Message::Start { .. } => ("START", String::new()),
            Message::Join { vote: None, .. } => ("JOIN", String::new()),
            Message::Join { vote: Some(vote), .. } => ("JOIN", format!(" {} {}", vote.round, vote.value)),
            Message::Propose { value, .. } => ("PROPOSE", format!(" {value}")),
            Message::Vote { .. } => ("VOTE", String::new()),
        };
        line += &format!(" {name} {} {}{numbers}", message.round(), message.sender());
    }
    if let Some(Proposal { round, value, parent }) = step.proposal {
        line += &format!(" add {round} {value} {parent}");
    }
    if let Some(Decision { round, value }) = step.decision {
        line += &format!(" commit {round} {value}");
    }
    line
}

/// The lines of the rehearsal: member 1 proposes 70 in round 1, member 2 takes over in round 2 before all votes have
/// arrived and has to propose 70 again.
const CONTEST: &str = "\
0 START 1 1
0 JOIN 1 0
0 JOIN 1 1
0
25
0 PROPOSE 1 1 70 add 1 70 0
0 VOTE 1 0
0 START 2 2
0 JOIN 2 0 1 70
0 JOIN 2 2
0
0 PROPOSE 2 2 70 add 2 70 1
0 VOTE 1 1
0
0 commit 1 70
";

#[test]
fn the_rehearsal_step_by_step() {
    let mut members = [0, 1, 2].map(member);
    let (mut sent, mut lines) = (Vec::new(), String::new());
    for event in parse(REHEARSAL, None).unwrap().events {
        let record = &mut members[event.member().0 as usize];
        let answer = match event {
            Event::Start { round, offer, .. } => record.start(round, offer),
            Event::Deliver { message, .. } => record.deliver(&sent[message.0 as usize]),
            other => panic!("the rehearsal has starts and deliveries, not {other}"),
        };
        sent.extend(answer.ok().and_then(|step| step.sent));
        lines += &(line(answer) + "\n");
    }
    assert_eq!(lines, CONTEST);
}
