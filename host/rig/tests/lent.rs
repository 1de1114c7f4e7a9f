//! The member calls on a lent record, of the crate `member_lent`, against the second implementation. They are no part of the
//! archive that a host links: this needs one of its own, which `host/archives.sh member_lent` writes beside it.

#![cfg(feature = "core")]

mod compared;

use compared::{same, seed};
use kalebasin::{Made, Member, MemberFields, Message, Refusal, Report, Round, Slot};
use kalebasin_rig::{second, suite, Calls};

/// The calls as they are declared in Rattle: a flag is a `bool` there, so that only Rust's own can stand in its byte.
mod ffi {
    #[repr(C)]
    #[derive(Clone, Copy, Debug, PartialEq, Eq)]
    pub struct Who {
        pub slot: u32,
        pub me: u32,
        pub n: u32,
    }

    #[repr(C)]
    #[derive(Clone, Copy, Debug, PartialEq, Eq)]
    pub struct Durable {
        pub joined: u32,
        pub voted: u32,
        pub vote: u64,
        pub led: u32,
    }

    #[repr(C)]
    #[derive(Clone, Copy, Debug, PartialEq, Eq)]
    pub struct Lead {
        pub phase: u32,
        pub source: u32,
        pub value: u64,
        pub flags: [bool; 7],
    }

    #[repr(C)]
    #[derive(Clone, Copy, Debug, PartialEq, Eq)]
    pub struct MemberState {
        pub who: Who,
        pub durable: Durable,
        pub lead: Lead,
    }

    #[repr(C)]
    #[derive(Clone, Copy, Debug, PartialEq, Eq)]
    pub struct Report {
        pub number: u32,
        pub sent: usize,
        pub round: u32,
        pub value: u64,
        pub parent: u32,
    }

    #[link(name = "member_lent", kind = "static")]
    extern "C" {
        pub fn fresh(m: *mut MemberState, slot: u32, me: u32, n: u32) -> Report;
        pub fn start(m: *mut MemberState, round: u32, offer: u64, reply: *mut u8, len: usize) -> Report;
        pub fn deliver(m: *mut MemberState, bytes: *const u8, bytes_len: usize, reply: *mut u8, len: usize) -> Report;
    }
}

/// A record with marks on both sides, which no call may touch.
#[repr(C)]
struct Lent {
    before: [u64; 4],
    record: ffi::MemberState,
    after: [u64; 4],
}

const MARKS: [u64; 4] = [0xaaaa_aaaa_aaaa_aaaa; 4];

/// Lends a record to a call; the call's report and the record after it.
fn lend(
    record: ffi::MemberState,
    call: impl FnOnce(*mut ffi::MemberState) -> ffi::Report,
) -> (ffi::Report, ffi::MemberState) {
    let mut lent = Lent { before: MARKS, record, after: MARKS };
    let report = call(&mut lent.record);
    assert_eq!((lent.before, lent.after), (MARKS, MARKS), "marks beside the record");
    (report, lent.record)
}

/// The record of these fields; none where a bit is set that is no flag, which a lent record has no place for.
fn record_of(fields: &MemberFields) -> Option<ffi::MemberState> {
    (fields.flags < 1 << 7).then(|| ffi::MemberState {
        who: ffi::Who { slot: fields.slot.0, me: fields.number.0, n: fields.members },
        durable: ffi::Durable { joined: fields.joined.0, voted: fields.voted.0, vote: fields.vote, led: fields.led.0 },
        lead: ffi::Lead {
            phase: fields.phase,
            source: fields.source.0,
            value: fields.value,
            flags: std::array::from_fn(|at| fields.flags >> at & 1 == 1),
        },
    })
}

fn fields_of(record: &ffi::MemberState) -> MemberFields {
    let ffi::MemberState { who, durable, lead } = record;
    let mut fields = MemberFields::default();
    fields.slot = Slot(who.slot);
    fields.number = Member(who.me);
    fields.members = who.n;
    fields.joined = Round(durable.joined);
    fields.voted = Round(durable.voted);
    fields.vote = durable.vote;
    fields.led = Round(durable.led);
    fields.phase = lead.phase;
    fields.value = lead.value;
    fields.source = Round(lead.source);
    fields.flags = (0..7).filter(|at| lead.flags[*at]).map(|at| 1 << at).sum();
    fields
}

/// What a report says. Each number that the call doesn't give or name is 0.
fn told(report: ffi::Report) -> Result<Report, Refusal> {
    let ffi::Report { number, sent, round, value, parent } = report;
    if number != 0 {
        assert_eq!((sent, round, value, parent), (0, 0, 0, 0), "a refusal's other numbers");
        return Err(Refusal::from_number(number).expect("a number of document 01"));
    }
    let made = match (round, sent) {
        (0, _) => None,
        (_, 0) => Some(Made::Decision { round: Round(round), value }),
        _ => Some(Made::Proposal { round: Round(round), value, parent: Round(parent) }),
    };
    if !matches!(made, Some(Made::Proposal { .. })) {
        assert_eq!((parent, made.is_none() && value != 0), (0, false), "{report:?}");
    }
    Ok(Report::new(sent, made))
}

/// Makes a call on the record of these fields, which are then those of the record after it, also where it is refused.
fn on_record(
    fields: &mut MemberFields,
    call: impl FnOnce(*mut ffi::MemberState) -> ffi::Report,
) -> Result<Report, Refusal> {
    let record = record_of(fields).ok_or(Refusal::RecordUnsound)?;
    let (report, after) = lend(record, call);
    *fields = fields_of(&after);
    told(report)
}

fn start(fields: &mut MemberFields, round: Round, offer: u64, reply: &mut [u8]) -> Result<Report, Refusal> {
    // SAFETY: the record is exclusive and its flags are Booleans; pointer and length come from one exclusive slice.
    on_record(fields, |record| unsafe { ffi::start(record, round.0, offer, reply.as_mut_ptr(), reply.len()) })
}

fn deliver(fields: &mut MemberFields, bytes: &[u8], reply: &mut [u8]) -> Result<Report, Refusal> {
    // SAFETY: as in `start`; the bytes are another slice.
    on_record(fields, |record| unsafe {
        ffi::deliver(record, bytes.as_ptr(), bytes.len(), reply.as_mut_ptr(), reply.len())
    })
}

/// Fresh on a record of ones: all of it is another one after, or nothing is.
fn fresh(slot: Slot, number: Member, members: u32) -> Result<MemberFields, Refusal> {
    let mut fields = ones();
    // SAFETY: the record is exclusive and its flags are Booleans.
    let answer = on_record(&mut fields, |record| unsafe { ffi::fresh(record, slot.0, number.0, members) });
    assert_eq!(fields == ones(), answer.is_err(), "the record after fresh({slot}, {number}, {members})");
    answer.map(|report| {
        assert_eq!(report, Report::default());
        fields
    })
}

/// No record: every number is the highest there is, and every flag is set.
fn ones() -> MemberFields {
    let mut fields = MemberFields::default();
    let (word, round, value) = (u32::MAX, Round(u32::MAX), u64::MAX);
    (fields.slot, fields.number, fields.members) = (Slot(word), Member(word), word);
    (fields.phase, fields.flags) = (word, 127);
    (fields.joined, fields.voted, fields.led, fields.source) = (round, round, round, round);
    (fields.vote, fields.value) = (value, value);
    fields
}

/// The lent calls, and the second implementation for all else.
const LENT: Calls = Calls {
    name: "the calls on a lent record",
    member_fresh: fresh,
    member_start: start,
    member_deliver: deliver,
    ..second::CALLS
};

const PAIR: [&Calls; 2] = [&LENT, &second::CALLS];

#[test]
fn every_small_record() {
    same("small lent records", suite::small_records(PAIR));
}

#[test]
fn random_members() {
    same("random lent members", suite::random_members(PAIR, seed(), 40_000));
}

/// Of all slots, members and sizes up to 9, and of numbers at the ends of their range.
#[test]
fn fresh_records() {
    let numbers = || (0..10).chain([u32::MAX - 1, u32::MAX]);
    let mut accepted = 0;
    for slot in numbers().map(Slot) {
        for (number, members) in numbers().flat_map(|number| numbers().map(move |members| (Member(number), members))) {
            let answer = fresh(slot, number, members);
            let expected = (second::CALLS.member_fresh)(slot, number, members);
            assert_eq!(answer, expected, "fresh({slot}, {number}, {members})");
            accepted += usize::from(answer.is_ok());
        }
    }
    assert_eq!(accepted, 8 * (3 + 5 + 7));
}

/// A member that goes on from what the call before left where it sits: round 1 of three members in slot 7, to its decision.
#[test]
fn a_round_on_records_where_they_sit() {
    let mut office = [0, 1].map(|number| fresh(Slot(7), Member(number), 3).unwrap());
    let mut reply = [0xaa; Message::LONGEST];
    let mut sent = start(&mut office[1], Round(1), 70, &mut reply).unwrap().sent;
    let mut made = Vec::new();
    for _ in 0..2 {
        let message = reply[..sent].to_vec();
        for member in 0..2 {
            let length = deliver(&mut office[member], &message, &mut reply).unwrap().sent;
            let answer = reply[..length].to_vec();
            let counted = deliver(&mut office[1], &answer, &mut reply).unwrap();
            made.extend(counted.made);
            sent = counted.sent;
        }
    }
    let proposal = Made::Proposal { round: Round(1), value: 70, parent: Round(0) };
    assert_eq!(made, [proposal, Made::Decision { round: Round(1), value: 70 }]);
}
