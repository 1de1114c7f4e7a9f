//! The second implementation's messages against document 01 and Ticket 6 of document 02: case P12, the order of the checks, slots
//! for a host and for a member, the round trip.

use kalebasin::{number_of, Member, Message, Refusal, Round, Slot, Vote, SLOTS};
use kalebasin_rig::second::message::{read, read_of, write};

fn bytes(words: &[u32]) -> Vec<u8> {
    words.iter().flat_map(|word| word.to_be_bytes()).collect()
}

fn number(bytes: &[u8]) -> u32 {
    number_of(&read(bytes))
}

#[test]
fn case_p12() {
    assert_eq!(number(&bytes(&[0, 2, 5, 0])), 14);
    assert_eq!(read(&bytes(&[0, 2, 5, 0, 0])), Ok(Message::join(Round(5), Member(0), None)));
}

/// The words behind the slot, in each slot; above 7 each message that has a kind gets 32.
#[test]
fn checks_in_order() {
    let cases: &[(&[u32], u32)] = &[
        (&[], 14),
        (&[0], 15),
        (&[5, 0, 9], 15),
        (&[u32::MAX], 15),
        (&[1], 14),
        (&[1, 0], 14),
        (&[1, 0, 9, 0], 14),
        (&[1, 0, 0], 16),
        (&[1, 1_000_001, 0], 16),
        (&[1, 1, 7], 16),
        (&[1, 1_000_000, 6], 0),
        (&[2, 0, 9], 14),
        (&[2, 0, 9, 2], 16),
        (&[2, 0, 9, 2, 0, 0, 0, 0], 16),
        (&[2, 5, 0, 1], 14),
        (&[2, 0, 9, 0, 0], 14),
        (&[2, 5, 0, 0, 1, 0, 0], 14),
        (&[2, 5, 0, 1, 0, 0, 0], 16),
        (&[2, 5, 0, 1, 5, 0, 0], 16),
        (&[2, 5, 0, 1, 4, 0, 0], 0),
        (&[2, 1_000_001, 0, 1, 4, 0, 0], 16),
        (&[2, 5, 0, 1, 4, 0, 0, 0], 14),
        (&[3, 5, 0, 9], 14),
        (&[3, 0, 0, 9, 9], 16),
        (&[3, 5, 6, 9, 9], 0),
        (&[4, 5, 7], 16),
        (&[4, 5, 6], 0),
    ];
    for (words, expected) in cases {
        for slot in 0..SLOTS as u32 {
            assert_eq!(number(&bytes(&[&[slot], *words].concat())), *expected, "{words:?} in slot {slot}");
        }
        for slot in [8, 9, 1 << 8, 1 << 24, u32::MAX] {
            let expected = if words.is_empty() { 14 } else { 32 };
            assert_eq!(number(&bytes(&[&[slot], *words].concat())), expected, "{words:?} in slot {slot}");
        }
    }
    let join = bytes(&[0, 2, 5, 0, 1, 4, 0, 0]);
    for length in 0..join.len() {
        assert_eq!(number(&join[..length]), 14, "{length}");
    }
}

/// Under 8 bytes 14, whatever the slot word says; from 8 on 32, whatever stands behind.
#[test]
fn slots_by_length() {
    for slot in [8, u32::MAX] {
        let message = bytes(&[slot, 1, 1, 1]);
        for length in 0..=message.len() {
            assert_eq!(number(&message[..length]), if length < 8 { 14 } else { 32 }, "{length}");
        }
    }
}

/// A member's reader takes its own slot's messages alone, and else does what a host's does.
#[test]
fn messages_of_one_slot() {
    let words: [&[u32]; 6] = [&[], &[9], &[1, 1, 1], &[4, 0, 0], &[2, 5, 0, 1, 4, 0, 0], &[3, 5]];
    for words in words {
        for slot in (0..=8).chain([u32::MAX]) {
            let message = bytes(&[&[slot], words].concat());
            for own in Slot::ALL {
                let expected = if message.len() < 8 {
                    Err(Refusal::MessageLength)
                } else if Slot(slot) == own {
                    read(&message)
                } else {
                    Err(Refusal::WrongSlot)
                };
                assert_eq!(read_of(own, &message), expected, "{words:?} of slot {slot} in slot {own}");
                assert_eq!(read_of(own, &message[..message.len().min(7)]), Err(Refusal::MessageLength));
            }
        }
    }
}

/// The writer's slot: 32, then 18, then 16, as a host's call of it has them.
#[test]
fn written_slots() {
    let (good, bad) = (Message::vote(Round(5), Member(6)), Message::vote(Round(0), Member(6)));
    for slot in Slot::ALL {
        let mut buffer = [0xaa; 32];
        assert_eq!(write(&good.in_slot(slot), &mut buffer), Ok(16));
        assert_eq!((&buffer[..16], &buffer[16..]), (&bytes(&[slot.0, 4, 5, 6])[..], &[0xaa; 16][..]));
        assert_eq!(number_of(&write(&bad.in_slot(slot), &mut buffer)), 16);
    }
    for slot in [8, u32::MAX].map(Slot) {
        for message in [good, bad] {
            let mut buffer = [0xaa; 32];
            assert_eq!(number_of(&write(&message.in_slot(slot), &mut buffer[..31])), 32);
            assert_eq!(number_of(&write(&message.in_slot(slot), &mut buffer)), 32);
            assert_eq!(number_of(&write(&message, &mut buffer[..31])), 18);
            assert_eq!(buffer, [0xaa; 32]);
        }
    }
}

fn some_messages() -> Vec<Message> {
    let mut messages = Vec::new();
    for round in [0, 1, 2, 1_000_000, 1_000_001].map(Round) {
        for sender in [0, 6, 7].map(Member) {
            messages.push(Message::start(round, sender));
            messages.push(Message::vote(round, sender));
            messages.push(Message::propose(round, sender, 0x0102_0304_0506_0708));
            messages.push(Message::join(round, sender, None));
            for voted in [0, 1, 2, 999_999, 1_000_000].map(Round) {
                messages.push(Message::join(round, sender, Some(Vote { round: voted, value: u64::MAX })));
            }
        }
    }
    let in_slot = |slot| messages.iter().map(move |message| message.in_slot(slot));
    in_slot(Slot(0)).chain(in_slot(Slot(7))).collect()
}

/// What is written is read back; fields out of range are refused with the buffer untouched.
#[test]
fn round_trip() {
    let mut accepted = 0;
    for message in some_messages() {
        let mut buffer = [0xaa; 40];
        match write(&message, &mut buffer) {
            Ok(length) => {
                accepted += 1;
                assert_eq!(read(&buffer[..length]), Ok(message));
                assert!(buffer[length..].iter().all(|byte| *byte == 0xaa));
            }
            Err(refusal) => {
                assert_eq!(refusal, Refusal::MessageField);
                assert_eq!(buffer, [0xaa; 40]);
            }
        }
    }
    assert_eq!(accepted, 2 * 2 * (3 * 4 + 1 + 3));
}

/// Bytes that are read are those that would be written.
#[test]
fn one_way_to_write() {
    for message in some_messages() {
        let mut buffer = [0; 32];
        let Ok(length) = write(&message, &mut buffer) else { continue };
        for at in 0..length {
            for damage in 1..=255 {
                let mut damaged = buffer;
                damaged[at] ^= damage;
                if let Ok(other) = read(&damaged[..length]) {
                    let mut again = [0; 32];
                    assert_eq!(write(&other, &mut again), Ok(length));
                    assert_eq!(again, damaged);
                }
            }
        }
    }
}
