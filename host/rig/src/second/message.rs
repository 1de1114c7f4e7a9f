//! The bytes of the four messages: XDR unsigned words, high byte first, the slot in front.

use kalebasin::{Member, Message, Refusal, Round, Slot, Vote};

const HIGHEST_SENDER: Member = Member(6);

/// Reads a message of any slot, as a host does.
pub fn read(bytes: &[u8]) -> Result<Message, Refusal> {
    read_if(bytes, Slot::in_range)
}

/// Reads a message of one slot, as its members do.
pub fn read_of(slot: Slot, bytes: &[u8]) -> Result<Message, Refusal> {
    read_if(bytes, |of| of == slot)
}

/// Reads a message, if its slot may be taken.
fn read_if(bytes: &[u8], may_take: impl Fn(Slot) -> bool) -> Result<Message, Refusal> {
    if bytes.len() < 8 {
        return Err(Refusal::MessageLength);
    }
    let slot = Slot(word(bytes, 0));
    if !may_take(slot) {
        return Err(Refusal::WrongSlot);
    }
    let message = match word(bytes, 4) {
        1 => {
            exact_length(bytes, 16)?;
            Message::start(round(bytes), sender(bytes))
        }
        2 => read_join(bytes)?,
        3 => {
            exact_length(bytes, 24)?;
            Message::propose(round(bytes), sender(bytes), double(bytes, 16))
        }
        4 => {
            exact_length(bytes, 16)?;
            Message::vote(round(bytes), sender(bytes))
        }
        _ => return Err(Refusal::MessageKind),
    };
    check_fields(&message)?;
    Ok(message.in_slot(slot))
}

/// Under 20 bytes, presence, the rest of the length.
fn read_join(bytes: &[u8]) -> Result<Message, Refusal> {
    if bytes.len() < 20 {
        return Err(Refusal::MessageLength);
    }
    let vote = match word(bytes, 16) {
        0 => {
            exact_length(bytes, 20)?;
            None
        }
        1 => {
            exact_length(bytes, 32)?;
            Some(Vote { round: Round(word(bytes, 20)), value: double(bytes, 24) })
        }
        _ => return Err(Refusal::MessageField),
    };
    Ok(Message::join(round(bytes), sender(bytes), vote))
}

/// Writes a message to the front of the buffer; the number of bytes written. A slot above 7, a buffer without room for any
/// message and other fields out of range are refused, in that order, before anything is written.
pub fn write(message: &Message, buffer: &mut [u8]) -> Result<usize, Refusal> {
    if !message.slot().in_range() {
        return Err(Refusal::WrongSlot);
    }
    if buffer.len() < Message::LONGEST {
        return Err(Refusal::ReplyTooShort);
    }
    check_fields(message)?;
    let mut writer = Writer { buffer, at: 0 };
    writer.words(&[message.slot().0]);
    let (round, sender) = (message.round(), message.sender());
    match *message {
        Message::Start { .. } => writer.words(&[1, round.0, sender.0]),
        Message::Join { vote: None, .. } => writer.words(&[2, round.0, sender.0, 0]),
        Message::Join { vote: Some(vote), .. } => {
            writer.words(&[2, round.0, sender.0, 1, vote.round.0]);
            writer.double(vote.value);
        }
        Message::Propose { value, .. } => {
            writer.words(&[3, round.0, sender.0]);
            writer.double(value);
        }
        Message::Vote { .. } => writer.words(&[4, round.0, sender.0]),
    }
    Ok(writer.at)
}

/// Rounds are 1 to 1,000,000, senders 0 to 6; a voted round is at least 1 and below the JOIN's round.
fn check_fields(message: &Message) -> Result<(), Refusal> {
    let vote_fits = match message {
        Message::Join { round, vote: Some(vote), .. } => Round::ROOT < vote.round && vote.round < *round,
        _ => true,
    };
    if message.round().in_range() && message.sender() <= HIGHEST_SENDER && vote_fits {
        Ok(())
    } else {
        Err(Refusal::MessageField)
    }
}

fn exact_length(bytes: &[u8], length: usize) -> Result<(), Refusal> {
    if bytes.len() == length {
        Ok(())
    } else {
        Err(Refusal::MessageLength)
    }
}

fn round(bytes: &[u8]) -> Round {
    Round(word(bytes, 8))
}

fn sender(bytes: &[u8]) -> Member {
    Member(word(bytes, 12))
}

/// The word that starts at a byte.
///
/// # Panics
/// Where the bytes end within it.
pub fn word(bytes: &[u8], at: usize) -> u32 {
    u32::from_be_bytes([bytes[at], bytes[at + 1], bytes[at + 2], bytes[at + 3]])
}

/// The value that starts at a byte.
///
/// # Panics
/// Where the bytes end within it.
pub fn double(bytes: &[u8], at: usize) -> u64 {
    (u64::from(word(bytes, at)) << 32) | u64::from(word(bytes, at + 4))
}

/// The buffer lent for the reply, and how far it has got.
struct Writer<'a> {
    buffer: &'a mut [u8],
    at: usize,
}

impl Writer<'_> {
    fn words(&mut self, words: &[u32]) {
        for word in words {
            self.put(&word.to_be_bytes());
        }
    }

    fn double(&mut self, value: u64) {
        self.put(&value.to_be_bytes());
    }

    fn put(&mut self, bytes: &[u8]) {
        self.buffer[self.at..][..bytes.len()].copy_from_slice(bytes);
        self.at += bytes.len();
    }
}
