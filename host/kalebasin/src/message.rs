//! The four messages, as values.

use crate::{Member, Round, Slot};
use std::fmt;

/// A vote that a member has cast: the last voted round and its value.
#[derive(Clone, Copy, Debug, PartialEq, Eq, Hash)]
pub struct Vote {
    /// The round voted in.
    pub round: Round,
    /// The value voted for.
    pub value: u64,
}

/// A message between members. Its bytes are read by `read_message` and written by `Message::write`.
///
/// Later versions have more fields in each kind, so a pattern ends in `..`, and a message is made by the function of its
/// kind. That makes it one of slot 0; [`Message::in_slot`] makes of it one of another slot:
///
/// ```
/// use kalebasin::{Member, Message, Round, Slot};
///
/// let vote = Message::vote(Round(9), Member(2));
/// assert_eq!(vote.to_string(), "VOTE of round 9 from member 2");
/// assert_eq!(vote.in_slot(Slot(3)).to_string(), "VOTE of round 9 from member 2 in slot 3");
/// ```
#[derive(Clone, Copy, Debug, PartialEq, Eq, Hash)]
pub enum Message {
    /// The leader asks the members to join a round.
    #[non_exhaustive]
    Start {
        /// The slot it is of.
        slot: Slot,
        /// The round to join.
        round: Round,
        /// Its leader.
        sender: Member,
    },
    /// A member joins, and tells its last vote if it has voted.
    #[non_exhaustive]
    Join {
        /// The slot it is of.
        slot: Slot,
        /// The round joined.
        round: Round,
        /// The member that joins.
        sender: Member,
        /// Its last vote; none if it never voted.
        vote: Option<Vote>,
    },
    /// The leader proposes a value.
    #[non_exhaustive]
    Propose {
        /// The slot it is of.
        slot: Slot,
        /// The round of the proposal.
        round: Round,
        /// Its leader.
        sender: Member,
        /// The value proposed.
        value: u64,
    },
    /// A member votes for the value of a round.
    #[non_exhaustive]
    Vote {
        /// The slot it is of.
        slot: Slot,
        /// The round voted in.
        round: Round,
        /// The member that votes.
        sender: Member,
    },
}

impl Message {
    /// The length of the longest message in bytes.
    pub const LONGEST: usize = 32;

    /// A START of the round's leader.
    pub fn start(round: Round, sender: Member) -> Message {
        Message::Start { slot: Slot(0), round, sender }
    }

    /// A JOIN, with the sender's last vote if it has voted.
    pub fn join(round: Round, sender: Member, vote: Option<Vote>) -> Message {
        Message::Join { slot: Slot(0), round, sender, vote }
    }

    /// A PROPOSE of the round's leader.
    pub fn propose(round: Round, sender: Member, value: u64) -> Message {
        Message::Propose { slot: Slot(0), round, sender, value }
    }

    /// A VOTE.
    pub fn vote(round: Round, sender: Member) -> Message {
        Message::Vote { slot: Slot(0), round, sender }
    }

    /// The same message in another slot.
    #[must_use]
    pub fn in_slot(mut self, other: Slot) -> Message {
        match &mut self {
            Message::Start { slot, .. }
            | Message::Join { slot, .. }
            | Message::Propose { slot, .. }
            | Message::Vote { slot, .. } => *slot = other,
        }
        self
    }

    /// The slot it is of.
    pub fn slot(&self) -> Slot {
        match *self {
            Message::Start { slot, .. }
            | Message::Join { slot, .. }
            | Message::Propose { slot, .. }
            | Message::Vote { slot, .. } => slot,
        }
    }

    /// The round it is of.
    pub fn round(&self) -> Round {
        match *self {
            Message::Start { round, .. }
            | Message::Join { round, .. }
            | Message::Propose { round, .. }
            | Message::Vote { round, .. } => round,
        }
    }

    /// The member that sent it.
    pub fn sender(&self) -> Member {
        match *self {
            Message::Start { sender, .. }
            | Message::Join { sender, .. }
            | Message::Propose { sender, .. }
            | Message::Vote { sender, .. } => sender,
        }
    }

    /// START, JOIN, PROPOSE or VOTE.
    pub fn kind(&self) -> &'static str {
        match self {
            Message::Start { .. } => "START",
            Message::Join { .. } => "JOIN",
            Message::Propose { .. } => "PROPOSE",
            Message::Vote { .. } => "VOTE",
        }
    }
}

impl fmt::Display for Message {
    /// Such as `JOIN of round 2 from member 0, which voted for 70 in round 1`; the slot is named where it isn't 0.
    fn fmt(&self, f: &mut fmt::Formatter) -> fmt::Result {
        write!(f, "{} of round {} from member {}", self.kind(), self.round(), self.sender())?;
        if self.slot() != Slot(0) {
            write!(f, " in slot {}", self.slot())?;
        }
        match self {
            Message::Join { vote: None, .. } => write!(f, ", which never voted"),
            Message::Join { vote: Some(vote), .. } => {
                write!(f, ", which voted for {} in round {}", vote.value, vote.round)
            }
            Message::Propose { value, .. } => write!(f, " with the value {value}"),
            Message::Start { .. } | Message::Vote { .. } => Ok(()),
        }
    }
}
