//! One member: the fields of its record, and what a call on it comes to.

use crate::{Member, Round, Slot};

/// The fields of a member record, with document 01's letters: what a host keeps on disk, or shows.
///
/// Any numbers may stand here. Whether they are a sound record is asked by each call that gets them.
/// Later versions have more fields, so start from those of a record or from `MemberFields::default()`, which has zeros and
/// is no sound record.
#[derive(Clone, Copy, Debug, Default, PartialEq, Eq, Hash)]
#[non_exhaustive]
pub struct MemberFields {
    /// The slot that the member takes messages of.
    pub slot: Slot,
    /// The member's own number.
    pub number: Member,
    /// N: the number of members.
    pub members: u32,
    /// J: the highest round joined or voted in.
    pub joined: Round,
    /// V: the round last voted in, 0 if none.
    pub voted: Round,
    /// W: the value voted for there.
    pub vote: u64,
    /// L: the round last led, 0 if none.
    pub led: Round,
    /// As a leader: 0 idle, 1 collecting JOINs, 2 proposed and counting VOTEs, 3 decided.
    pub phase: u32,
    /// X: the value to propose.
    pub value: u64,
    /// B: the round that it came from, 0 for the member's own offer.
    pub source: Round,
    /// Bit s is set if member s is counted in this phase. From bit 7 on no bit is set in a sound record.
    pub flags: u32,
}

impl MemberFields {
    /// Whether this member is counted in the present phase.
    pub fn counted(&self, member: Member) -> bool {
        member.0 < 7 && self.flags >> member.0 & 1 == 1
    }
}

/// What an accepted call on a member came to.
#[derive(Clone, Copy, Debug, Default, PartialEq, Eq, Hash)]
#[non_exhaustive]
pub struct Report {
    /// The length of the message at the front of the reply, 0 if none is sent.
    pub sent: usize,
    /// What the call made, if it made something.
    pub made: Option<Made>,
}

impl Report {
    /// The report of a call that sent a message of this length, 0 for none, and made this.
    pub fn new(sent: usize, made: Option<Made>) -> Report {
        Report { sent, made }
    }
}

/// A proposal or a decision: what a call of the tree takes.
#[derive(Clone, Copy, Debug, PartialEq, Eq, Hash)]
pub enum Made {
    /// A quorum has joined, 2 of 3, 3 of 5 or 4 of 7: add(round, value, parent). The PROPOSE stands in the reply.
    Proposal {
        /// The round.
        round: Round,
        /// The value proposed.
        value: u64,
        /// The round that the value came from, 0 for the leader's own offer.
        parent: Round,
    },
    /// A quorum has voted: commit(round). Nothing is sent.
    Decision {
        /// The round.
        round: Round,
        /// The value decided.
        value: u64,
    },
}
