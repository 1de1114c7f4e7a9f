//! The member record and its steps.

use super::message;
use kalebasin::{Made, Member, MemberFields, Message, Refusal, Report, Round, Slot, Vote};

/// The phase of a member that has led no round.
pub const IDLE: u32 = 0;
/// The phase of a leader that counts JOINs.
pub const COLLECTING: u32 = 1;
/// The phase of a leader that counts VOTEs.
pub const PROPOSED: u32 = 2;
/// The phase of a leader whose round is decided.
pub const DECIDED: u32 = 3;

/// The member record. The fields have document 01's letters.
#[derive(Clone, Copy, Debug, PartialEq, Eq, Hash)]
pub struct Record {
    /// The slot that it takes messages of.
    pub slot: Slot,
    /// Own number.
    pub number: Member,
    /// The number of members.
    pub n: u32,
    /// J: the highest round joined or voted.
    pub j: Round,
    /// V: the last voted round.
    pub v: Round,
    /// W: the value voted for in V.
    pub w: u64,
    /// L: the round last led.
    pub l: Round,
    /// 0 idle, 1 collecting, 2 proposed, 3 decided.
    pub phase: u32,
    /// X: the value to propose.
    pub x: u64,
    /// B: the round that X came from.
    pub b: Round,
    /// One for each member counted.
    pub flags: [bool; 7],
}

/// add(r, X, B).
#[derive(Clone, Copy, Debug, PartialEq, Eq, Hash)]
pub struct Proposal {
    /// r.
    pub round: Round,
    /// X.
    pub value: u64,
    /// B.
    pub parent: Round,
}

/// commit(r), and the decided value X.
#[derive(Clone, Copy, Debug, PartialEq, Eq, Hash)]
pub struct Decision {
    /// r.
    pub round: Round,
    /// X.
    pub value: u64,
}

/// What a step sends and what its answer names.
#[derive(Clone, Copy, Debug, Default, PartialEq, Eq, Hash)]
pub struct Step {
    /// The message sent.
    pub sent: Option<Message>,
    /// The add that the answer names.
    pub proposal: Option<Proposal>,
    /// The commit that the answer names.
    pub decision: Option<Decision>,
}

/// f + 1 of N = 2f + 1, for each N allowed. Any other N gets a number that no count of the flags reaches.
pub fn quorum(n: u32) -> u32 {
    match n {
        3 => 2,
        5 => 3,
        7 => 4,
        _ => u32::MAX,
    }
}

/// A fresh member of a slot.
pub fn fresh(slot: Slot, number: Member, n: u32) -> Result<Record, Refusal> {
    if !slot.in_range() || !size_allowed(n) || number.0 >= n {
        return Err(Refusal::RecordUnsound);
    }
    Ok(Record {
        slot,
        number,
        n,
        j: Round(0),
        v: Round(0),
        w: 0,
        l: Round(0),
        phase: IDLE,
        x: 0,
        b: Round(0),
        flags: [false; 7],
    })
}

/// start(r, offer): the sent length and the step, with the message at the front of the reply.
pub fn start(record: &mut Record, reply: &mut [u8], round: Round, offer: u64) -> Result<(usize, Step), Refusal> {
    check_lent(record, reply)?;
    let mut after = *record;
    let step = after.start(round, offer)?;
    let sent = send(&step, reply)?;
    *record = after;
    Ok((sent, step))
}

/// Delivers the bytes of a message: the sent length and the step, with what is sent at the front of the reply.
pub fn deliver(record: &mut Record, reply: &mut [u8], bytes: &[u8]) -> Result<(usize, Step), Refusal> {
    check_lent(record, reply)?;
    let message = message::read_of(record.slot, bytes)?;
    let mut after = *record;
    let step = after.deliver(&message)?;
    let sent = send(&step, reply)?;
    *record = after;
    Ok((sent, step))
}

/// [`fresh`], as fields.
pub fn fresh_fields(slot: Slot, number: Member, n: u32) -> Result<MemberFields, Refusal> {
    fresh(slot, number, n).map(|record| record.fields())
}

/// [`start`] on the record of these fields.
pub fn start_fields(fields: &mut MemberFields, round: Round, offer: u64, reply: &mut [u8]) -> Result<Report, Refusal> {
    on_fields(fields, |record| start(record, reply, round, offer))
}

/// [`deliver`] on the record of these fields.
pub fn deliver_fields(fields: &mut MemberFields, bytes: &[u8], reply: &mut [u8]) -> Result<Report, Refusal> {
    on_fields(fields, |record| deliver(record, reply, bytes))
}

/// Fields that are no record, for a flag of no member, aren't sound.
fn on_fields(
    fields: &mut MemberFields,
    call: impl FnOnce(&mut Record) -> Result<(usize, Step), Refusal>,
) -> Result<Report, Refusal> {
    let mut record = Record::from_fields(fields).ok_or(Refusal::RecordUnsound)?;
    let (sent, step) = call(&mut record)?;
    *fields = record.fields();
    Ok(Report::new(sent, step.made()))
}

fn check_lent(record: &Record, reply: &[u8]) -> Result<(), Refusal> {
    if !record.is_sound() {
        return Err(Refusal::RecordUnsound);
    }
    if reply.len() < Message::LONGEST {
        return Err(Refusal::ReplyTooShort);
    }
    Ok(())
}

fn send(step: &Step, reply: &mut [u8]) -> Result<usize, Refusal> {
    match &step.sent {
        Some(message) => message::write(message, reply),
        None => Ok(0),
    }
}

/// N is 3, 5 or 7.
pub fn size_allowed(n: u32) -> bool {
    matches!(n, 3 | 5 | 7)
}

impl Step {
    /// The proposal or the decision.
    pub fn made(&self) -> Option<Made> {
        let proposal = self.proposal.map(|Proposal { round, value, parent }| Made::Proposal { round, value, parent });
        proposal.or(self.decision.map(|Decision { round, value }| Made::Decision { round, value }))
    }
}

impl Record {
    /// The record as a host keeps it.
    pub fn fields(&self) -> MemberFields {
        let mut fields = MemberFields::default();
        fields.slot = self.slot;
        fields.number = self.number;
        fields.members = self.n;
        fields.joined = self.j;
        fields.voted = self.v;
        fields.vote = self.w;
        fields.led = self.l;
        fields.phase = self.phase;
        fields.value = self.x;
        fields.source = self.b;
        fields.flags = (0..7).filter(|at| self.flags[*at]).map(|at| 1 << at).sum();
        fields
    }

    /// The record of these fields; none where a bit is set that is no flag.
    pub fn from_fields(fields: &MemberFields) -> Option<Record> {
        (fields.flags < 1 << 7).then(|| Record {
            slot: fields.slot,
            number: fields.number,
            n: fields.members,
            j: fields.joined,
            v: fields.voted,
            w: fields.vote,
            l: fields.led,
            phase: fields.phase,
            x: fields.value,
            b: fields.source,
            flags: std::array::from_fn(|at| fields.flags >> at & 1 == 1),
        })
    }

    /// What document 01 asks of a sound record, in its order, behind document 02's slot.
    pub fn is_sound(&self) -> bool {
        self.slot.in_range()
            && size_allowed(self.n)
            && self.number.0 < self.n
            && self.phase <= DECIDED
            && self.v <= self.j
            && self.j <= Round::HIGHEST
            && (self.v != Round(0) || self.w == 0)
            && self.flags[self.n as usize..].iter().all(|flag| !flag)
            && (self.phase == IDLE) == (self.l == Round(0))
            && if self.phase == IDLE { self.idle_is_sound() } else { self.leading_is_sound() }
    }

    fn idle_is_sound(&self) -> bool {
        self.x == 0 && self.b == Round(0) && self.counted() == 0
    }

    fn leading_is_sound(&self) -> bool {
        let flags_fit = match self.phase {
            DECIDED => self.counted() == quorum(self.n),
            _ => self.counted() < quorum(self.n),
        };
        self.l <= Round::HIGHEST && self.leads(self.l) && self.b < self.l && flags_fit
    }

    /// Takes the step of a start, or changes nothing.
    pub fn start(&mut self, round: Round, offer: u64) -> Result<Step, Refusal> {
        if !round.in_range() {
            return Err(Refusal::RoundRange);
        }
        if !self.leads(round) {
            return Err(Refusal::NotLeader);
        }
        if round <= self.l {
            return Err(Refusal::NotAboveLed);
        }
        self.l = round;
        self.phase = COLLECTING;
        self.x = offer;
        self.b = Round(0);
        self.flags = [false; 7];
        Ok(self.sends(Message::start(round, self.number)))
    }

    /// Takes the step of a message of its slot, or changes nothing.
    pub fn deliver(&mut self, message: &Message) -> Result<Step, Refusal> {
        if message.slot() != self.slot {
            return Err(Refusal::WrongSlot);
        }
        match *message {
            Message::Start { round, sender, .. } => self.on_start(round, sender),
            Message::Join { round, sender, vote, .. } => self.on_join(round, sender, vote),
            Message::Propose { round, sender, value, .. } => self.on_propose(round, sender, value),
            Message::Vote { round, sender, .. } => self.on_vote(round, sender),
        }
    }

    /// START r at J = r and V < r changes nothing and sends the same JOIN.
    fn on_start(&mut self, round: Round, sender: Member) -> Result<Step, Refusal> {
        if Some(sender) != round.leader(self.n) {
            return Err(Refusal::WrongSender);
        }
        if self.j > round || (self.j == round && self.v == round) {
            return Err(Refusal::MovedPast);
        }
        let vote = if self.v > Round(0) { Some(Vote { round: self.v, value: self.w }) } else { None };
        self.j = round;
        Ok(self.sends(Message::join(round, self.number, vote)))
    }

    fn on_join(&mut self, round: Round, sender: Member, vote: Option<Vote>) -> Result<Step, Refusal> {
        self.count_sender(round, sender, COLLECTING)?;
        if let Some(vote) = vote {
            if vote.round > self.b {
                self.b = vote.round;
                self.x = vote.value;
            }
        }
        if self.counted() < quorum(self.n) {
            return Ok(Step::default());
        }
        self.phase = PROPOSED;
        self.flags = [false; 7];
        let proposal = Proposal { round, value: self.x, parent: self.b };
        let message = Message::propose(round, self.number, self.x);
        Ok(Step { proposal: Some(proposal), ..self.sends(message) })
    }

    fn on_propose(&mut self, round: Round, sender: Member, value: u64) -> Result<Step, Refusal> {
        if Some(sender) != round.leader(self.n) {
            return Err(Refusal::WrongSender);
        }
        if self.j > round {
            return Err(Refusal::MovedPast);
        }
        if self.v == round && self.w != value {
            return Err(Refusal::AnotherValue);
        }
        self.j = round;
        self.v = round;
        self.w = value;
        Ok(self.sends(Message::vote(round, self.number)))
    }

    fn on_vote(&mut self, round: Round, sender: Member) -> Result<Step, Refusal> {
        self.count_sender(round, sender, PROPOSED)?;
        if self.counted() < quorum(self.n) {
            return Ok(Step::default());
        }
        self.phase = DECIDED;
        Ok(Step { decision: Some(Decision { round, value: self.x }), ..Step::default() })
    }

    /// Flags the sender of a JOIN or VOTE that is awaited in this phase.
    fn count_sender(&mut self, round: Round, sender: Member, phase: u32) -> Result<(), Refusal> {
        if sender.0 >= self.n {
            return Err(Refusal::WrongSender);
        }
        if round != self.l || self.phase != phase {
            return Err(Refusal::NotAwaited);
        }
        let Some(flag) = self.flags.get_mut(sender.0 as usize) else { return Err(Refusal::WrongSender) };
        if *flag {
            return Err(Refusal::CountedAlready);
        }
        *flag = true;
        Ok(())
    }

    /// The step that sends this message, in the member's slot, and makes nothing.
    fn sends(&self, message: Message) -> Step {
        Step { sent: Some(message.in_slot(self.slot)), ..Step::default() }
    }

    fn leads(&self, round: Round) -> bool {
        round.leader(self.n) == Some(self.number)
    }

    /// How many members are flagged.
    pub fn counted(&self) -> u32 {
        self.flags.iter().filter(|flag| **flag).count() as u32
    }
}
