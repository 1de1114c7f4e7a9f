//! Play in plain Rust, written for speed: what could be had at most. The benchmark has it beside the core; the core is measured
//! by [`ONE_WALK`].
//!
//! It goes once over the nodes for a proposal and once for a decision. It is play alone, in one piece, without proofs; a test
//! compares it with the second implementation, lent memory included. The office's host program calls the core, not this.

use crate::second::play::{split, TreeSteps};
use crate::second::{self, tree};
use crate::Calls;
use kalebasin::{EventList, Member, Played, Refusal, Round, Slot, SLOTS, STORE_ROW, STORE_ROWS, TABLE_ROW};

/// The second implementation with the quick play in place of its own.
pub const CALLS: Calls = Calls { name: "the quick play", play, ..second::CALLS };

/// The second implementation with the quick play's tree: one walk for a proposal, one for a decision.
pub const ONE_WALK: Calls = Calls { name: "the same with one walk", play: one_walk, ..second::CALLS };

fn one_walk(
    list: &[u8],
    store: &mut [u8],
    words: &mut [u64],
    lengths: &[usize; SLOTS],
    answers: &mut [u8],
) -> Result<Played, Refusal> {
    let steps = TreeSteps {
        add: |words, nodes, made| {
            Tree { words, used: nodes * TABLE_ROW }.add(made.round.0.into(), made.value, made.parent.0.into())
        },
        commit: |words, r| Tree { words, used: 0 }.commit(r),
    };
    second::play::play_by(&steps, list, store, words, lengths, answers)
}

/// Runs the list, with the messages in the store, the trees in the tables, which stand in the words one after another, and
/// one answer byte for each event.
pub fn play(
    list: &[u8],
    store: &mut [u8],
    words: &mut [u64],
    lengths: &[usize; SLOTS],
    answers: &mut [u8],
) -> Result<Played, Refusal> {
    let (n, count, mut rest) = check_list(list).ok_or(Refusal::ListShape)?;
    if !matches!(n, 3 | 5 | 7) {
        return Err(Refusal::OfficeSize);
    }
    let whole_rows = store.len() % STORE_ROW == 0 && (1..=STORE_ROWS).contains(&(store.len() / STORE_ROW));
    let answers = answers.get_mut(..count).filter(|_| whole_rows).ok_or(Refusal::StoreOrAnswers)?;
    let mut tables = split(words, lengths)?;
    tables.iter().try_for_each(|table| tree::check_length(table))?;
    tables.iter_mut().try_for_each(|table| tree::fresh(table))?;
    store.fill(0);

    let slots =
        tables.map(|table| OfSlot { members: [Record::default(); 7], tree: Tree { words: table, used: TABLE_ROW } });
    let mut office = Office { n, slots, store: Store { bytes: store, sent: 0 } };
    let mut played = Played::default();
    for answer in answers {
        let Some((event, behind)) = first_event(rest) else { break };
        rest = behind;
        let made = match event {
            Event::Start(words) => {
                let (slot, member) = (Slot(word(words, 4)), Member(word(words, 8)));
                office.start(slot, member, Round(word(words, 12)), double(words, 16))
            }
            Event::Deliver(words) => office.deliver(Slot(word(words, 4)), word(words, 8), Member(word(words, 12))),
        };
        *answer = made.as_ref().map_or_else(|refusal| refusal.number() as u8, |_| 0);
        if let Ok(made) = made {
            played.accepted += 1;
            match made {
                Made::Nothing => {}
                Made::Proposal { ghosts } => {
                    played.proposals += 1;
                    played.ghosts += ghosts;
                }
                Made::Decision => played.decisions += 1,
            }
        }
    }
    played.messages = office.store.sent;
    Ok(played)
}

/// An event's bytes.
enum Event<'a> {
    Start(&'a [u8; 24]),
    Deliver(&'a [u8; 16]),
}

/// N, the event count and the events, if bytes, count and kinds match exactly.
fn check_list(list: &[u8]) -> Option<(u32, usize, &[u8])> {
    let (head, events) = list.split_first_chunk::<8>()?;
    let count = word(head, 4) as usize;
    if count > EventList::MOST {
        return None;
    }
    let mut rest = events;
    for _ in 0..count {
        rest = first_event(rest)?.1;
    }
    rest.is_empty().then_some((word(head, 0), count, events))
}

/// The event at the front, and the rest of the list.
fn first_event(list: &[u8]) -> Option<(Event<'_>, &[u8])> {
    match u32::from_be_bytes(*list.first_chunk()?) {
        1 => list.split_first_chunk().map(|(event, rest)| (Event::Start(event), rest)),
        2 => list.split_first_chunk().map(|(event, rest)| (Event::Deliver(event), rest)),
        _ => None,
    }
}

/// What an accepted event makes in the tree.
enum Made {
    Nothing,
    /// With the number of rounds made GHOST.
    Proposal {
        ghosts: u32,
    },
    Decision,
}

#[derive(Clone, Copy, Default, PartialEq)]
enum Phase {
    #[default]
    Idle,
    Collecting,
    Proposed,
    Decided,
}

/// The member record. The fields have document 01's letters; slot, number and N are the office's.
#[derive(Clone, Copy, Default)]
struct Record {
    j: Round,
    v: Round,
    w: u64,
    l: Round,
    phase: Phase,
    x: u64,
    b: Round,
    /// A bit for each member counted.
    flags: u8,
}

impl Record {
    /// The flags with that of a sender whose JOIN or VOTE is awaited in this phase.
    fn count(&self, n: u32, round: Round, sender: Member, phase: Phase) -> Result<u8, Refusal> {
        if sender.0 >= n {
            return Err(Refusal::WrongSender);
        }
        if round != self.l || self.phase != phase {
            return Err(Refusal::NotAwaited);
        }
        let flags = self.flags | 1 << sender.0;
        if flags == self.flags {
            return Err(Refusal::CountedAlready);
        }
        Ok(flags)
    }
}

/// More than half of the members: 2 of 3, 3 of 5, 4 of 7.
fn is_quorum(n: u32, flags: u8) -> bool {
    flags.count_ones() > n / 2
}

// The kinds of messages.
const START: u32 = 1;
const JOIN: u32 = 2;
const PROPOSE: u32 = 3;
const VOTE: u32 = 4;

/// The slots, and what all their members have sent.
struct Office<'a> {
    n: u32,
    slots: [OfSlot<'a>; SLOTS],
    store: Store<'a>,
}

/// The members of a slot, and its tree.
struct OfSlot<'a> {
    members: [Record; 7],
    tree: Tree<'a>,
}

impl Office<'_> {
    /// Takes a start, or changes nothing.
    fn start(&mut self, slot: Slot, member: Member, round: Round, offer: u64) -> Result<Made, Refusal> {
        let of_slot = self.slots.get_mut(slot.0 as usize).ok_or(Refusal::WrongSlot)?;
        let record = member_of(&mut of_slot.members, self.n, member)?;
        if !round.in_range() {
            return Err(Refusal::RoundRange);
        }
        if round.leader(self.n) != Some(member) {
            return Err(Refusal::NotLeader);
        }
        if round <= record.l {
            return Err(Refusal::NotAboveLed);
        }
        self.store.send(slot, START, round, member)?;
        *record = Record { l: round, phase: Phase::Collecting, x: offer, b: Round::ROOT, flags: 0, ..*record };
        Ok(Made::Nothing)
    }

    /// Takes a message sent earlier, or changes nothing.
    fn deliver(&mut self, slot: Slot, message: u32, member: Member) -> Result<Made, Refusal> {
        let n = self.n;
        let of_slot = self.slots.get_mut(slot.0 as usize).ok_or(Refusal::WrongSlot)?;
        let record = member_of(&mut of_slot.members, n, member)?;
        let words = self.store.message(message).ok_or(Refusal::NoMemberOrMessage)?;
        if Slot(word(words, 0)) != slot {
            return Err(Refusal::WrongSlot);
        }
        let (round, sender) = (Round(word(words, 8)), Member(word(words, 12)));
        match word(words, 4) {
            START => {
                if round.leader(n) != Some(sender) {
                    return Err(Refusal::WrongSender);
                }
                if record.j > round || (record.j == round && record.v == round) {
                    return Err(Refusal::MovedPast);
                }
                let join = self.store.send(slot, JOIN, round, member)?;
                if record.v > Round::ROOT {
                    put(join, 16, 1);
                    put(join, 20, record.v.0);
                    put_double(join, 24, record.w);
                }
                record.j = round;
                Ok(Made::Nothing)
            }
            JOIN => {
                let flags = record.count(n, round, sender, Phase::Collecting)?;
                // Of a JOIN that never voted the voted round reads as 0.
                let voted = Round(word(words, 20));
                let (x, b) = if voted > record.b { (double(words, 24), voted) } else { (record.x, record.b) };
                if !is_quorum(n, flags) {
                    *record = Record { x, b, flags, ..*record };
                    return Ok(Made::Nothing);
                }
                if self.store.is_full() {
                    return Err(Refusal::StoreFull);
                }
                let ghosts = of_slot.tree.add(round.0.into(), x, b.0.into())?;
                let propose = self.store.send(slot, PROPOSE, round, member)?;
                put_double(propose, 16, x);
                *record = Record { phase: Phase::Proposed, x, b, flags: 0, ..*record };
                Ok(Made::Proposal { ghosts })
            }
            PROPOSE => {
                let value = double(words, 16);
                if round.leader(n) != Some(sender) {
                    return Err(Refusal::WrongSender);
                }
                if record.j > round {
                    return Err(Refusal::MovedPast);
                }
                if record.v == round && record.w != value {
                    return Err(Refusal::AnotherValue);
                }
                self.store.send(slot, VOTE, round, member)?;
                *record = Record { j: round, v: round, w: value, ..*record };
                Ok(Made::Nothing)
            }
            // A VOTE: the store has messages that play wrote, and nothing else.
            _ => {
                let flags = record.count(n, round, sender, Phase::Proposed)?;
                if !is_quorum(n, flags) {
                    record.flags = flags;
                    return Ok(Made::Nothing);
                }
                of_slot.tree.commit(round.0.into())?;
                *record = Record { phase: Phase::Decided, flags, ..*record };
                Ok(Made::Decision)
            }
        }
    }
}

fn member_of(members: &mut [Record; 7], n: u32, member: Member) -> Result<&mut Record, Refusal> {
    let record = members.get_mut(member.0 as usize).filter(|_| member.0 < n);
    record.ok_or(Refusal::NoMemberOrMessage)
}

type Row = [u8; STORE_ROW];

/// The lent store, and how many messages it has.
struct Store<'a> {
    bytes: &'a mut [u8],
    sent: u32,
}

impl Store<'_> {
    fn message(&self, number: u32) -> Option<&Row> {
        let row = self.bytes.chunks_exact(STORE_ROW).nth(number as usize).filter(|_| number < self.sent);
        row?.first_chunk()
    }

    fn is_full(&self) -> bool {
        self.sent as usize * STORE_ROW >= self.bytes.len()
    }

    /// Puts a message behind the others: its first words, and its row for the rest, which is zeros.
    fn send(&mut self, slot: Slot, kind: u32, round: Round, sender: Member) -> Result<&mut Row, Refusal> {
        let free = self.bytes.chunks_exact_mut(STORE_ROW).nth(self.sent as usize);
        let row = free.and_then(|free| free.first_chunk_mut()).ok_or(Refusal::StoreFull)?;
        self.sent += 1;
        put(row, 0, slot.0);
        put(row, 4, kind);
        put(row, 8, round.0);
        put(row, 12, sender.0);
        Ok(row)
    }
}

/// The word that starts at a byte.
#[inline(always)]
fn word<const LENGTH: usize>(bytes: &[u8; LENGTH], at: usize) -> u32 {
    u32::from_be_bytes([bytes[at], bytes[at + 1], bytes[at + 2], bytes[at + 3]])
}

/// The value that starts at a byte.
#[inline(always)]
fn double<const LENGTH: usize>(bytes: &[u8; LENGTH], at: usize) -> u64 {
    u64::from(word(bytes, at)) << 32 | u64::from(word(bytes, at + 4))
}

fn put(row: &mut Row, at: usize, word: u32) {
    row[at..at + 4].copy_from_slice(&word.to_be_bytes());
}

fn put_double(row: &mut Row, at: usize, value: u64) {
    row[at..at + 8].copy_from_slice(&value.to_be_bytes());
}

// The statuses.
const ADDED: u64 = 1;
const GHOST: u64 = 2;
const COMMITTED: u64 = 3;

/// The lent table, and how many words of it hold nodes.
struct Tree<'a> {
    words: &'a mut [u64],
    used: usize,
}

impl Tree<'_> {
    /// add(r, v, p) with p < r: the number of rounds made GHOST. One walk looks for the causes of a refusal, strikes and
    /// counts: play never meets a cause but the missing row, so nothing struck has to be undone.
    fn add(&mut self, r: u64, v: u64, p: u64) -> Result<u32, Refusal> {
        let (nodes, free) = self.words.split_at_mut_checked(self.used).ok_or(Refusal::NoFreeRow)?;
        let free: &mut [u64; TABLE_ROW] = free.first_chunk_mut().ok_or(Refusal::NoFreeRow)?;
        let (mut present, mut parent, mut blocked, mut above, mut ghosts) = (false, None, false, false, 0);
        for node in nodes.chunks_exact_mut(TABLE_ROW) {
            let [round, _, value, status] = node else { break };
            if *round <= p {
                if *round == p {
                    parent = Some(*value);
                }
            } else if *round < r {
                blocked |= *status == COMMITTED;
                if *status == ADDED {
                    *status = GHOST;
                    ghosts += 1;
                }
            } else {
                present |= *round == r;
                above = true;
            }
        }
        if present {
            return Err(Refusal::RoundPresent);
        }
        let parent_value = parent.ok_or(Refusal::ParentAbsent)?;
        if p != 0 && parent_value != v {
            return Err(Refusal::ValueDiffers);
        }
        if blocked {
            return Err(Refusal::CrossesCommitted);
        }
        *free = [r, p, v, if above { GHOST } else { ADDED }];
        self.used += TABLE_ROW;
        Ok(ghosts)
    }

    /// commit(r).
    fn commit(&mut self, r: u64) -> Result<(), Refusal> {
        for node in self.words.chunks_exact_mut(TABLE_ROW) {
            let [round, _, _, status] = node else { break };
            if *round == r {
                return match *status {
                    COMMITTED => Err(Refusal::IsCommitted),
                    GHOST => Err(Refusal::IsGhost),
                    _ => {
                        *status = COMMITTED;
                        Ok(())
                    }
                };
            }
        }
        Err(Refusal::RoundAbsent)
    }
}
