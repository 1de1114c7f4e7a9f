//! The model that the third demand measures play by, and the third demand for each slot as a check of a run.

use super::member::{self, Decision, Proposal, Record, Step};
use super::tree;
use kalebasin::{Event, EventList, Member, Message, MessageNumber, Refusal, Round, Slot, TreeKind};
use kalebasin::{SLOTS, TABLE_ROW, TABLE_ROWS};
use std::fmt;

/// A proposal or a decision.
#[derive(Clone, Copy, Debug, PartialEq, Eq, Hash)]
pub enum Made {
    /// An add.
    Proposal(Proposal),
    /// A commit.
    Decision(Decision),
}

/// A made proposal or decision with the event that made it, counted from 0.
#[derive(Clone, Copy, Debug, PartialEq, Eq, Hash)]
pub struct MadeAt {
    /// The event's place.
    pub event: usize,
    /// The proposal or decision.
    pub made: Made,
}

/// The offer of an accepted start, with the event that made it, counted from 0.
#[derive(Clone, Copy, Debug, PartialEq, Eq, Hash)]
pub struct OfferAt {
    /// The event's place.
    pub event: usize,
    /// The offer.
    pub value: u64,
}

/// What the model keeps.
#[derive(Clone, Debug)]
pub struct Model {
    n: u32,
    store_rows: usize,
    /// What belongs to one slot each, in slot order.
    pub slots: [OfSlot; SLOTS],
    /// The messages sent, in whatever slot.
    pub sent: Vec<Message>,
    /// How many events were taken, refused ones too.
    pub events: usize,
}

/// What the model keeps of one slot.
#[derive(Clone, Debug)]
pub struct OfSlot {
    table_rows: usize,
    /// Members 0 to N - 1.
    pub members: Vec<Record>,
    /// Proposals and decisions in the order made.
    pub made: Vec<MadeAt>,
    /// Offers in the order of the starts.
    pub offers: Vec<OfferAt>,
}

impl Model {
    /// An office of `n` fresh members in each slot, with a store of so many rows and for each slot a table of so many, the
    /// root's among them.
    ///
    /// # Errors
    /// 27 where `n` isn't 3, 5 or 7.
    pub fn new(n: u32, store_rows: usize, table_rows: [usize; SLOTS]) -> Result<Model, Refusal> {
        if !member::size_allowed(n) {
            return Err(Refusal::OfficeSize);
        }
        let slots = Slot::ALL.map(|slot| OfSlot {
            table_rows: table_rows[slot.0 as usize],
            members: (0..n).map(|number| member::fresh(slot, Member(number), n).expect("n is allowed")).collect(),
            made: Vec::new(),
            offers: Vec::new(),
        });
        Ok(Model { n, store_rows, slots, sent: Vec::new(), events: 0 })
    }

    /// The model after a list, and what each event came to.
    ///
    /// # Errors
    /// Those of [`Model::new`].
    pub fn run(
        list: &EventList,
        store_rows: usize,
        table_rows: [usize; SLOTS],
    ) -> Result<(Model, Vec<Result<Step, Refusal>>), Refusal> {
        let mut model = Model::new(list.n, store_rows, table_rows)?;
        let steps = list.events.iter().map(|event| model.take(event)).collect();
        Ok((model, steps))
    }

    /// The leader of a round.
    pub fn leader(&self, round: Round) -> Member {
        Member(round.0 % self.n)
    }

    /// The number of members.
    pub fn n(&self) -> u32 {
        self.n
    }

    /// What it keeps of this slot; none above 7.
    pub fn slot(&self, slot: Slot) -> Option<&OfSlot> {
        self.slots.get(slot.0 as usize)
    }

    /// The member of this number in this slot, if there is one.
    pub fn member(&self, slot: Slot, number: Member) -> Option<&Record> {
        self.slot(slot)?.members.get(number.0 as usize)
    }

    /// The message of this number, if it is among those sent.
    pub fn message(&self, number: MessageNumber) -> Option<&Message> {
        self.sent.get(number.0 as usize)
    }

    /// What the event would do now: the member's record after it, and the step.
    pub fn look(&self, event: &Event) -> Result<(Record, Step), Refusal> {
        let of_slot = self.slot(event.slot()).ok_or(Refusal::WrongSlot)?;
        let mut record = *self.member(event.slot(), event.member()).ok_or(Refusal::NoMemberOrMessage)?;
        let step = match event {
            Event::Start { round, offer, .. } => record.start(*round, *offer)?,
            Event::Deliver { message, .. } => {
                record.deliver(self.message(*message).ok_or(Refusal::NoMemberOrMessage)?)?
            }
            _ => return Err(Refusal::ListShape),
        };
        if step.sent.is_some() && self.sent.len() == self.store_rows {
            return Err(Refusal::StoreFull);
        }
        if step.proposal.is_some() && of_slot.proposals().count() + 1 >= of_slot.table_rows {
            return Err(Refusal::NoFreeRow);
        }
        Ok((record, step))
    }

    /// Takes the next event. A refused one changes nothing that the model keeps.
    pub fn take(&mut self, event: &Event) -> Result<Step, Refusal> {
        let at = self.events;
        self.events += 1;
        let (record, step) = self.look(event)?;
        self.sent.extend(step.sent);
        let of_slot = &mut self.slots[record.slot.0 as usize];
        of_slot.members[record.number.0 as usize] = record;
        of_slot.made.extend(step.proposal.map(|proposal| MadeAt { event: at, made: Made::Proposal(proposal) }));
        of_slot.made.extend(step.decision.map(|decision| MadeAt { event: at, made: Made::Decision(decision) }));
        if let Event::Start { offer, .. } = event {
            of_slot.offers.push(OfferAt { event: at, value: *offer });
        }
        Ok(step)
    }

    /// The slots with what is kept of each, in order.
    pub fn by_slot(&self) -> impl Iterator<Item = (Slot, &OfSlot)> {
        Slot::ALL.into_iter().zip(&self.slots)
    }

    /// The proposals and decisions of all slots in the order made, each with its slot.
    pub fn made(&self) -> Vec<(Slot, MadeAt)> {
        let mut made: Vec<(Slot, MadeAt)> =
            self.by_slot().flat_map(|(slot, of_slot)| of_slot.made.iter().map(move |at| (slot, *at))).collect();
        made.sort_by_key(|(_, at)| at.event);
        made
    }

    /// The third demand, slot by slot. Returns the trees, one after another in slot order.
    pub fn third_demand(&self) -> Result<Vec<u64>, SlotBreach> {
        let mut trees = Vec::new();
        for (slot, of_slot) in self.by_slot() {
            trees.extend(of_slot.third_demand().map_err(|breach| SlotBreach { slot, breach })?);
        }
        Ok(trees)
    }
}

impl OfSlot {
    /// The rows of the slot's table.
    pub fn table_rows(&self) -> usize {
        self.table_rows
    }

    /// The proposals in order.
    pub fn proposals(&self) -> impl Iterator<Item = Proposal> + '_ {
        self.made.iter().filter_map(|at| match at.made {
            Made::Proposal(proposal) => Some(proposal),
            Made::Decision(_) => None,
        })
    }

    /// The decisions in order.
    pub fn decisions(&self) -> impl Iterator<Item = Decision> + '_ {
        self.made.iter().filter_map(|at| match at.made {
            Made::Proposal(_) => None,
            Made::Decision(decision) => Some(decision),
        })
    }

    /// The third demand of one slot: its proposals and decisions in order get OK in its fresh tree, its decided values are
    /// equal, and each was offered at an earlier accepted start of the slot. Returns that tree.
    pub fn third_demand(&self) -> Result<Vec<u64>, Breach> {
        // One row more than a tree has is enough to be refused.
        let mut table = vec![0; self.table_rows.min(TABLE_ROWS + 1) * TABLE_ROW];
        tree::fresh(&mut table).map_err(Breach::Table)?;
        for at in &self.made {
            let result = match at.made {
                Made::Proposal(made) => {
                    tree::add(TreeKind::Value, &mut table, made.round, made.value, made.parent).map(|_| ())
                }
                Made::Decision(made) => tree::commit(TreeKind::Value, &mut table, made.round),
            };
            result.map_err(|refusal| Breach::Refused(*at, refusal))?;
        }
        let mut first: Option<Decision> = None;
        for at in &self.made {
            let Made::Decision(decision) = at.made else { continue };
            if !self.offers.iter().any(|offer| offer.event < at.event && offer.value == decision.value) {
                return Err(Breach::NeverOffered(decision));
            }
            let first = *first.get_or_insert(decision);
            if first.value != decision.value {
                return Err(Breach::DecidedTwice(first, decision));
            }
        }
        Ok(table)
    }
}

/// How a run breaks the third demand, and in which slot.
#[derive(Clone, Copy, Debug, PartialEq, Eq, Hash)]
pub struct SlotBreach {
    /// The slot.
    pub slot: Slot,
    /// How its demand is broken.
    pub breach: Breach,
}

impl fmt::Display for SlotBreach {
    /// The slot is named where it isn't 0.
    fn fmt(&self, f: &mut fmt::Formatter) -> fmt::Result {
        if self.slot != Slot(0) {
            write!(f, "in slot {}, ", self.slot)?;
        }
        self.breach.fmt(f)
    }
}

/// How the run of a slot breaks the third demand.
#[derive(Clone, Copy, Debug, PartialEq, Eq, Hash)]
pub enum Breach {
    /// The table's length isn't one of a tree.
    Table(Refusal),
    /// The tree refuses a proposal or decision.
    Refused(MadeAt, Refusal),
    /// A value was decided that no earlier accepted start offered.
    NeverOffered(Decision),
    /// Two decided values differ.
    DecidedTwice(Decision, Decision),
}

impl fmt::Display for Breach {
    fn fmt(&self, f: &mut fmt::Formatter) -> fmt::Result {
        let call = |made: &Made| match made {
            Made::Proposal(Proposal { round: Round(round), value, parent }) => format!("add({round},{value},{parent})"),
            Made::Decision(Decision { round, .. }) => format!("commit({round})"),
        };
        match self {
            Breach::Table(refusal) => write!(f, "the table is refused with {refusal}"),
            Breach::Refused(at, refusal) => {
                write!(f, "{} of event {} is refused by the tree with {refusal}", call(&at.made), at.event)
            }
            Breach::NeverOffered(made) => {
                write!(f, "round {} decided {}, which no earlier accepted start offered", made.round, made.value)
            }
            Breach::DecidedTwice(first, second) => write!(
                f,
                "round {} decided {} and round {} decided {}",
                first.round, first.value, second.round, second.value
            ),
        }
    }
}
