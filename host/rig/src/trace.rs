//! What happened at each event of a run, as values: for the picture, the page and other tools.

use crate::explain::{explain_event, Explained};
use crate::second::member::Record;
use crate::second::model::{Breach, Made, Model, OfSlot, SlotBreach};
use crate::second::tree;
use crate::Calls;
use kalebasin::{made_ghost, nodes, Event, EventList, Member, Message, MessageNumber, Node, Refusal, Round, Slot};
use kalebasin::{TreeKind, SLOTS, TABLE_ROW, TABLE_ROWS};

/// A run, or the part of it that belongs to one slot.
#[derive(Clone, Debug, PartialEq, Eq, Hash)]
pub struct Trace {
    n: u32,
    slots: Vec<Slot>,
    /// The events in order.
    pub events: Vec<Happened>,
}

impl Trace {
    /// The number of members: 3, 5 or 7.
    pub fn n(&self) -> u32 {
        self.n
    }

    /// The slots shown, in order: those that events are of, or slot 0 where that is none.
    pub fn slots(&self) -> &[Slot] {
        &self.slots
    }

    /// The part of the run that belongs to this slot.
    pub fn alone(mut self, slot: Slot) -> Trace {
        self.slots = vec![slot];
        self.events.retain(|one| one.slot() == slot);
        self
    }
}

/// The slots of a list's events that there are, in order; slot 0 where that is none.
pub fn slots_of(list: &EventList) -> Vec<Slot> {
    let used = |slot: &Slot| list.events.iter().any(|event| event.slot() == *slot);
    let slots: Vec<Slot> = Slot::ALL.into_iter().filter(used).collect();
    if slots.is_empty() {
        vec![Slot(0)]
    } else {
        slots
    }
}

/// One event and what came of it. The answer is the one given by the implementation asked for; the tree is made by its
/// calls, which tell how many rounds an add made GHOST; all else comes from the model.
#[derive(Clone, Debug, PartialEq, Eq, Hash)]
pub struct Happened {
    /// The event's place in the list, from 0.
    pub place: usize,
    /// The event.
    pub event: Event,
    /// The answer given: 0 or the number of a refusal.
    pub answer: u32,
    /// The event in words, with the model's answer.
    pub explained: Explained,
    /// The message delivered; none at a start, and where no such message was sent yet.
    pub delivered: Option<Message>,
    /// The message sent, with its number.
    pub sent: Option<(MessageNumber, Message)>,
    /// The proposal or decision made.
    pub made: Option<Made>,
    /// How many rounds the add of a proposal made GHOST, as the implementation answers.
    pub ghosts: Option<u32>,
    /// How many the add of the model's proposal makes so.
    pub model_ghosts: Option<u32>,
    /// The highest round proposed in the slot, if the event decides a lower one.
    pub late: Option<Round>,
    /// The member's record before the event; none where there is no such slot or member.
    pub before: Option<Record>,
    /// The member's record after the event.
    pub after: Option<Record>,
    /// The nodes of the slot's tree that the event added or changed.
    pub nodes: Vec<Node>,
}

impl Happened {
    /// The round of the start or of the message delivered; none where there is no such message.
    pub fn round(&self) -> Option<Round> {
        match self.event {
            Event::Start { round, .. } => Some(round),
            _ => self.delivered.map(|message| message.round()),
        }
    }

    /// The slot of the event, which the office may not have.
    pub fn slot(&self) -> Slot {
        self.event.slot()
    }

    /// The member that takes the event, if the office has it.
    pub fn member(&self) -> Option<Member> {
        self.before.map(|record| record.number)
    }

    /// Whether the answer given and the number of rounds made GHOST are the model's.
    pub fn as_the_model(&self) -> bool {
        self.answer == self.explained.answer && self.ghosts == self.model_ghosts
    }
}

/// What happened at each event of a list that an implementation gave these answers to, with a store and for each slot a table
/// of so many rows.
///
/// # Errors
/// 27 where N isn't 3, 5 or 7; 1 where no tree has so many rows.
pub fn trace(
    calls: &Calls,
    list: &EventList,
    answers: &[u8],
    store_rows: usize,
    table_rows: [usize; SLOTS],
) -> Result<Trace, Refusal> {
    let mut model = Model::new(list.n, store_rows, table_rows)?;
    let mut tables = table_rows.map(room_for);
    tables.iter_mut().try_for_each(|table| (calls.tree_fresh)(table))?;
    let events = list.events.iter().zip(answers);
    let mut events: Vec<Happened> =
        events.map(|(event, answer)| happened(calls, &mut model, &mut tables, event, *answer)).collect();
    // Where a tree refuses something made, no count is the model's.
    for (event, ghosts) in model_ghosts(&model).unwrap_or_default() {
        events[event].model_ghosts = Some(ghosts);
    }
    Ok(Trace { n: list.n, slots: slots_of(list), events })
}

/// Words for so many rows. One row more than a tree has is enough to be refused.
fn room_for(rows: usize) -> Vec<u64> {
    vec![0; rows.min(TABLE_ROWS + 1) * TABLE_ROW]
}

/// One event; the model's count of rounds made GHOST isn't there yet.
fn happened(calls: &Calls, model: &mut Model, tables: &mut [Vec<u64>; SLOTS], event: &Event, answer: u8) -> Happened {
    let (slot, member) = (event.slot(), event.member());
    let before = model.member(slot, member).copied();
    let made_before = model.slot(slot).map_or(0, |of_slot| of_slot.made.len());
    let (place, sent) = (model.events, model.sent.len());
    let delivered = match event {
        Event::Deliver { message, .. } => model.message(*message).copied(),
        _ => None,
    };
    let explained = explain_event(model, event);
    let of_slot = model.slot(slot);
    let made = of_slot.and_then(|of_slot| of_slot.made.get(made_before)).map(|at| at.made);
    let (nodes, ghosts) = made.map(|made| enter(calls, &mut tables[slot.0 as usize], made)).unwrap_or_default();
    Happened {
        place,
        event: *event,
        answer: u32::from(answer),
        explained,
        delivered,
        sent: model.sent.get(sent).map(|message| (MessageNumber(sent as u32), *message)),
        made,
        ghosts,
        model_ghosts: None,
        late: of_slot.zip(made).and_then(|(of_slot, made)| later_proposed(of_slot, made)),
        before,
        after: model.member(slot, member).copied(),
        nodes,
    }
}

/// The highest round proposed, if this is the decision of a lower one.
fn later_proposed(of_slot: &OfSlot, made: Made) -> Option<Round> {
    let Made::Decision(decision) = made else { return None };
    of_slot.proposals().map(|proposal| proposal.round).max().filter(|highest| *highest > decision.round)
}

/// Adds or commits, and gives the nodes that this changed, and how many rounds an add made GHOST. What a member makes gets OK: the
/// third demand.
fn enter(calls: &Calls, table: &mut [u64], made: Made) -> (Vec<Node>, Option<u32>) {
    let before: Vec<Node> = nodes(table).collect();
    let ghosts = match made {
        Made::Proposal(made) => (calls.tree_add)(TreeKind::Value, table, made.round, made.value, made.parent).ok(),
        Made::Decision(made) => {
            let _ = (calls.tree_commit)(TreeKind::Value, table, made.round);
            None
        }
    };
    let changed = nodes(table).enumerate().filter(|(row, node)| before.get(*row) != Some(node));
    (changed.map(|(_, node)| node).collect(), ghosts)
}

/// How many rounds each add of what a model made makes GHOST, with the event that made the proposal, slot after slot: by the tables
/// before and after it, from a fresh one on.
///
/// # Errors
/// Where no tree has as many rows as a slot's table, and where a slot's tree refuses something made.
pub fn model_ghosts(model: &Model) -> Result<Vec<(usize, u32)>, SlotBreach> {
    let mut ghosts = Vec::new();
    for (slot, of_slot) in model.by_slot() {
        ghosts.extend(slot_ghosts(of_slot).map_err(|breach| SlotBreach { slot, breach })?);
    }
    Ok(ghosts)
}

fn slot_ghosts(of_slot: &OfSlot) -> Result<Vec<(usize, u32)>, Breach> {
    let mut table = room_for(of_slot.table_rows());
    tree::fresh(&mut table).map_err(Breach::Table)?;
    let mut ghosts = Vec::new();
    for at in &of_slot.made {
        let refused = |refusal| Breach::Refused(*at, refusal);
        match at.made {
            Made::Proposal(made) => {
                let before = table.clone();
                tree::machine_add(TreeKind::Value, &mut table, made.round.0.into(), made.value, made.parent.0.into())
                    .map_err(refused)?;
                ghosts.push((at.event, made_ghost(&before, &table).count() as u32));
            }
            Made::Decision(made) => tree::machine_commit(&mut table, made.round.0.into()).map_err(refused)?,
        }
    }
    Ok(ghosts)
}
