//! A run in words, event by event: who, which message, which answer and why. The slot is named where it isn't 0.

use crate::explain_tree::ghosts_in_words;
use crate::second::member::{quorum, Proposal, Record, Step, COLLECTING, DECIDED, IDLE, PROPOSED};
use crate::second::model::{Breach, Model, OfSlot, SlotBreach};
use crate::trace::model_ghosts;
use kalebasin::{Event, EventList, Member, Message, MessageNumber, Refusal, Round, Slot, SLOTS};

/// An event, or a call of a tree, in words.
#[derive(Clone, Debug, PartialEq, Eq, Hash)]
pub struct Explained {
    /// The event or call in the rig's notation.
    pub notation: String,
    /// The answer of the model; to a call that of the second implementation.
    pub answer: u32,
    /// What happened, or why nothing did.
    pub words: String,
}

/// ` in slot 3`, or nothing for slot 0.
pub fn in_slot(slot: Slot) -> String {
    match slot {
        Slot(0) => String::new(),
        other => format!(" in slot {other}"),
    }
}

/// A list in words, for a store and for each slot a table of so many rows.
///
/// ```
/// use kalebasin::notation::parse;
/// use kalebasin_rig::explain::explain;
///
/// let list = parse("n=3 s(1,1,70) s(1,2,80) 3:s(1,1,90) 3:d(0,1)", None).unwrap();
/// let words: Vec<String> = explain(&list, 1000, [64; 8])?.into_iter().map(|explained| explained.words).collect();
/// assert_eq!(words, [
///     "member 1 starts round 1 with the offer 70 and sends START (message 0)",
///     "member 1 can't start round 2: member 2 leads it",
///     "slot 3: member 1 starts round 1 with the offer 90 and sends START (message 1)",
///     "slot 3: member 1 doesn't take message 0, START of round 1 from member 1: the message is of slot 0",
/// ]);
/// # Ok::<(), kalebasin::Refusal>(())
/// ```
///
/// # Errors
/// 27 where N isn't 3, 5 or 7.
pub fn explain(list: &EventList, store_rows: usize, table_rows: [usize; SLOTS]) -> Result<Vec<Explained>, Refusal> {
    let mut model = Model::new(list.n, store_rows, table_rows)?;
    Ok(list.events.iter().map(|event| explain_event(&mut model, event)).collect())
}

/// What the model does otherwise than a play of a list that says how many rounds its adds made GHOST: `MAKES 2 GHOST`. Where the tree
/// refuses something that the model made, there is no such number.
///
/// # Errors
/// 27 where N isn't 3, 5 or 7; 1 where no tree has so many rows.
pub fn ghosts_otherwise(
    list: &EventList,
    ghosts: u32,
    store_rows: usize,
    table_rows: [usize; SLOTS],
) -> Result<Option<String>, Refusal> {
    let (model, _) = Model::run(list, store_rows, table_rows)?;
    let made: u32 = match model_ghosts(&model) {
        Ok(of_adds) => of_adds.iter().map(|(_, ghosts)| ghosts).sum(),
        Err(SlotBreach { breach: Breach::Table(refusal), .. }) => return Err(refusal),
        Err(breach) => return Ok(Some(format!("BREAKS THE THIRD DEMAND: {breach}"))),
    };
    Ok((ghosts != made).then(|| format!("MAKES {made} GHOST")))
}

/// Takes the next event of a run and puts it in words.
pub fn explain_event(model: &mut Model, event: &Event) -> Explained {
    let before = model.clone();
    let (answer, words) = match model.take(event) {
        Ok(step) => (0, accepted(&before, model, event, &step)),
        Err(refusal) => (refusal.number(), refused(&before, event, refusal)),
    };
    let words = match event.slot() {
        Slot(0) => words,
        other => format!("slot {other}: {words}"),
    };
    Explained { notation: event.to_string(), answer, words }
}

/// `JOIN (message 4)`, if something was sent.
fn sent_as(before: &Model, step: &Step) -> String {
    step.sent.map(|message| format!("{} (message {})", message.kind(), before.sent.len())).unwrap_or_default()
}

fn accepted(before: &Model, after: &Model, event: &Event, step: &Step) -> String {
    let sent = sent_as(before, step);
    let slot = event.slot().0 as usize;
    let (before_in, after_in) = (&before.slots[slot], &after.slots[slot]);
    match event {
        Event::Start { member, round, offer, .. } => {
            format!("member {member} starts round {round} with the offer {offer} and sends {sent}")
        }
        Event::Deliver { message, member, .. } => {
            let (was, is) = (&before_in.members[member.0 as usize], &after_in.members[member.0 as usize]);
            match &before.sent[message.0 as usize] {
                Message::Start { round, .. } => {
                    let (again, same) = join_before(before, step);
                    let told = match step.sent {
                        Some(Message::Join { vote: Some(vote), .. }) => {
                            format!(", telling its vote for {} in round {}", vote.value, vote.round)
                        }
                        _ => "; it has never voted".into(),
                    };
                    format!("member {member} joins round {round}{again} and sends {sent}{same}{told}")
                }
                Message::Propose { round, value, .. } => {
                    let again = if was.v == *round { " again" } else { "" };
                    format!("member {member} votes{again} for {value} in round {round} and sends {sent}")
                }
                Message::Join { sender, .. } => counted_join(before_in, *sender, is, step, &sent),
                Message::Vote { sender, .. } => counted_vote(*sender, is, step),
            }
        }
        other => other.to_string(),
    }
}

/// Words to a JOIN that was sent before: that the member joins again, and which message was the same.
fn join_before(before: &Model, step: &Step) -> (&'static str, String) {
    match before.sent.iter().position(|sent| Some(*sent) == step.sent) {
        Some(first) => (" again", format!(", the same as message {first}")),
        None => ("", String::new()),
    }
}

fn counted_join(before: &OfSlot, sender: Member, is: &Record, step: &Step, sent: &str) -> String {
    let was = &before.members[is.number.0 as usize];
    let needed = quorum(is.n);
    let count = was.counted() + 1;
    let mut words = format!("member {} counts the JOIN of member {sender}, {count} of the {needed} needed", is.number);
    if is.b != was.b {
        words += &format!("; its vote for {} in round {} replaces {}", is.x, is.b, was.x);
    }
    if let Some(proposal) = step.proposal {
        let source =
            if proposal.parent.0 == 0 { "its own offer".into() } else { format!("from round {}", proposal.parent) };
        let ghosts = ghosts_in_words(", which makes", first_crossed(before, proposal));
        words += &format!(
            "; that is a quorum, {needed} of {}: it proposes {} ({source}), add({},{},{}){ghosts}, and sends {sent}",
            is.n, proposal.value, proposal.round, proposal.value, proposal.parent
        );
    }
    words
}

/// The rounds of its slot that a proposal makes GHOST: those that its edge crosses and no edge of an earlier one did. No edge crosses a
/// decided round, by the third demand.
fn first_crossed(before: &OfSlot, proposal: Proposal) -> Vec<Round> {
    let crosses = |edge: Proposal, round: Round| edge.parent < round && round < edge.round;
    let crossed = before.proposals().map(|made| made.round).filter(|round| crosses(proposal, *round));
    crossed.filter(|round| !before.proposals().any(|edge| crosses(edge, *round))).collect()
}

fn counted_vote(sender: Member, is: &Record, step: &Step) -> String {
    let needed = quorum(is.n);
    let mut words =
        format!("member {} counts the VOTE of member {sender}, {} of the {needed} needed", is.number, is.counted());
    if let Some(decision) = step.decision {
        words += &format!(
            "; that is a quorum, {needed} of {}: round {} decides {}, commit({})",
            is.n, decision.round, decision.value, decision.round
        );
    }
    words
}

fn refused(before: &Model, event: &Event, refusal: Refusal) -> String {
    let (member, what) = match event {
        Event::Start { member, round, .. } => (*member, format!("member {member} can't start round {round}")),
        Event::Deliver { message, member, .. } => match before.message(*message) {
            Some(sent) => (*member, format!("member {member} doesn't take message {message}, {sent}")),
            None => (*member, format!("member {member} is to get message {message}")),
        },
        other => (other.member(), other.to_string()),
    };
    format!("{what}: {}", why(before, event, member, refusal))
}

fn why(before: &Model, event: &Event, member: Member, refusal: Refusal) -> String {
    let Some(of_slot) = before.slot(event.slot()) else {
        return format!("the office has slots 0 to {}", SLOTS - 1);
    };
    let Some(record) = before.member(event.slot(), member) else {
        return format!("the office has members 0 to {}", before.n() - 1);
    };
    match (refusal, event) {
        (Refusal::WrongSlot, Event::Deliver { message, .. }) => another_slot(before, *message),
        (Refusal::NoMemberOrMessage, _) => match before.sent.len() {
            0 => "no message was sent yet".into(),
            1 => "only message 0 was sent yet".into(),
            sent => format!("only messages 0 to {} were sent yet", sent - 1),
        },
        (Refusal::NotLeader, Event::Start { round, .. }) => format!("member {} leads it", before.leader(*round)),
        (Refusal::NotAboveLed, _) => format!("it led round {} already", record.l),
        (Refusal::RoundRange, _) => "rounds run from 1 to 1,000,000".into(),
        (Refusal::MovedPast, Event::Deliver { message, .. }) => moved_past(before, *message, record),
        (Refusal::AnotherValue, _) => format!("it has voted for {} in round {}", record.w, record.v),
        (Refusal::NotAwaited, _) => leading(record),
        (Refusal::CountedAlready, Event::Deliver { message, .. }) => counted_already(before, *message),
        (Refusal::StoreFull, _) => {
            format!("it would send, and the {} messages sent fill the store", before.sent.len())
        }
        (Refusal::NoFreeRow, _) => {
            format!("it would propose, and the {} proposals fill the table", of_slot.proposals().count())
        }
        _ => refusal.cause().into(),
    }
}

/// A START is refused by a member in a higher round, and by one that has voted in the START's own.
fn moved_past(before: &Model, message: MessageNumber, record: &Record) -> String {
    match before.message(message) {
        Some(sent) if sent.round() == record.j => format!("it has voted in round {} already", record.v),
        _ => format!("it has joined or voted in round {}", record.j),
    }
}

fn another_slot(before: &Model, message: MessageNumber) -> String {
    match before.message(message) {
        Some(sent) => format!("the message is of slot {}", sent.slot()),
        None => Refusal::WrongSlot.cause().into(),
    }
}

fn counted_already(before: &Model, message: MessageNumber) -> String {
    match before.message(message) {
        Some(sent) => format!("member {} is counted already", sent.sender()),
        None => Refusal::CountedAlready.cause().into(),
    }
}

/// What the member is doing as a leader, and so doesn't await.
fn leading(record: &Record) -> String {
    let round = record.l;
    match record.phase {
        IDLE => "it has led no round".into(),
        COLLECTING => format!("it is collecting JOINs of round {round}"),
        PROPOSED => format!("it has proposed in round {round} and is counting VOTEs"),
        DECIDED => format!("it has decided round {round}"),
        _ => Refusal::NotAwaited.cause().into(),
    }
}
