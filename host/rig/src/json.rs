//! A run as JSON, an object for each event.

use crate::second::member::Record;
use crate::second::model::Made;
use crate::trace::Happened;
use kalebasin::{Event, Message, Node, Refusal};
use std::fmt;

/// A value of JSON.
#[derive(Clone, Debug, PartialEq, Eq, Hash)]
pub enum Json {
    /// Nothing.
    Null,
    /// A whole number.
    Number(u64),
    /// A text.
    Text(String),
    /// Values in order.
    List(Vec<Json>),
    /// Values with their names, in order.
    Object(Vec<(&'static str, Json)>),
}

impl fmt::Display for Json {
    /// On one line. `<` is written as an escape, so that the text can stand in a page's script element.
    fn fmt(&self, f: &mut fmt::Formatter) -> fmt::Result {
        match self {
            Json::Null => write!(f, "null"),
            Json::Number(number) => write!(f, "{number}"),
            Json::Text(text) => write_text(text, f),
            Json::List(list) => write_parts(f, "[]", list, |one, f| one.fmt(f)),
            Json::Object(fields) => write_parts(f, "{}", fields, |(name, value), f| {
                write_text(name, f)?;
                write!(f, ":{value}")
            }),
        }
    }
}

fn write_text(text: &str, f: &mut fmt::Formatter) -> fmt::Result {
    write!(f, "\"")?;
    for letter in text.chars() {
        match letter {
            '"' | '\\' => write!(f, "\\{letter}")?,
            '<' | '\0'..='\x1f' => write!(f, "\\u{:04x}", letter as u32)?,
            _ => write!(f, "{letter}")?,
        }
    }
    write!(f, "\"")
}

fn write_parts<T>(
    f: &mut fmt::Formatter,
    brackets: &str,
    parts: &[T],
    write_part: impl Fn(&T, &mut fmt::Formatter) -> fmt::Result,
) -> fmt::Result {
    let (open, close) = brackets.split_at(1);
    f.write_str(open)?;
    for (at, part) in parts.iter().enumerate() {
        if at > 0 {
            f.write_str(",")?;
        }
        write_part(part, f)?;
    }
    f.write_str(close)
}

fn number(number: u32) -> Json {
    Json::Number(number.into())
}

fn text(text: &str) -> Json {
    Json::Text(text.into())
}

/// A value has 64 bits, which many readers of JSON round in a number, so it is a text of decimal digits.
fn value(value: u64) -> Json {
    Json::Text(value.to_string())
}

fn or_null<T>(one: Option<T>, json: impl Fn(T) -> Json) -> Json {
    one.map_or(Json::Null, json)
}

/// The object of one event. docs/host-notes.md says what its fields are.
///
/// ```
/// use kalebasin_rig::{json::event, second, trace::trace};
///
/// let list = kalebasin::notation::parse("3:s(2,1,70)", None).unwrap();
/// let happened = &trace(&second::CALLS, &list, &[19], 10, [10; 8])?.events[0];
/// assert!(event(happened).to_string().starts_with(
///     r#"{"number":0,"event":{"notation":"3:s(2,1,70)","kind":"start","slot":3,"member":2,"round":1,"offer":"70"},"#
/// ));
/// # Ok::<(), kalebasin::Refusal>(())
/// ```
pub fn event(happened: &Happened) -> Json {
    let refusal = Refusal::from_number(happened.answer);
    Json::Object(vec![
        ("number", Json::Number(happened.place as u64)),
        ("event", event_fields(&happened.event)),
        ("answer", number(happened.answer)),
        ("model_answer", number(happened.explained.answer)),
        ("cause", or_null(refusal, |refusal| text(refusal.cause()))),
        ("words", text(&happened.explained.words)),
        ("delivered", or_null(happened.delivered, |message| Json::Object(message_fields(&message)))),
        ("sent", or_null(happened.sent, |(number, message)| sent(number.0, &message))),
        ("made", or_null(happened.made, made)),
        ("ghosts", or_null(happened.ghosts, number)),
        ("model_ghosts", or_null(happened.model_ghosts, number)),
        ("late", or_null(happened.late, |round| number(round.0))),
        ("before", or_null(happened.before, |before| record(&before))),
        ("after", or_null(happened.after, |after| record(&after))),
        ("nodes", Json::List(happened.nodes.iter().map(node).collect())),
    ])
}

fn event_fields(event: &Event) -> Json {
    let mut fields = vec![("notation", Json::Text(event.to_string()))];
    fields.extend(match event {
        Event::Start { slot, member, round, offer, .. } => vec![
            ("kind", text("start")),
            ("slot", number(slot.0)),
            ("member", number(member.0)),
            ("round", number(round.0)),
            ("offer", value(*offer)),
        ],
        Event::Deliver { slot, message, member, .. } => vec![
            ("kind", text("deliver")),
            ("slot", number(slot.0)),
            ("message", number(message.0)),
            ("member", number(member.0)),
        ],
        _ => Vec::new(),
    });
    Json::Object(fields)
}

fn message_fields(message: &Message) -> Vec<(&'static str, Json)> {
    let mut fields = vec![
        ("kind", text(message.kind())),
        ("slot", number(message.slot().0)),
        ("round", number(message.round().0)),
        ("sender", number(message.sender().0)),
    ];
    match message {
        Message::Join { vote, .. } => fields.push((
            "vote",
            or_null(*vote, |vote| Json::Object(vec![("round", number(vote.round.0)), ("value", value(vote.value))])),
        )),
        Message::Propose { value: proposed, .. } => fields.push(("value", value(*proposed))),
        Message::Start { .. } | Message::Vote { .. } => {}
    }
    fields
}

fn sent(place: u32, message: &Message) -> Json {
    let mut fields = vec![("number", number(place))];
    fields.extend(message_fields(message));
    Json::Object(fields)
}

fn made(made: Made) -> Json {
    Json::Object(match made {
        Made::Proposal(made) => vec![
            ("kind", text("proposal")),
            ("round", number(made.round.0)),
            ("value", value(made.value)),
            ("parent", number(made.parent.0)),
        ],
        Made::Decision(made) => {
            vec![("kind", text("decision")), ("round", number(made.round.0)), ("value", value(made.value))]
        }
    })
}

/// The fields of a member record.
pub fn record(record: &Record) -> Json {
    let counted = (0..).zip(record.flags).filter(|(_, flag)| *flag).map(|(member, _)| Json::Number(member)).collect();
    Json::Object(vec![
        ("slot", number(record.slot.0)),
        ("member", number(record.number.0)),
        ("n", number(record.n)),
        ("j", number(record.j.0)),
        ("v", number(record.v.0)),
        ("w", value(record.w)),
        ("l", number(record.l.0)),
        ("phase", number(record.phase)),
        ("x", value(record.x)),
        ("b", number(record.b.0)),
        ("counted", Json::List(counted)),
    ])
}

fn node(node: &Node) -> Json {
    Json::Object(vec![
        ("round", number(node.round.0)),
        ("parent", number(node.parent.0)),
        ("value", value(node.value)),
        ("status", Json::Text(node.status.to_string())),
    ])
}
