//! Where everything of the picture stands, in pixels.
//!
//! Each event has a row of its own. Left of each lifeline is room for the labels of its events, right of it are lanes: a
//! message goes down in a lane of its sender from the row that sent it, and across in the row that delivers it. So the only
//! line across a row is that of its own event, labels stand above and below it, and no lane passes through a label.

use crate::second::model::Made;
use crate::trace::{Happened, Trace};
use kalebasin::{Event, MessageNumber, Refusal, Slot};
use std::collections::{HashMap, HashSet};

/// The size of all letters.
pub const LETTER: i32 = 11;
/// From a lifeline to the labels left of it.
pub const LABEL_GAP: i32 = 16;
/// From a row's line to the middle of the first item below it, and from one item to the next.
pub const ITEM: i32 = 15;
const FIRST_LANE: i32 = 18;
const LANE: i32 = 7;
const MARGIN: i32 = 10;

/// Room for so many letters of equal width; such fonts are up to 0.602 of their size wide.
pub fn width_of(text: &str) -> i32 {
    (text.chars().count() as i32 * LETTER * 61 + 99) / 100
}

/// What stands below a row's line, left of the lifeline.
#[derive(Clone, Debug, PartialEq, Eq)]
pub enum Item {
    /// add(round,value,parent).
    Add(String),
    /// commit(round) and the value.
    Commit(String),
    /// The same after a higher round was proposed.
    Late(String),
    /// Words to a late decision, or to an add that makes rounds GHOST.
    Note(String),
    /// A message that is never delivered.
    Stub(String),
}

impl Item {
    pub fn text(&self) -> &str {
        match self {
            Item::Add(text) | Item::Commit(text) | Item::Late(text) | Item::Note(text) | Item::Stub(text) => text,
        }
    }
}

/// The row of one event.
#[derive(Clone, Debug)]
pub struct Row {
    /// Its line.
    pub y: i32,
    /// From its upper edge to its line.
    pub top: i32,
    pub height: i32,
    /// The place of its member among the columns.
    pub column: usize,
    /// Above its line.
    pub label: String,
    /// Behind the label, where the event is refused.
    pub refused: String,
    /// Below its line.
    pub items: Vec<Item>,
    /// The lane of the message that it sends, if that is ever delivered.
    pub lane: Option<i32>,
}

/// A delivery of a message that was sent.
#[derive(Clone, Copy, Debug)]
pub struct Arrow {
    /// The event that sent the message.
    pub from: usize,
    /// The event that delivers it.
    pub to: usize,
    /// Whether the member got the message before.
    pub again: bool,
}

/// A member's lifeline, or the place of events for slots and members that aren't there, where no line is.
#[derive(Clone, Debug)]
pub struct Column {
    pub name: String,
    pub x: i32,
    pub lives: bool,
}

/// The right edges of an event's number and answer, and the left ones of its notation and of what it sends.
#[derive(Clone, Copy, Debug)]
pub struct Table {
    pub number: i32,
    pub notation: i32,
    pub answer: i32,
    pub sent: i32,
    pub end: i32,
}

/// The whole picture but its head.
#[derive(Clone, Debug)]
pub struct Layout {
    pub table: Table,
    pub columns: Vec<Column>,
    pub rows: Vec<Row>,
    pub arrows: Vec<Arrow>,
    pub width: i32,
    pub height: i32,
}

impl Layout {
    /// The layout of a run.
    pub fn new(trace: &Trace) -> Layout {
        let events = &trace.events;
        let arrows = arrows(events);
        let delivered: HashSet<usize> = arrows.iter().map(|arrow| arrow.from).collect();
        let mut rows: Vec<Row> =
            events.iter().enumerate().map(|(at, one)| row(column(trace, one), one, delivered.contains(&at))).collect();
        let mut height = 0;
        for row in &mut rows {
            row.y = height + row.top;
            height += row.height;
        }
        let table = table(events);
        let lanes = lanes(&rows, &arrows);
        let (columns, width) = columns(&names(trace), table.end, &rows, &lanes);
        for (at, lane) in lanes {
            rows[at].lane = Some(columns[rows[at].column].x + FIRST_LANE + LANE * lane);
        }
        Layout { table, columns, rows, arrows, width, height }
    }
}

/// The place of an event's member among the columns: slot after slot. An event for a slot or member that isn't there stands behind
/// all others.
fn column(trace: &Trace, one: &Happened) -> usize {
    let n = trace.n() as usize;
    let slot = trace.slots().iter().position(|slot| *slot == one.slot());
    match (slot, one.member()) {
        (Some(slot), Some(member)) => slot * n + member.0 as usize,
        _ => trace.slots().len() * n,
    }
}

/// What the columns are called, and whether a member lives there; a slot is named where it isn't 0. The column of no slot or member
/// is there if it is used.
fn names(trace: &Trace) -> Vec<(String, bool)> {
    let of_slot = |slot: &Slot| match slot {
        Slot(0) => String::new(),
        other => format!("slot {other}, "),
    };
    let names =
        trace.slots().iter().flat_map(|slot| (0..trace.n()).map(move |n| format!("{}member {n}", of_slot(slot))));
    let mut names: Vec<(String, bool)> = names.map(|name| (name, true)).collect();
    let absent = |there: bool| trace.events.iter().any(|one| one.member().is_none() && one.slot().in_range() == there);
    let name = match (absent(false), absent(true)) {
        (false, false) => return names,
        (false, true) => "no such member",
        (true, false) => "no such slot",
        (true, true) => "no such slot or member",
    };
    names.push((name.into(), false));
    names
}

/// An arrow for each delivery of a message that was sent.
fn arrows(trace: &[Happened]) -> Vec<Arrow> {
    let mut sent_at: HashMap<MessageNumber, usize> = HashMap::new();
    let mut got = HashSet::new();
    let mut arrows = Vec::new();
    for (to, one) in trace.iter().enumerate() {
        if let Event::Deliver { slot, message, member, .. } = one.event {
            if let Some(from) = sent_at.get(&message) {
                arrows.push(Arrow { from: *from, to, again: !got.insert((message, slot, member)) });
            }
        }
        sent_at.extend(one.sent.map(|(number, _)| (number, to)));
    }
    arrows
}

/// A row that isn't placed yet. A message of another slot has that slot behind it.
fn row(column: usize, one: &Happened, delivered: bool) -> Row {
    let label = match (one.event, one.delivered) {
        (Event::Start { round, .. }, _) => format!("starts r{round}"),
        (Event::Deliver { message, .. }, Some(sent)) => {
            let other = if sent.slot() == one.slot() { String::new() } else { format!(" of slot {}", sent.slot()) };
            format!("{message} {} r{}{other}", sent.kind(), sent.round())
        }
        (Event::Deliver { message, .. }, None) => format!("no message {message}"),
        (other, _) => other.to_string(),
    };
    let refused = Refusal::from_number(one.answer).map_or(String::new(), |why| format!(" refused {}", why.number()));
    let items = items(one, delivered);
    let below = if items.is_empty() { 14 } else { 8 + ITEM * items.len() as i32 };
    Row { y: 0, top: 20, height: 20 + below, column, label, refused, items, lane: None }
}

fn items(one: &Happened, delivered: bool) -> Vec<Item> {
    let mut items = Vec::new();
    match (one.made, one.late) {
        (Some(Made::Proposal(made)), _) => {
            items.push(Item::Add(format!("add({},{},{})", made.round, made.value, made.parent)));
            if let Some(ghosts) = one.ghosts.filter(|ghosts| *ghosts > 0) {
                items.push(Item::Note(format!("makes {ghosts} GHOST")));
            }
        }
        (Some(Made::Decision(made)), None) => {
            items.push(Item::Commit(format!("commit({}) = {}", made.round, made.value)))
        }
        (Some(Made::Decision(made)), Some(higher)) => {
            items.push(Item::Late(format!("commit({}) = {}", made.round, made.value)));
            items.push(Item::Note(format!("late: round {higher} was proposed")));
        }
        (None, _) => {}
    }
    if let (Some((number, sent)), false) = (one.sent, delivered) {
        items.push(Item::Stub(format!("{number} {} r{} never delivered", sent.kind(), sent.round())));
    }
    items
}

/// What an event answers; with the model's answer, if that is another.
pub fn answer(one: &Happened) -> String {
    match one.answer == one.explained.answer {
        true => one.answer.to_string(),
        false => format!("{}, model {}", one.answer, one.explained.answer),
    }
}

/// What an event sends.
pub fn sent(one: &Happened) -> String {
    one.sent.map_or(String::new(), |(number, message)| format!("{number} {} r{}", message.kind(), message.round()))
}

fn table(trace: &[Happened]) -> Table {
    let widest = |head: &str, text: &dyn Fn(&Happened) -> String| {
        trace.iter().map(|one| width_of(&text(one))).max().unwrap_or(0).max(width_of(head))
    };
    let places = trace.last().map_or(0, |last| last.place + 1);
    let number = MARGIN + width_of(&places.to_string());
    let notation = number + MARGIN;
    let answer = notation + widest("event", &|one| one.explained.notation.clone()) + MARGIN + widest("answer", &answer);
    let sent_from = answer + MARGIN;
    Table { number, notation, answer, sent: sent_from, end: sent_from + widest("sends", &sent) }
}

/// The lane of each event whose message is delivered, counted from its member's lifeline. A message keeps its lane from its
/// event to its last delivery; short ones get the inner lanes, so that loops lie within one another.
fn lanes(rows: &[Row], arrows: &[Arrow]) -> HashMap<usize, i32> {
    let mut last: HashMap<usize, usize> = HashMap::new();
    arrows.iter().for_each(|arrow| {
        last.insert(arrow.from, arrow.to);
    });
    let mut spans: Vec<(usize, usize)> = last.into_iter().collect();
    spans.sort_by_key(|(from, to)| (to - from, *from));
    let mut taken: HashMap<(usize, i32), Vec<(usize, usize)>> = HashMap::new();
    let mut lanes = HashMap::new();
    for (from, to) in spans {
        let column = rows[from].column;
        let free = |lane: &i32| {
            let there = taken.get(&(column, *lane));
            there.is_none_or(|there| there.iter().all(|(first, last)| *last < from || to < *first))
        };
        let lane = (0..).find(free).unwrap_or(0);
        taken.entry((column, lane)).or_default().push((from, to));
        lanes.insert(from, lane);
    }
    lanes
}

/// The columns of these names, each with room for its labels and lanes, and the width of all.
fn columns(names: &[(String, bool)], start: i32, rows: &[Row], lanes: &HashMap<usize, i32>) -> (Vec<Column>, i32) {
    let mut columns = Vec::new();
    let mut end = start + MARGIN;
    for (place, (name, lives)) in names.iter().enumerate() {
        let of_column = || rows.iter().enumerate().filter(|(_, row)| row.column == place);
        let labels = of_column().map(|(_, row)| labels_width(row)).max().unwrap_or(0);
        let most = of_column().filter_map(|(at, _)| lanes.get(&at)).max().map_or(0, |lane| lane + 1);
        let half = width_of(name) / 2;
        let x = end + MARGIN + (labels + LABEL_GAP).max(half);
        end = x + (FIRST_LANE + LANE * most).max(half);
        columns.push(Column { name: name.clone(), x, lives: *lives });
    }
    (columns, end + MARGIN)
}

/// The room that a row's labels need, badges with their frames.
fn labels_width(row: &Row) -> i32 {
    let above = width_of(&row.label) + width_of(&row.refused);
    row.items.iter().map(|item| width_of(item.text()) + 14).max().unwrap_or(0).max(above)
}
