//! A run as a page that needs no other file: the timeline, and beside it a slider with the members' records and the tree
//! after each event, those of its slot, and filters by slot, round, member and refusals.

use crate::json::{self, Json};
use crate::second::member::{fresh, Record};
use crate::timeline::{Picture, STYLE};
use crate::trace::Trace;
use kalebasin::{Member, Round, Slot};

const PAGE: &str = include_str!("page.html");
const PAGE_STYLE: &str = include_str!("page.css");
const SCRIPT: &str = include_str!("page.js");

/// The run as a page. `on` says which implementation ran it.
pub fn page(on: &str, trace: &Trace) -> String {
    let picture = Picture::new(trace);
    let events = trace.events.len();
    let slot = match trace.slots() {
        [Slot(0)] => String::new(),
        [one] => format!(" of slot {one}"),
        several => format!(" in {} slots", several.len()),
    };
    let parts = [
        ("{{heading}}", format!("{events} events{slot}, {} members, on {on}", trace.n())),
        ("{{style}}", format!("{STYLE}{PAGE_STYLE}")),
        ("{{last}}", (events as i64 - 1).to_string()),
        ("{{script}}", SCRIPT.to_string()),
        ("{{timeline}}", picture.head_element() + &picture.body_element()),
        ("{{run}}", data(&picture, trace).to_string()),
    ];
    parts.iter().fold(PAGE.to_string(), |page, (name, part)| page.replace(name, part))
}

/// What the script works on: the slots shown, a fresh office in each, the rounds with their colours, and the events.
fn data(picture: &Picture<'_>, trace: &Trace) -> Json {
    let members = || (0..trace.n()).map(Member);
    let fresh_in =
        |slot: &Slot| members().filter_map(|member| fresh(*slot, member, trace.n()).ok()).collect::<Vec<_>>();
    let office: Vec<Record> = trace.slots().iter().flat_map(fresh_in).collect();
    let colours = picture.colours();
    let round = |round: &Round| {
        Json::Object(vec![("round", Json::Number(round.0.into())), ("colour", Json::Text(colours.of(*round)))])
    };
    Json::Object(vec![
        ("slots", Json::List(trace.slots().iter().map(|slot| Json::Number(slot.0.into())).collect())),
        ("office", Json::List(office.iter().map(json::record).collect())),
        ("rounds", Json::List(colours.rounds().iter().map(round).collect())),
        ("events", Json::List(trace.events.iter().map(json::event).collect())),
    ])
}
