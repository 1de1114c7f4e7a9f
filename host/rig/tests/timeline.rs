//! The timeline of a run: each thing that happened is in the picture, joined to what it belongs to, and nothing else is.

mod runs;
mod svg;

use kalebasin::notation::parse;
use kalebasin::{Event, EventList, Member, Message, MessageNumber, Round, Slot};
use kalebasin_rig::generate::{self, Slots};
use kalebasin_rig::random::Random;
use kalebasin_rig::second::model::Made;
use kalebasin_rig::suite::{LOST_JOIN, REHEARSAL};
use kalebasin_rig::timeline::{timeline, Colours};
use kalebasin_rig::trace::{Happened, Trace};
use runs::{happened, random_list, REFUSALS, SLOTS_SIDE_BY_SIDE, STORE_ROWS, TABLE_ROWS};
use std::collections::{HashMap, HashSet};
use std::process::Command;
use std::sync::LazyLock;
use svg::{elements, Element};

/// A run, its picture read back, and where each message was sent.
struct Drawn {
    trace: Vec<Happened>,
    /// The elements of each row.
    rows: Vec<Vec<Element>>,
    /// The elements outside of rows, but trunks.
    others: Vec<Element>,
    /// The parts of arrows between rows.
    trunks: Vec<Element>,
    sent_at: HashMap<MessageNumber, usize>,
}

impl Drawn {
    fn new(trace: Trace) -> Drawn {
        let sent = trace.events.iter().enumerate().filter_map(|(at, one)| one.sent.map(|(number, _)| (number, at)));
        let sent_at = sent.collect();
        let (trunks, rest): (Vec<_>, Vec<_>) = elements(&timeline(&trace)).into_iter().partition(|one| one.is("trunk"));
        let (in_rows, others): (Vec<_>, Vec<_>) = rest.into_iter().partition(|one| one.row.is_some());
        let mut rows = vec![Vec::new(); trace.events.len()];
        in_rows.into_iter().for_each(|one| rows[one.row.unwrap()].push(one));
        Drawn { trace: trace.events, rows, others, trunks, sent_at }
    }

    /// The elements of a row that have this class.
    fn in_row(&self, at: usize, class: &str) -> Vec<&Element> {
        self.rows[at].iter().filter(|one| one.is(class)).collect()
    }

    /// The texts of a row.
    fn texts(&self, at: usize) -> Vec<&str> {
        self.rows[at].iter().filter(|one| one.name == "text").map(|one| one.text.as_str()).collect()
    }

    /// The line of a row: that of its group.
    fn line(&self, at: usize) -> i32 {
        let group = self.in_row(at, "row")[0].get("transform");
        group.strip_prefix("translate(0,").and_then(|rest| rest.strip_suffix(')')).unwrap().parse().unwrap()
    }

    /// The lifeline of a slot's member, by its name in the head.
    fn lifeline(&self, slot: Slot, member: Member) -> i32 {
        let name = match slot {
            Slot(0) => format!("member {member}"),
            other => format!("slot {other}, member {member}"),
        };
        self.others.iter().find(|one| one.text == name).unwrap().number("x")
    }

    /// The part between rows of the arrow to a row.
    fn trunk(&self, at: usize) -> &Element {
        self.trunks.iter().find(|one| one.get("data-to") == at.to_string()).unwrap()
    }

    /// The deliveries of messages that events of the picture sent: the event, the message and whether its member got it before.
    fn deliveries(&self) -> Vec<(usize, MessageNumber, Message, bool)> {
        let mut got = HashSet::new();
        let mut deliveries = Vec::new();
        for (at, one) in self.trace.iter().enumerate() {
            if let (Event::Deliver { slot, message, member, .. }, Some(sent)) = (one.event, one.delivered) {
                if self.sent_at.contains_key(&message) {
                    deliveries.push((at, message, sent, !got.insert((message, slot, member))));
                }
            }
        }
        deliveries
    }
}

/// Drawn once, for all tests.
static DRAWN: LazyLock<Vec<Drawn>> = LazyLock::new(all_drawn);

/// The rehearsal, a lost JOIN, many refusals, no events at all, and random lists; two slots, each of them alone and one without
/// events alone, and random lists of three slots and more.
fn all_drawn() -> Vec<Drawn> {
    let texts = ["n=3", REHEARSAL, LOST_JOIN, REFUSALS, SLOTS_SIDE_BY_SIDE];
    let mut lists: Vec<EventList> = texts.map(|text| parse(text, None).unwrap()).to_vec();
    lists.extend((0..60).map(|seed| random_list(seed, [3, 5, 7][seed as usize % 3], 20 + 5 * seed as usize)));
    lists.extend((0..10).map(|seed| list_of_slots(seed, 50 + 20 * seed as usize)));
    let mut traces: Vec<Trace> = lists.iter().map(happened).collect();
    let side_by_side = happened(&parse(SLOTS_SIDE_BY_SIDE, None).unwrap());
    traces.extend([0, 3, 5].map(|slot| side_by_side.clone().alone(Slot(slot))));
    traces.push(happened(&list_of_slots(20, 200)).alone(Slot(2)));
    traces.into_iter().map(Drawn::new).collect()
}

/// A random list of slots 0, 2 and 7, with events of any other now and then.
fn list_of_slots(seed: u64, events: usize) -> EventList {
    let slots = Slots { used: [0, 2, 7].map(Slot).to_vec(), stray: 10 };
    generate::list_in(&slots, &mut Random::new(seed), 3, events, STORE_ROWS, TABLE_ROWS).unwrap()
}

/// The numbers in a path, without its letters.
fn numbers(path: &Element) -> Vec<i32> {
    let parts = path.get("d").split(|letter: char| letter.is_ascii_alphabetic() || letter == ' ');
    parts.filter(|part| !part.is_empty()).map(|part| part.parse().unwrap()).collect()
}

#[test]
fn each_row_has_number_notation_and_answer() {
    for drawn in DRAWN.iter() {
        for (at, one) in drawn.trace.iter().enumerate() {
            let texts = drawn.texts(at);
            assert_eq!(texts[..3], [one.place.to_string(), one.event.to_string(), one.answer.to_string()]);
            let title = drawn.rows[at].iter().find(|element| element.name == "title");
            assert_eq!(title.unwrap().text, format!("{}: {}", one.answer, one.explained.words));
        }
        let lines: Vec<i32> = (0..drawn.trace.len()).map(|at| drawn.line(at)).collect();
        assert!(lines.is_sorted_by(|one, next| next - one > 20), "time goes downward");
        assert!(drawn.rows.iter().all(|row| row.iter().filter(|one| one.is("row")).count() == 1));
    }
}

/// From the dot of the event that sent a message, down its lane, and to the dot of the event that delivers it; with number,
/// kind and round in words.
#[test]
fn an_arrow_for_each_delivery() {
    for drawn in DRAWN.iter() {
        let deliveries = drawn.deliveries();
        for (at, number, message, again) in &deliveries {
            let from = drawn.sent_at[number];
            let trunk = drawn.trunk(*at);
            let (leave, arrive) = (drawn.in_row(from, "leave")[0], drawn.in_row(*at, "arrive")[0]);
            let lane = trunk.number("x1");
            assert_eq!((trunk.number("data-from"), trunk.number("x2")), (from as i32, lane));
            let (left, came) = (numbers(leave), numbers(arrive));
            assert_eq!([left[left.len() - 2], drawn.line(from) + left[left.len() - 1]], [lane, trunk.number("y1")]);
            assert_eq!([came[0], drawn.line(*at) + came[1]], [lane, trunk.number("y2")]);
            assert!((left[0] - drawn.lifeline(message.slot(), message.sender())).abs() < 5);
            let refused = drawn.trace[*at].answer != 0;
            for part in [trunk, arrive] {
                assert_eq!((part.is("refused"), part.is("again")), (refused, *again));
            }
            assert_eq!(drawn.in_row(*at, "tip").len(), usize::from(!refused));
            let other = match drawn.trace[*at].slot() == message.slot() {
                true => String::new(),
                false => format!(" of slot {}", message.slot()),
            };
            let words = format!("{number} {} r{}{other}", message.kind(), message.round());
            assert_eq!(drawn.in_row(*at, "label")[0].text, words);
        }
        let arrive: usize = (0..drawn.rows.len()).map(|at| drawn.in_row(at, "arrive").len()).sum();
        assert_eq!([drawn.trunks.len(), arrive], [deliveries.len(); 2]);
    }
}

/// A delivery ends beside its member's lifeline: on the side that it comes from, and as a loop where it is to its sender.
#[test]
fn arrows_end_at_their_members() {
    let mut loops = 0;
    for drawn in DRAWN.iter() {
        for (at, _, message, _) in drawn.deliveries() {
            let (slot, Some(member)) = (drawn.trace[at].slot(), drawn.trace[at].member()) else { continue };
            let (ends, x) = (numbers(drawn.in_row(at, "arrive")[0]), drawn.lifeline(slot, member));
            let beside = ends[ends.len() - 1] - x;
            let from = (message.slot(), message.sender());
            let from_left = from < (slot, member);
            assert!(if from_left { (-16..-4).contains(&beside) } else { (5..17).contains(&beside) }, "{beside}");
            loops += usize::from(from == (slot, member));
        }
    }
    assert!(loops > 100);
}

/// No two messages share a lane at a time; one that ends and one that begins there have a row between them.
#[test]
fn lanes_are_of_one_message() {
    for drawn in DRAWN.iter() {
        let mut lanes: HashMap<i32, Vec<(i32, i32, i32)>> = HashMap::new();
        for trunk in &drawn.trunks {
            let part = (trunk.number("y1"), trunk.number("y2"), trunk.number("data-from"));
            assert!(part.0 < part.1);
            lanes.entry(trunk.number("x1")).or_default().push(part);
        }
        for parts in lanes.values() {
            for (place, one) in parts.iter().enumerate() {
                let apart = |other: &(i32, i32, i32)| one.2 == other.2 || one.1 + 20 < other.0 || other.1 + 20 < one.0;
                assert!(parts[place + 1..].iter().all(apart));
            }
        }
    }
}

/// The box of a text in letters of 0.602 of their size, the widest of usual fonts with letters of equal width.
fn text_box(text: &Element, line: i32) -> [f64; 4] {
    let width = 0.602 * 11.0 * text.text.chars().count() as f64;
    let x = f64::from(text.number("x"));
    let left = if text.is("end") { x - width } else { x };
    let y = f64::from(line + text.number("y"));
    [left, left + width, y - 9.0, y + 3.0]
}

/// No lifeline and no lane passes through a text, and the row's own line goes between those above and below it.
/// tests/page.rs asks more, of the letters that a browser draws.
#[test]
fn no_line_through_a_text() {
    for drawn in DRAWN.iter() {
        let lifelines = drawn.others.iter().filter(|one| one.is("life"));
        let down: Vec<[f64; 3]> = drawn
            .trunks
            .iter()
            .chain(lifelines)
            .map(|line| ["x1", "y1", "y2"].map(|name| f64::from(line.number(name))))
            .collect();
        for (at, row) in drawn.rows.iter().enumerate() {
            let width = drawn.in_row(at, "back")[0].number("width");
            for text in row.iter().filter(|one| one.name == "text") {
                let [left, right, top, bottom] = text_box(text, drawn.line(at));
                let through = |[x, y1, y2]: &[f64; 3]| left < *x && *x < right && *y1 < bottom && top < *y2;
                assert!(!down.iter().any(through), "{text:?}");
                assert!(0.0 <= left && right <= f64::from(width), "{text:?}");
                let of_table = text.number("y") == 4;
                assert!(of_table || bottom < f64::from(drawn.line(at)) || f64::from(drawn.line(at)) < top, "{text:?}");
            }
        }
    }
}

#[test]
fn refusals_have_a_cross_and_the_number() {
    for drawn in DRAWN.iter() {
        for (at, one) in drawn.trace.iter().enumerate() {
            let refused = one.answer != 0;
            assert_eq!(drawn.in_row(at, "cross").len(), if refused { 2 } else { 0 });
            assert_eq!(drawn.texts(at).contains(&format!(" refused {}", one.answer).as_str()), refused);
            assert_eq!(drawn.in_row(at, "dot").len(), usize::from(!refused));
        }
    }
}

#[test]
fn messages_never_delivered_are_stubs() {
    let mut stubs = 0;
    for drawn in DRAWN.iter() {
        let delivered: HashSet<MessageNumber> = drawn.deliveries().iter().map(|one| one.1).collect();
        for (at, one) in drawn.trace.iter().enumerate() {
            let never = one.sent.filter(|(number, _)| !delivered.contains(number));
            let words =
                never.map(|(number, sent)| format!("{number} {} r{} never delivered", sent.kind(), sent.round()));
            let found = drawn.texts(at).into_iter().find(|text| text.ends_with("never delivered"));
            assert_eq!(found, words.as_deref());
            assert_eq!(drawn.in_row(at, "stub").len(), usize::from(never.is_some()));
            stubs += usize::from(never.is_some());
        }
    }
    assert!(stubs > 100);
}

/// Badges of what was made; a decision after a higher round was proposed has a frame and a ring, and says so, and an add that makes
/// rounds GHOST says how many.
#[test]
fn proposals_and_decisions_have_badges() {
    let (mut late_ones, mut ghosts) = (0, 0);
    for drawn in DRAWN.iter() {
        let mut highest: HashMap<Slot, Round> = HashMap::new();
        for (at, one) in drawn.trace.iter().enumerate() {
            let highest = highest.entry(one.slot()).or_insert(Round::ROOT);
            let (badge, late) = match one.made {
                Some(Made::Proposal(made)) => {
                    *highest = made.round.max(*highest);
                    (Some(format!("add({},{},{})", made.round, made.value, made.parent)), false)
                }
                Some(Made::Decision(made)) => {
                    (Some(format!("commit({}) = {}", made.round, made.value)), made.round < *highest)
                }
                None => (None, false),
            };
            assert_eq!(drawn.in_row(at, "badge").len(), usize::from(badge.is_some()));
            assert!(badge.is_none_or(|badge| drawn.texts(at).contains(&badge.as_str())));
            assert_eq!(drawn.in_row(at, "frame").len(), if late { 2 } else { 0 });
            assert_eq!(drawn.texts(at).contains(&format!("late: round {highest} was proposed").as_str()), late);
            late_ones += usize::from(late);
            let made = one.ghosts.filter(|made| *made > 0).map(|made| format!("makes {made} GHOST"));
            let found = drawn.texts(at).into_iter().find(|text| text.starts_with("makes "));
            assert_eq!(found, made.as_deref());
            ghosts += usize::from(made.is_some());
        }
    }
    assert!(late_ones > 10 && ghosts > 10);
}

/// Each round has a colour of its own, which its arrows and labels have; also with as many rounds as events.
#[test]
fn a_colour_for_each_round() {
    for drawn in DRAWN.iter() {
        let mut colours: HashMap<Round, String> = HashMap::new();
        for (at, _, message, _) in drawn.deliveries() {
            let trunk = drawn.trunk(at);
            let (label, arrive) = (drawn.in_row(at, "label")[0], drawn.in_row(at, "arrive")[0]);
            let colour = colours.entry(message.round()).or_insert(label.get("fill").to_string());
            assert_eq!([trunk.get("stroke"), arrive.get("stroke"), label.get("fill")], [colour.as_str(); 3]);
        }
        assert_eq!(colours.values().collect::<HashSet<_>>().len(), colours.len());
    }
    let colours = Colours::new((1..=1_000).map(Round));
    let different: HashSet<String> = colours.rounds().iter().map(|round| colours.of(*round)).collect();
    assert_eq!(different.len(), 1_000);
}

/// An answer that isn't the model's stands beside the model's.
#[test]
fn other_answers_than_the_models() {
    let list = parse(REHEARSAL, None).unwrap();
    let mut trace = happened(&list);
    (trace.events[4].answer, trace.events[5].answer) = (0, 24);
    let elements = elements(&timeline(&trace));
    let answer = |at| elements.iter().find(|one| one.row == Some(at) && one.is("answer")).unwrap().text.as_str();
    assert_eq!([answer(3), answer(4), answer(5)], ["0", "0, model 25", "24, model 0"]);
}

/// The lifelines are those of the slots that events are of, or of one slot alone; behind them is a place for what isn't there.
#[test]
fn lifelines_of_slots() {
    let names = |trace: &Trace| -> Vec<String> {
        let elements = elements(&timeline(trace));
        assert_eq!(elements.iter().filter(|one| one.is("life")).count(), 3 * trace.slots().len());
        elements.iter().filter(|one| one.is("strong") && one.is("middle")).map(|one| one.text.clone()).collect()
    };
    let of = |slot: &str| (0..3).map(|member| format!("{slot}member {member}")).collect::<Vec<_>>();
    let trace = happened(&parse(SLOTS_SIDE_BY_SIDE, None).unwrap());
    assert_eq!(names(&trace), [of(""), of("slot 3, "), vec!["no such slot or member".into()]].concat());
    let alone = |slot| trace.clone().alone(Slot(slot));
    assert_eq!(names(&alone(0)), of(""));
    assert_eq!(names(&alone(3)), [of("slot 3, "), vec!["no such member".into()]].concat());
    assert_eq!(names(&alone(5)), of("slot 5, "));
    let above = happened(&parse("s(1,1,70) 8:s(1,1,70)", None).unwrap());
    assert_eq!(names(&above), [of(""), vec!["no such slot".into()]].concat());
    assert_eq!(names(&happened(&parse("8:s(1,1,70)", None).unwrap())), names(&above));
    assert_eq!(alone(3).events.iter().map(|one| one.place).collect::<Vec<_>>()[..3], [1, 3, 5]);
}

/// On each implementation, the core first where it is there.
#[test]
fn the_tool_draws_it() {
    for text in [REHEARSAL, LOST_JOIN, REFUSALS, SLOTS_SIDE_BY_SIDE] {
        let trace = happened(&parse(text, None).unwrap());
        let slots: [(&[&str], Trace); 3] = [
            (&[], trace.clone()),
            (&["--slot", "0"], trace.clone().alone(Slot(0))),
            (&["--slot=3"], trace.clone().alone(Slot(3))),
        ];
        for (slot, trace) in slots {
            for on in [&[][..], &["--second"]] {
                let mut command = Command::new(env!("CARGO_BIN_EXE_kalebasin"));
                let args = [&["draw", "--format", "timeline", "-e", text], slot, on].concat();
                let output = command.args(args).output().unwrap();
                assert!(output.status.success() && output.stdout == timeline(&trace).as_bytes());
            }
        }
    }
}
