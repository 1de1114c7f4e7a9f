//! The page of a run in a real browser. These tests need Debian's package chromium and so are run by tests/page.sh alone.

mod browser;
mod runs;

use browser::{browser, Browser};
use kalebasin::notation::parse;
use kalebasin::{EventList, Refusal, Slot, TreeKind, SLOTS};
use kalebasin_rig::draw;
use kalebasin_rig::second::member::Record;
use kalebasin_rig::second::model::{Made, Model};
use kalebasin_rig::second::tree;
use kalebasin_rig::suite::{MADE_GHOST, REHEARSAL};
use kalebasin_rig::trace::{Happened, Trace};
use runs::{happened, random_list, REFUSALS, SLOTS_SIDE_BY_SIDE, STORE_ROWS, TABLE_ROWS};
use std::io::Write;
use std::path::PathBuf;
use std::process::{Command, Stdio};
use std::time::{Duration, Instant};

/// What the tool prints for a list.
fn tool(args: &[&str], list: &EventList) -> String {
    let mut command = Command::new(env!("CARGO_BIN_EXE_kalebasin"));
    let mut child = command.args(args).stdin(Stdio::piped()).stdout(Stdio::piped()).spawn().unwrap();
    child.stdin.take().unwrap().write_all(list.to_string().as_bytes()).unwrap();
    let output = child.wait_with_output().unwrap();
    assert!(output.status.success(), "{args:?} {list}");
    String::from_utf8(output.stdout).unwrap()
}

/// The page of a list, as the tool writes it.
fn page(name: &str, list: &EventList) -> PathBuf {
    page_with(name, list, &[])
}

/// The same with more options.
fn page_with(name: &str, list: &EventList, options: &[&str]) -> PathBuf {
    let file = PathBuf::from(env!("CARGO_TARGET_TMPDIR")).join(format!("{name}.html"));
    tool(&[&["run", "--html", file.to_str().unwrap()], options].concat(), list);
    file
}

/// The fields of a record in the page's order.
fn fields(record: &Record) -> [String; 8] {
    let counted: Vec<String> = (0..7).filter(|at| record.flags[*at]).map(|at| at.to_string()).collect();
    let phase = ["idle", "collecting", "proposed", "decided"][record.phase as usize];
    [
        record.j.to_string(),
        record.v.to_string(),
        record.w.to_string(),
        record.l.to_string(),
        phase.into(),
        record.x.to_string(),
        record.b.to_string(),
        if counted.is_empty() { "–".into() } else { counted.join(" ") },
    ]
}

/// The words of an event's answer and of the event.
fn words(one: &Happened) -> String {
    let cause = Refusal::from_number(one.answer).map_or("accepted", Refusal::cause);
    format!("{}: {cause}. {}.", one.answer, one.explained.words)
}

/// The office and its trees, and the slot that a page shows.
struct Office {
    slot: Slot,
    /// Whether others than slot 0 are shown.
    named: bool,
    records: [Vec<Record>; SLOTS],
    tables: [Vec<u64>; SLOTS],
}

impl Office {
    fn new(trace: &Trace) -> Office {
        let mut tables = TABLE_ROWS.map(|rows| vec![0; rows * 4]);
        tables.iter_mut().for_each(|table| tree::fresh(table).unwrap());
        let model = Model::new(trace.n(), STORE_ROWS, TABLE_ROWS).unwrap();
        let (slot, named) = (trace.slots()[0], trace.slots() != [Slot(0)]);
        Office { slot, named, records: model.slots.map(|of_slot| of_slot.members), tables }
    }

    /// Takes an event; the rounds whose nodes it changed.
    fn take(&mut self, one: &Happened) -> Vec<u32> {
        if one.slot().in_range() {
            self.slot = one.slot();
        }
        let Some(after) = one.after else { return Vec::new() };
        self.records[after.slot.0 as usize][after.number.0 as usize] = after;
        let table = &mut self.tables[after.slot.0 as usize];
        let before = table.clone();
        match one.made {
            Some(Made::Proposal(made)) => {
                tree::add(TreeKind::Value, table, made.round, made.value, made.parent).unwrap();
            }
            Some(Made::Decision(made)) => tree::commit(TreeKind::Value, table, made.round).unwrap(),
            None => {}
        }
        let rows = before.chunks(4).zip(table.chunks(4));
        rows.filter(|(was, is)| was != is).map(|(_, is)| is[0] as u32).collect()
    }

    /// The headings, the lines of the records, with a star where the event changed a field, and the tree.
    fn lines(&self, one: Option<&Happened>, changed: &[u32]) -> String {
        let before = one.and_then(|one| one.before);
        let (slot, at) = (self.slot, self.slot.0 as usize);
        let of_slot = if self.named { format!(" of slot {slot}") } else { String::new() };
        let mut lines = vec![format!("Records{of_slot}, Tree{of_slot}")];
        for field in 0..8 {
            let cell = |record: &Record| {
                let now = fields(record)[field].clone();
                let was = before.filter(|before| before.number == record.number);
                if was.is_some_and(|was| fields(&was)[field] != now) {
                    format!("*{now}")
                } else {
                    now
                }
            };
            lines.push(self.records[at].iter().map(cell).collect::<Vec<_>>().join(" | "));
        }
        let mut tree = draw::text(&self.tables[at]);
        for round in changed {
            tree = tree.replace(&format!(" round {round},"), &format!(" *round {round},"));
        }
        lines.join("\n") + "\n" + &tree
    }
}

/// The arrow key takes the slider through all events; records, changed fields and tree are those of the model after each, in the
/// event's slot.
#[test]
#[ignore = "needs chromium"]
fn the_slider_shows_records_and_tree() {
    let mut browser = browser();
    let slots = parse(SLOTS_SIDE_BY_SIDE, None).unwrap();
    // An event that no member takes has its slot shown too, if that is there.
    let nobody = parse("s(1,1,70) 3:d(0,3) 8:d(0,0) d(0,0)", None).unwrap();
    let lists: [(EventList, &[&str], Option<Slot>); 7] = [
        (parse(REHEARSAL, None).unwrap(), &[], None),
        (parse(REFUSALS, None).unwrap(), &[], None),
        (random_list(5, 5, 150), &[], None),
        (nobody, &[], None),
        (slots.clone(), &[], None),
        (slots.clone(), &["--slot", "3"], Some(Slot(3))),
        (slots, &["--slot", "0"], Some(Slot(0))),
    ];
    for (at, (list, options, slot)) in lists.iter().enumerate() {
        let trace = happened(list);
        let trace = slot.map_or(trace.clone(), |slot| trace.alone(slot));
        browser.open(&page_with(&format!("slider-{at}"), list, options));
        let mut office = Office::new(&trace);
        assert_eq!(browser.value("probes.shown()"), format!("– (none yet)\n\n{}", office.lines(None, &[])), "{list}");
        browser.value("String(document.getElementById('slider').focus())");
        for one in &trace.events {
            browser.press("ArrowRight", 39);
            let changed = office.take(one);
            let lines = office.lines(Some(one), &changed);
            let expected = format!("{}: {}\n{}\n{lines}", one.place, one.event, words(one));
            assert_eq!(browser.value("probes.shown()"), expected, "{list}");
        }
    }
}

/// The middle of an event's answer in the window.
fn answer_place(browser: &mut Browser, at: usize) -> (f64, f64) {
    let place = browser.value(&format!("probes.answerPlace({at})"));
    let (x, y) = place.split_once(' ').unwrap();
    (x.parse().unwrap(), y.parse().unwrap())
}

/// The mouse over an answer shows its words, and a click takes the slider there.
#[test]
#[ignore = "needs chromium"]
fn answers_have_words() {
    let mut browser = browser();
    let list = parse(REFUSALS, None).unwrap();
    browser.open(&page("answers", &list));
    let tip = "probes.tip()";
    assert_eq!(browser.value(tip), "");
    for (at, one) in happened(&list).events.iter().enumerate() {
        let (x, y) = answer_place(&mut browser, at);
        browser.mouse(x, y, false);
        assert_eq!(browser.value(tip), words(one));
        browser.mouse(x, y, true);
        assert_eq!(browser.value("document.getElementById('place').innerText"), format!("{at}: {}", one.event));
    }
}

/// An answer, and a number of rounds made GHOST, that isn't the model's is told beside the model's.
#[test]
#[ignore = "needs chromium"]
fn others_than_the_models_are_told() {
    let mut trace = happened(&parse(MADE_GHOST, None).unwrap());
    (trace.events[0].answer, trace.events[19].ghosts) = (19, Some(3));
    let file = PathBuf::from(env!("CARGO_TARGET_TMPDIR")).join("others.html");
    std::fs::write(&file, kalebasin_rig::page::page("another", &trace)).unwrap();
    let mut browser = browser();
    browser.open(&file);
    for (at, told) in [(0, " The model answers 0."), (1, ""), (19, " It makes 3 GHOST, in the model 2.")] {
        let (x, y) = answer_place(&mut browser, at);
        browser.mouse(x, y, false);
        assert_eq!(browser.value("probes.tip()"), words(&trace.events[at]) + told);
    }
}

/// What the page has of rows, arrows and gaps if these events pass.
fn rows(trace: &[Happened], passes: impl Fn(&Happened) -> bool) -> String {
    let numbers = |keep: &dyn Fn(&Happened) -> bool| {
        let kept = trace.iter().enumerate().filter(|(_, one)| keep(one)).map(|(at, _)| at.to_string());
        kept.collect::<Vec<_>>().join(" ")
    };
    format!("{}\n{}\ntrue", numbers(&passes), numbers(&|one| passes(one) && one.delivered.is_some()))
}

/// Filters leave the events that pass, close them up, and let everything back in.
#[test]
#[ignore = "needs chromium"]
fn filters_by_round_member_and_refusals() {
    let mut browser = browser();
    let list = parse(REFUSALS, None).unwrap();
    let trace = happened(&list).events;
    browser.open(&page("filters", &list));
    assert_eq!(browser.value("probes.rows()"), rows(&trace, |_| true));
    let click = |browser: &mut Browser, what: &str| browser.value(&format!("probes.click('{what}')"));
    let round = |one: &Happened| one.round().map(|round| round.0);
    let member = |one: &Happened| one.member().map(|member| member.0);
    type Passes<'a> = &'a dyn Fn(&Happened) -> bool;
    let boxes: [(&str, Passes); 5] = [
        ("#rounds [value=\"1\"]", &|one| round(one) != Some(1)),
        ("#rounds [value=\"none\"]", &|one| round(one).is_some()),
        ("#members [value=\"0\"]", &|one| member(one) != Some(0)),
        ("#members [value=\"1\"]", &|one| member(one) != Some(1)),
        ("#members [value=\"none\"]", &|one| member(one).is_some()),
    ];
    for (box_of, passes) in boxes {
        assert_eq!(click(&mut browser, box_of), rows(&trace, passes), "{box_of}");
        assert_eq!(browser.value("probes.overlaps()"), "", "{box_of}");
        assert_eq!(click(&mut browser, box_of), rows(&trace, |_| true), "{box_of}");
    }
    for (choice, passes) in
        [("accepted", (|one| one.answer == 0) as fn(&Happened) -> bool), ("refused", |one| one.answer != 0)]
    {
        assert_eq!(browser.value(&format!("probes.choose('{choice}')")), rows(&trace, passes));
        let both = rows(&trace, |one| passes(one) && round(one) != Some(1));
        assert_eq!(click(&mut browser, "#rounds [value=\"1\"]"), both);
        click(&mut browser, "#rounds [value=\"1\"]");
    }
    assert_eq!(click(&mut browser, "#rounds button + button"), rows(&trace, |_| false));
}

/// The filter by slot is there where events of several are shown, or of one that there isn't.
#[test]
#[ignore = "needs chromium"]
fn filters_by_slot() {
    let mut browser = browser();
    let list = parse(SLOTS_SIDE_BY_SIDE, None).unwrap();
    let trace = happened(&list).events;
    let hidden = "String(document.getElementById('slots').hidden)";
    for (name, list, options) in [
        ("rehearsal", parse(REHEARSAL, None).unwrap(), &[][..]),
        ("slot", list.clone(), &["--slot", "3"]),
        ("five", parse("5:s(1,1,70)", None).unwrap(), &[]),
    ] {
        browser.open(&page_with(name, &list, options));
        assert_eq!(browser.value(hidden), "true", "{name}");
    }
    browser.open(&page("slots", &list));
    assert_eq!(browser.value(hidden), "false");
    let click = |browser: &mut Browser, what: &str| browser.value(&format!("probes.click('{what}')"));
    assert_eq!(browser.value("probes.rows()"), rows(&trace, |_| true));
    for (box_of, slot) in [("0", Some(Slot(0))), ("3", Some(Slot(3))), ("none", None)] {
        let box_of = format!("#slots [value=\"{box_of}\"]");
        let passes = |one: &Happened| Some(one.slot()).filter(|slot| slot.in_range()) != slot;
        assert_eq!(click(&mut browser, &box_of), rows(&trace, passes), "{box_of}");
        assert_eq!(browser.value("probes.overlaps()"), "", "{box_of}");
        assert_eq!(click(&mut browser, &box_of), rows(&trace, |_| true), "{box_of}");
    }
}

/// No line and no word lies on a label, in the letters that the browser has; a word moved onto a line is found.
#[test]
#[ignore = "needs chromium"]
fn labels_stay_off_lines() {
    let mut browser = browser();
    let mut lists = [REHEARSAL, REFUSALS, SLOTS_SIDE_BY_SIDE].map(|text| parse(text, None).unwrap()).to_vec();
    lists.extend([3, 5, 7, 7].into_iter().zip(1..).map(|(n, seed)| random_list(seed, n, 120)));
    for list in &lists {
        browser.open(&page("labels", list));
        assert_eq!(browser.value("probes.overlaps()"), "", "{list}");
        assert!(browser.value("String(document.querySelectorAll('#body text').length)").parse::<usize>().unwrap() > 60);
    }
    browser.open(&page("labels", &lists[0]));
    browser.value("String(document.querySelector('.row[data-at=\"3\"] .label').setAttribute('y', 4))");
    assert_eq!(browser.value("probes.overlaps()"), "3 1 JOIN r1 under line arrive");
}

/// Paper has every lifeline with its name, upright and across, for the page and for the picture alone. In a window so narrow
/// seven of them don't fit.
#[test]
#[ignore = "needs chromium"]
fn all_members_are_printed() {
    let mut browser = browser();
    for n in [3, 5, 7] {
        let list = random_list(4, n, 60);
        let picture = PathBuf::from(env!("CARGO_TARGET_TMPDIR")).join("paper.svg");
        std::fs::write(&picture, tool(&["draw", "--format", "timeline"], &list)).unwrap();
        for (file, width) in [page("paper", &list), picture].iter().flat_map(|file| [(file, 718), (file, 1_047)]) {
            let printed = browser.value_on_paper(file, width, "probes.within()");
            assert_eq!(printed, format!("{n} {n} true"), "{} at {width}", file.display());
        }
    }
    browser.open(&page("paper", &random_list(4, 7, 60)));
    let shown = browser.value("probes.within()");
    assert!(shown.ends_with(" false"), "{shown}");
}

/// A list of the most events is written and drawn within a second, and the slider goes to its end in one. Of the browser it
/// is the processor's time that counts, and of the tool the shortest of five: other programs run too.
#[test]
#[ignore = "needs chromium"]
fn a_thousand_events_within_a_second() {
    let mut browser = browser();
    for (seed, n) in [(5, 5), (2, 7)] {
        let list = random_list(seed, n, EventList::MOST);
        let written = (0..5).map(|_| time_to_write(&list)).min().unwrap();
        let [drawn, to_its_end] = times(&mut browser, &list);
        println!("{n} members: written in {written:?}, drawn in {drawn:?}, to its end in {to_its_end:?}");
        assert!(written + drawn < SECOND && to_its_end < SECOND, "{written:?} {drawn:?} {to_its_end:?}");
    }
}

const SECOND: Duration = Duration::from_secs(1);

fn time_to_write(list: &EventList) -> Duration {
    let began = Instant::now();
    page("thousand", list);
    began.elapsed()
}

/// What the browser works until all is drawn, and on the way to the last event.
fn times(browser: &mut Browser, list: &EventList) -> [Duration; 2] {
    browser.open(&page("thousand", list));
    let drawn = browser.worked();
    assert_eq!(browser.value("String(document.querySelectorAll('.row').length)"), list.events.len().to_string());
    browser.value("String(document.getElementById('slider').focus())");
    let before = browser.worked();
    browser.press("End", 35);
    assert!(browser.value("document.getElementById('place').innerText").starts_with("999: "));
    [drawn, browser.worked() - before]
}

/// The page loads nothing, and its text names nothing to load.
#[test]
#[ignore = "needs chromium"]
fn no_outside_files() {
    let mut browser = browser();
    let file = page("outside", &parse(REHEARSAL, None).unwrap());
    browser.open(&file);
    assert_eq!(browser.value("String(performance.getEntriesByType('resource').length)"), "0");
    let text = std::fs::read_to_string(&file).unwrap().replace("xmlns=\"http://www.w3.org/2000/svg\"", "");
    for part in ["http:", "https:", "src=", "href=", "url(", "@import"] {
        assert!(!text.contains(part), "{part}");
    }
}

/// The browser's own reader takes each line of `run --json` and writes it back the same.
#[test]
#[ignore = "needs chromium"]
fn json_is_read_by_another() {
    let mut browser = browser();
    for list in [parse(REHEARSAL, None).unwrap(), parse(REFUSALS, None).unwrap(), random_list(6, 7, 300)] {
        let printed = tool(&["run", "--json"], &list);
        assert_eq!(printed.lines().count(), list.events.len());
        let each = |of_line: &str| format!("[{}].map({of_line}).join('\\n')", script_texts(&printed));
        assert_eq!(browser.value(&each("(line) => JSON.stringify(JSON.parse(line))")) + "\n", printed);
        let kind = |field: &str| format!("one.{field} ? one.{field}.kind : '-'");
        let parts = format!("one.number, one.event.notation, one.answer, {}, {}", kind("sent"), kind("made"));
        let read =
            browser.value(&each(&format!("(line) => {{ const one = JSON.parse(line); return [{parts}].join(' '); }}")));
        assert_eq!(read, happened(&list).events.iter().map(in_short).collect::<Vec<_>>().join("\n"));
    }
}

/// Number, event, answer, and the kinds of what was sent and made.
fn in_short(one: &Happened) -> String {
    let sent = one.sent.map_or("-", |(_, message)| message.kind());
    let made = match one.made {
        Some(Made::Proposal(_)) => "proposal",
        Some(Made::Decision(_)) => "decision",
        None => "-",
    };
    format!("{} {} {} {sent} {made}", one.place, one.event, one.answer)
}

/// Lines as texts of a script.
fn script_texts(lines: &str) -> String {
    let quoted = lines.lines().map(|line| format!("'{}'", line.replace('\\', "\\\\").replace('\'', "\\'")));
    quoted.collect::<Vec<_>>().join(",")
}
