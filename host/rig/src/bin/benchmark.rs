//! Measures the proved core side by side with plain Rust and prints a table in markdown.
//!
//! Run it with `cargo run --release --bin benchmark`. `benchmark --add ROWS SHAPE CALLS` makes so many checked adds of the
//! core and nothing else, for a tool that counts instructions: SHAPE is `path` or `star`, of a tree that fills all rows but
//! one.

use kalebasin::{Event, EventList, Member, MessageNumber, Round, Slot, TreeKind};
use kalebasin::{SLOTS, STORE_ROW, TABLE_ROW, TABLE_ROWS};
use kalebasin_rig::generate::{self, Slots};
use kalebasin_rig::random::Random;
use kalebasin_rig::suite::valid_messages;
use kalebasin_rig::{quick, second, Calls};
use std::hint::black_box;
use std::io::{self, Write};
use std::process::ExitCode;
use std::time::Instant;

/// Samples of each measure; the median counts.
const SAMPLES: usize = 301;
/// A sample repeats the call until it takes about so long.
const SAMPLE_NANOSECONDS: u128 = 100_000;

/// The core, where it is linked.
#[cfg(feature = "core")]
const CORE: &[Calls] = &[kalebasin_rig::proved::CALLS];
#[cfg(not(feature = "core"))]
const CORE: &[Calls] = &[];

/// The implementations of all calls, the core first.
fn implementations() -> Vec<Calls> {
    [CORE, &[second::CALLS]].concat()
}

/// The implementations of play: the same, the second with one walk over the nodes for a proposal or a decision, and one written for speed.
fn players() -> Vec<Calls> {
    [CORE, &[second::CALLS, quick::ONE_WALK, quick::CALLS]].concat()
}

/// What is measured of one implementation: a call that can be repeated.
type Work = Box<dyn FnMut()>;

/// A row of the table: what is measured, and nanoseconds for each implementation.
#[derive(Clone)]
struct Row {
    what: String,
    nanoseconds: Vec<f64>,
}

impl Row {
    /// The core's time, where that of an implementation behind it is 1.
    fn ratio(&self, implementation: usize) -> Option<f64> {
        let behind = CORE.len() == 1 && implementation > 0;
        Some(self.nanoseconds.first()? / self.nanoseconds.get(implementation).filter(|_| behind)?)
    }
}

fn main() -> ExitCode {
    let args: Vec<String> = std::env::args_os().skip(1).map(|word| word.to_string_lossy().into_owned()).collect();
    match args.iter().map(String::as_str).collect::<Vec<_>>()[..] {
        [] => match print_times(&mut io::stdout().lock()) {
            Ok(()) => ExitCode::SUCCESS,
            Err(error) => stop(&format!("benchmark: standard output: {error}")),
        },
        ["--add", rows, shape, calls] if add_many(rows, shape, calls).is_some() => ExitCode::SUCCESS,
        _ => stop("usage: benchmark, or benchmark --add ROWS SHAPE CALLS: 3 to 256 rows, shape path or star"),
    }
}

/// Tells why nothing more is done. What can't be told on standard error either is lost.
fn stop(why: &str) -> ExitCode {
    let _ = writeln!(io::stderr(), "{why}");
    ExitCode::from(2)
}

/// Measures all and prints it, a page in markdown.
fn print_times(out: &mut dyn Write) -> io::Result<()> {
    print_conditions(out)?;
    let adds = [add_rows("one path", path_tree), add_rows("all below the root", star_tree)].concat();
    let groups = [("play", play_rows()), ("the reader", reader_rows()), ("the checked add", adds)];
    writeln!(out)?;
    print_table(out, &groups.each_ref().map(|(_, rows)| &rows[..]).concat())?;
    for (at, calls) in players().iter().enumerate().skip(1) {
        let ranges: Vec<String> = groups.iter().filter_map(|(name, rows)| range(name, rows, at)).collect();
        if !ranges.is_empty() {
            writeln!(out, "\nOf the time of {}: {}.", calls.name, ranges.join(", "))?;
        }
    }
    Ok(())
}

fn print_conditions(out: &mut dyn Write) -> io::Result<()> {
    let cores = std::thread::available_parallelism().map_or(1, |cores| cores.get());
    writeln!(out, "- {}, {}, {cores} cores, release builds.", processor(), std::env::consts::ARCH)?;
    writeln!(
        out,
        "- Medians of {SAMPLES} samples, the sides in turns, each sample of as many calls as take about {} µs.",
        SAMPLE_NANOSECONDS / 1000
    )?;
    out.write_all(
        "- Buffers aren't cleared before a call. Play clears the store and makes the tables fresh, in its time: one of 256 rows for slot 0,
  which all events are of, and one of a row for each other slot.
- Before each add the table is copied from a tree with one free row, in the add's time. Each add checks that
  the table is a tree.
- The reader is measured as the C function, without the step to the host's enum.
"
        .as_bytes(),
    )
}

fn processor() -> String {
    let info = std::fs::read_to_string("/proc/cpuinfo").unwrap_or_default();
    let name = info.lines().find_map(|line| line.strip_prefix("model name")?.split_once(": "));
    name.map_or("A processor that doesn't tell its name".into(), |(_, name)| name.into())
}

/// A column for each implementation, and behind each but the core one for the ratio of the core to it.
fn print_table(out: &mut dyn Write, rows: &[Row]) -> io::Result<()> {
    let mut heading = Vec::new();
    for (at, calls) in players().iter().enumerate() {
        heading.push(calls.name);
        if CORE.len() == 1 && at > 0 {
            heading.push("ratio");
        }
    }
    writeln!(out, "| one call | {} |", heading.join(" | "))?;
    writeln!(out, "|---|{}", "---:|".repeat(heading.len()))?;
    for row in rows {
        let mut cells = Vec::new();
        for (at, time) in row.nanoseconds.iter().enumerate() {
            cells.push(words(*time));
            cells.extend(row.ratio(at).map(|ratio| format!("{ratio:.2}")));
        }
        cells.resize(heading.len(), String::new());
        writeln!(out, "| {} | {} |", row.what, cells.join(" | "))?;
    }
    Ok(())
}

/// The least and the greatest ratio of the core to an implementation, if these rows have one.
fn range(name: &str, rows: &[Row], implementation: usize) -> Option<String> {
    let mut ratios: Vec<f64> = rows.iter().filter_map(|row| row.ratio(implementation)).collect();
    ratios.sort_by(f64::total_cmp);
    Some(format!("{name} {:.2} to {:.2}", ratios.first()?, ratios.last()?))
}

fn words(nanoseconds: f64) -> String {
    match nanoseconds {
        time if time < 1_000.0 => format!("{time:.1} ns"),
        time => format!("{:.2} µs", time / 1_000.0),
    }
}

/// Measures the same work of each implementation, in turns.
fn measure(what: String, mut works: Vec<Work>) -> Row {
    let repeats: Vec<u32> = works.iter_mut().map(repeats).collect();
    let mut samples = vec![Vec::with_capacity(SAMPLES); works.len()];
    for _ in 0..SAMPLES {
        for ((work, repeats), samples) in works.iter_mut().zip(&repeats).zip(&mut samples) {
            samples.push(sample(work, *repeats));
        }
    }
    Row { what, nanoseconds: samples.into_iter().map(median).collect() }
}

/// Measures work that makes so many calls, for one of them.
fn measure_each(what: String, works: Vec<Work>, calls: usize) -> Row {
    let mut row = measure(what, works);
    row.nanoseconds.iter_mut().for_each(|time| *time /= calls as f64);
    row
}

/// Nanoseconds for one call, from many.
fn sample(work: &mut Work, repeats: u32) -> f64 {
    let began = Instant::now();
    for _ in 0..repeats {
        work();
    }
    began.elapsed().as_nanos() as f64 / f64::from(repeats)
}

/// How many calls take about as long as a sample.
fn repeats(work: &mut Work) -> u32 {
    let mut repeats = 1;
    while sample(work, repeats) as u128 * u128::from(repeats) < SAMPLE_NANOSECONDS {
        repeats *= 2;
    }
    repeats
}

fn median(mut samples: Vec<f64>) -> f64 {
    samples.sort_by(f64::total_cmp);
    samples[samples.len() / 2]
}

fn play_rows() -> Vec<Row> {
    let mut rows = Vec::new();
    for events in [10, 100, 1_000] {
        rows.push(play_row(format!("play, {events} events, all accepted"), undisturbed(events)));
        let (slots, mut random) = (Slots::one(Slot(0)), Random::new(5));
        let steered = generate::list_in(&slots, &mut random, 3, events, events, ROWS_IN_SLOT_0);
        let steered = steered.expect("3 members are an office");
        rows.push(play_row(format!("play, {events} events, any order"), steered));
    }
    rows
}

/// The table rows of a list in slot 0: none of the other slots has a free one.
const ROWS_IN_SLOT_0: [usize; SLOTS] = [256, 1, 1, 1, 1, 1, 1, 1];

/// A store row for each event, and tables for a list in slot 0.
fn play_row(what: String, list: EventList) -> Row {
    let bytes = list.to_bytes();
    let work = |calls: Calls| -> Work {
        let bytes = bytes.clone();
        let mut store = vec![0; list.events.len() * STORE_ROW];
        let lengths = ROWS_IN_SLOT_0.map(|rows| rows * TABLE_ROW);
        let mut words = vec![0; lengths.iter().sum()];
        let mut answers = vec![0; list.events.len()];
        Box::new(move || {
            let played = (calls.play)(black_box(&bytes), &mut store, &mut words, &lengths, &mut answers);
            assert!(black_box(played).is_ok());
        })
    };
    measure(what, players().into_iter().map(work).collect())
}

/// One round of three members after another, each decided: start, two STARTs, two JOINs, two PROPOSEs, two VOTEs.
fn undisturbed(events: usize) -> EventList {
    let mut list = EventList::new(3);
    for turn in 0.. {
        let (round, first) = (turn + 1, turn * 6);
        let (leader, other) = (Member(round % 3), Member((round + 1) % 3));
        let deliver = |message: u32, member| Event::deliver(MessageNumber(first + message), member);
        list.start(leader, Round(round), 70);
        list.events.extend([deliver(0, leader), deliver(0, other), deliver(1, leader), deliver(2, leader)]);
        list.events.extend([deliver(3, leader), deliver(3, other), deliver(4, leader), deliver(5, leader)]);
        if list.events.len() >= events {
            break;
        }
    }
    list.events.truncate(events);
    list
}

/// Messages read in a call of the work; one takes too short a time.
const READS: usize = 100;

/// The readers as such: the C function, and the function of the second implementation.
fn readers() -> Vec<fn(&[u8])> {
    fn second(bytes: &[u8]) {
        let _ = black_box(second::message::read(black_box(bytes)));
    }
    #[cfg(feature = "core")]
    fn core(bytes: &[u8]) {
        let bytes = black_box(bytes);
        // SAFETY: pointer and length come from one slice.
        black_box(unsafe { kalebasin::ffi::kalebasin_read_message(bytes.as_ptr(), bytes.len()) });
    }
    vec![
        #[cfg(feature = "core")]
        core,
        second,
    ]
}

fn reader_rows() -> Vec<Row> {
    let messages = valid_messages();
    let kinds = [
        ("START", 1, 16),
        ("JOIN, never voted", 2, 20),
        ("JOIN with a vote", 2, 32),
        ("PROPOSE", 3, 24),
        ("VOTE", 4, 16),
    ];
    let mut rows = Vec::new();
    for (name, kind, length) in kinds {
        let bytes = messages.iter().find(|bytes| bytes[7] == kind && bytes.len() == length);
        let bytes = bytes.expect("there is a message of each kind");
        let works = readers().into_iter().map(|read| read_many(bytes.clone(), read)).collect();
        rows.push(measure_each(format!("read a message, {name}"), works, READS));
    }
    rows
}

fn read_many(bytes: Vec<u8>, read: fn(&[u8])) -> Work {
    Box::new(move || (0..READS).for_each(|_| read(&bytes)))
}

/// A tree of so many rows, the last one free, and the parent of a round to add.
type Tree = fn(usize) -> (Vec<u64>, u32);

fn add_rows(shape: &str, tree: Tree) -> Vec<Row> {
    let works = |rows| implementations().iter().map(|calls| add_work(calls, rows, tree)).collect();
    [16, 64, 256].into_iter().map(|rows| measure(format!("checked add, {rows} rows, {shape}"), works(rows))).collect()
}

/// Makes checked adds of the first implementation; none where the arguments are wrong.
fn add_many(rows: &str, shape: &str, calls: &str) -> Option<()> {
    let tree = [("path", path_tree as Tree), ("star", star_tree)].into_iter().find(|(name, _)| *name == shape)?.1;
    let rows = rows.parse().ok().filter(|rows| (3..=TABLE_ROWS).contains(rows))?;
    let mut work = add_work(&implementations()[0], rows, tree);
    (0..calls.parse().ok()?).for_each(|_: u32| work());
    Some(())
}

fn add_work(calls: &Calls, rows: usize, tree: Tree) -> Work {
    let (template, parent) = tree(rows);
    let (add, mut table) = (calls.tree_add, template.clone());
    Box::new(move || {
        table.copy_from_slice(&template);
        let added = add(TreeKind::Value, black_box(&mut table), Round(rows as u32), 70, Round(parent));
        assert!(black_box(added).is_ok());
    })
}

/// Each round below the one before.
fn path_tree(rows: usize) -> (Vec<u64>, u32) {
    (grow(rows, |round| round - 1), rows as u32 - 2)
}

/// Each round below the root, so that all but the last are GHOST.
fn star_tree(rows: usize) -> (Vec<u64>, u32) {
    (grow(rows, |_| 0), 0)
}

fn grow(rows: usize, parent: fn(u32) -> u32) -> Vec<u64> {
    let mut table = vec![0; rows * TABLE_ROW];
    second::tree::fresh(&mut table).expect("the length is allowed");
    for round in 1..rows as u32 - 1 {
        let added = second::tree::add(TreeKind::Value, &mut table, Round(round), 70, Round(parent(round)));
        added.expect("the tree takes the round");
    }
    table
}
