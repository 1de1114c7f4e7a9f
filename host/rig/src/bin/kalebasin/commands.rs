//! What each command does.

use crate::input::{judge, list, list_bytes, list_in_notation, list_of, list_refused, message_bytes};
use crate::options::Options;
use crate::search;
use crate::stop::{Stop, REFUSED};
use crate::tree;
use kalebasin::{Event, EventList, Refusal, Slot};
use kalebasin_rig::compare::{self, Left};
use kalebasin_rig::explain::Explained;
use kalebasin_rig::generate::Case;
use kalebasin_rig::rehearsal::{REHEARSAL_STORE_ROWS, REHEARSAL_TABLE_ROWS};
use kalebasin_rig::search::clean_case;
use kalebasin_rig::timeline::timeline;
use kalebasin_rig::trace::{slots_of, trace, Happened, Trace};
use kalebasin_rig::{draw, explain, json, page, rehearsal};
use kalebasin_rig::{second, Calls};
use std::ffi::OsStr;
use std::fs;
use std::io::Write;
use std::path::Path;
use std::process::ExitCode;

/// The status of a command that came to its end, or why it didn't.
pub type Outcome = Result<ExitCode, Stop>;

/// Does what is asked for and writes to `out`.
pub fn run(options: &Options, out: &mut dyn Write) -> Outcome {
    match options.command.name {
        "run" => run_list(options, out),
        "draw" => draw_list(options, out),
        "encode" => encode(options, out),
        "decode" => decode(options, out),
        "rehearse" => rehearse(options, out),
        "message" => message(options, out),
        "tree" => tree::tree(options, out),
        "search" => search::search(options, out),
        "compare" => search::compare(options, out),
        _ => causes(out),
    }
}

/// The implementation to work on.
pub fn calls(options: &Options) -> Calls {
    #[cfg(feature = "core")]
    if !options.second {
        return kalebasin_rig::proved::CALLS;
    }
    let _ = options;
    second::CALLS
}

/// Success, or the status of a refusal.
pub fn status(good: bool) -> Outcome {
    Ok(if good { ExitCode::SUCCESS } else { ExitCode::from(REFUSED) })
}

fn print(text: impl AsRef<[u8]>, out: &mut dyn Write) -> Outcome {
    out.write_all(text.as_ref())?;
    status(true)
}

/// A list with the memory that is asked for.
fn case(options: &Options, list: EventList) -> Case {
    let store_rows = options.store_rows.unwrap_or(REHEARSAL_STORE_ROWS);
    clean_case(list, store_rows, options.table_rows.unwrap_or(REHEARSAL_TABLE_ROWS))
}

/// What play leaves of a case that it takes.
pub fn play(options: &Options, case: &Case) -> Result<Left, Stop> {
    let bytes = case.list.to_bytes();
    let left = compare::play(&calls(options), &bytes, &case.lent);
    match left.result {
        Ok(_) => Ok(left),
        Err(refusal) => Err(list_refused(refusal, &bytes, options)),
    }
}

fn run_list(options: &Options, out: &mut dyn Write) -> Outcome {
    let case = case(options, list(options)?);
    let left = play(options, &case)?;
    let (n, name, slot) = (case.list.n, calls(options).name, options.slot);
    let as_the_model = if options.json {
        print_json(&traced(options, &case, &left)?, slot, out)? && sum_otherwise(&case, &left)?.is_none()
    } else {
        let alone = slot.map_or(String::new(), |slot| format!(", slot {slot} alone"));
        writeln!(out, "{n} members, {}, on {name}{alone}\n", rows_in_words(&case).join(", "))?;
        explain_run(&case, &left, slot, out)?
    };
    let trees = trees(&case, &left, slot);
    write_file(options.dot.as_deref(), || Ok(draw::dot_of(&trees)))?;
    write_file(options.svg.as_deref(), || Ok(draw::svg_of(&trees)))?;
    write_file(options.html.as_deref(), || Ok(page::page(name, &shown(options, &case, &left)?)))?;
    status(as_the_model)
}

/// The rows of the store, and those of the tables of the slots that events are of.
pub fn rows_in_words(case: &Case) -> [String; 2] {
    let (store_rows, table_rows) = case.lent.whole_rows();
    let slots = slots_of(&case.list);
    let rows: Vec<usize> = slots.iter().map(|slot| table_rows[slot.0 as usize]).collect();
    let tables = match rows[..] {
        [rows] => format!("{rows} table rows"),
        [first, ..] if rows.iter().all(|rows| *rows == first) => format!("{first} table rows in each slot"),
        _ => {
            let each = slots.iter().zip(&rows).map(|(slot, rows)| format!("{rows} in slot {slot}"));
            format!("table rows {}", each.collect::<Vec<_>>().join(", "))
        }
    };
    [format!("{store_rows} store rows"), tables]
}

/// The tables of the slots that events are of, or of one slot alone.
fn trees<'a>(case: &Case, left: &'a Left, slot: Option<Slot>) -> Vec<(Slot, &'a [u64])> {
    let slots = slot.map_or_else(|| slots_of(&case.list), |slot| vec![slot]);
    slots.into_iter().map(|slot| (slot, left.table(slot))).collect()
}

/// What happened at each event of a case that was played.
fn traced(options: &Options, case: &Case, left: &Left) -> Result<Trace, Refusal> {
    let (store_rows, table_rows) = case.lent.whole_rows();
    trace(&calls(options), &case.list, left.answers(), store_rows, table_rows)
}

/// The same, of one slot alone if that is asked for.
fn shown(options: &Options, case: &Case, left: &Left) -> Result<Trace, Refusal> {
    let trace = traced(options, case, left)?;
    Ok(match options.slot {
        Some(slot) => trace.alone(slot),
        None => trace,
    })
}

/// Whether an event is to be shown: all are, or those of one slot.
fn is_shown(event: &Event, slot: Option<Slot>) -> bool {
    slot.is_none_or(|slot| event.slot() == slot)
}

/// An object for each event that is to be shown or isn't as in the model; whether all answers, and all counts of rounds made GHOST,
/// are those of the model.
fn print_json(trace: &Trace, slot: Option<Slot>, out: &mut dyn Write) -> Result<bool, Stop> {
    for one in trace.events.iter().filter(|one| is_shown(&one.event, slot) || !one.as_the_model()) {
        writeln!(out, "{}", json::event(one))?;
    }
    Ok(trace.events.iter().all(Happened::as_the_model))
}

/// Each event in words, the counts and the trees, of one slot alone if that is asked for; whether all answers, and the count of
/// rounds made GHOST, are those of the model.
pub fn explain_run(case: &Case, left: &Left, slot: Option<Slot>, out: &mut dyn Write) -> Result<bool, Stop> {
    let answers = print_events(case, left.answers(), slot, out)?;
    let counts = print_counts(case, left, slot, out)?;
    write!(out, "\n{}", draw::text_of(&trees(case, left, slot)))?;
    Ok(answers && counts)
}

/// One line for each event that is to be shown or has another answer than the model's; whether none has.
fn print_events(case: &Case, answers: &[u8], slot: Option<Slot>, out: &mut dyn Write) -> Result<bool, Stop> {
    let (store_rows, table_rows) = case.lent.whole_rows();
    let explained = explain::explain(&case.list, store_rows, table_rows)?;
    let lines = explained.into_iter().zip(answers).enumerate().map(|(place, (explained, answer))| {
        let number = u32::from(*answer);
        let otherwise = (number != explained.answer).then(|| format!("THE MODEL ANSWERS {}", explained.answer));
        Line { place, explained, number, otherwise }
    });
    let events = lines.zip(&case.list.events);
    let shown = events.filter(|(line, event)| is_shown(event, slot) || line.otherwise.is_some());
    print_lines(&shown.map(|(line, _)| line).collect::<Vec<_>>(), out)
}

/// An event or a call as it is printed.
pub struct Line {
    /// Its place in the list.
    pub place: usize,
    pub explained: Explained,
    /// The number given.
    pub number: u32,
    /// What should be otherwise.
    pub otherwise: Option<String>,
}

/// The lines, each with its place; whether nothing should be otherwise.
pub fn print_lines(lines: &[Line], out: &mut dyn Write) -> Result<bool, Stop> {
    let width = lines.iter().map(|line| line.explained.notation.len()).max().unwrap_or(0);
    for Line { place, explained, number, otherwise } in lines {
        writeln!(out, "{place:>4}  {:<width$}  {number:>2}  {}", explained.notation, explained.words)?;
        if let Some(otherwise) = otherwise {
            writeln!(out, "      {otherwise}")?;
        }
    }
    Ok(lines.iter().all(|line| line.otherwise.is_none()))
}

/// The counts, which are over all slots, and a line where the model makes more or fewer rounds GHOST; whether it doesn't.
fn print_counts(case: &Case, left: &Left, slot: Option<Slot>, out: &mut dyn Write) -> Result<bool, Stop> {
    let played = left.result?;
    writeln!(
        out,
        "\n{} of {} accepted, {}, {}, {}, {} made GHOST{}",
        played.accepted,
        count(case.list.events.len(), "event"),
        count(played.messages as usize, "message"),
        count(played.proposals as usize, "proposal"),
        count(played.decisions as usize, "decision"),
        count(played.ghosts as usize, "round"),
        if slot.is_some() { ", in all slots" } else { "" }
    )?;
    let otherwise = sum_otherwise(case, left)?;
    if let Some(otherwise) = &otherwise {
        writeln!(out, "THE MODEL {otherwise}")?;
    }
    Ok(otherwise.is_none())
}

/// What the model does otherwise than play's sum of rounds made GHOST.
fn sum_otherwise(case: &Case, left: &Left) -> Result<Option<String>, Refusal> {
    let (store_rows, table_rows) = case.lent.whole_rows();
    explain::ghosts_otherwise(&case.list, left.result?.ghosts, store_rows, table_rows)
}

/// `1 event` or `3 events`.
pub fn count(number: usize, what: &str) -> String {
    format!("{number} {what}{}", if number == 1 { "" } else { "s" })
}

/// Writes a file, if one is asked for.
pub fn write_file(file: Option<&OsStr>, text: impl Fn() -> Result<String, Refusal>) -> Result<(), Stop> {
    match file {
        Some(file) => fs::write(file, text()?).map_err(|error| Stop::file(Path::new(file).display(), &error)),
        None => Ok(()),
    }
}

fn draw_list(options: &Options, out: &mut dyn Write) -> Outcome {
    let draw: fn(&Options, &Case, &Left) -> Result<String, Refusal> = match options.format.as_str() {
        "text" => |options, case, left| Ok(draw::text_of(&trees(case, left, options.slot))),
        "dot" => |options, case, left| Ok(draw::dot_of(&trees(case, left, options.slot))),
        "svg" => |options, case, left| Ok(draw::svg_of(&trees(case, left, options.slot))),
        "timeline" => |options, case, left| Ok(timeline(&shown(options, case, left)?)),
        other => return Err(format!("--format takes text, dot, svg or timeline, not {other}").into()),
    };
    let case = case(options, list(options)?);
    let left = play(options, &case)?;
    print(draw(options, &case, &left)?, out)
}

/// Writes the bytes of any list, and then tells of one that play refuses.
fn encode(options: &Options, out: &mut dyn Write) -> Outcome {
    let list = list_in_notation(options)?;
    let bytes = list.to_bytes();
    if options.hex {
        bytes.iter().try_for_each(|byte| write!(out, "{byte:02x}"))?;
        writeln!(out)?;
    } else {
        out.write_all(&bytes)?;
    }
    judge(&list, options)?;
    status(true)
}

/// Writes any list that has the right shape, and then tells of one that play refuses.
fn decode(options: &Options, out: &mut dyn Write) -> Outcome {
    let list = list_of(&list_bytes(options)?, options)?;
    writeln!(out, "{list}")?;
    judge(&list, options)?;
    status(true)
}

/// What the rehearsal program prints: of a refused list the number, which is then told as every command tells it.
fn rehearse(options: &Options, out: &mut dyn Write) -> Outcome {
    let bytes = list_bytes(options)?;
    let (printed, result) = rehearsal::output(&calls(options), &bytes);
    print(printed, out)?;
    result.map_err(|refusal| list_refused(refusal, &bytes, options))?;
    status(true)
}

fn message(options: &Options, out: &mut dyn Write) -> Outcome {
    match (calls(options).read_message)(&message_bytes(options)?) {
        Ok(message) => print(format!("{message}\n"), out),
        Err(refusal) => Err(Stop::refused("message", refusal, None::<&str>)),
    }
}

fn causes(out: &mut dyn Write) -> Outcome {
    for refusal in Refusal::ALL {
        writeln!(out, "{:>2}  {}", refusal.number(), refusal.cause())?;
    }
    status(true)
}
