//! The commands that try many lists: search and compare.

use crate::commands::{calls, explain_run, play, rows_in_words, status, Outcome};
use crate::input::list;
use crate::options::{meant, Options};
use crate::progress::Reporter;
use crate::stop::Stop;
use kalebasin::{notation, EventList, STORE_ROWS};
use kalebasin_rig::generate::Case;
use kalebasin_rig::rehearsal::REHEARSAL_TABLE_ROWS;
use kalebasin_rig::search::{clean_case, few_events, Found, Property, Search, Source, ALWAYS, SOMETIMES};
use kalebasin_rig::second::member::size_allowed;
use std::io::Write;
use std::thread::available_parallelism;

/// Tries lists for a property that fails.
pub fn search(options: &Options, out: &mut dyn Write) -> Outcome {
    if options.properties.iter().any(|name| name == "list") {
        return list_properties(out);
    }
    let calls = calls(options);
    let properties = properties(&options.properties)?;
    let search = Search { calls: &calls, properties, seed: options.seed, source: source(options)? };
    let Some(lists) = search.source.lists() else {
        return Err("there are more such lists than can be counted; --all takes a smaller LENGTH".into());
    };
    let mut reporter = Reporter::new(lists);
    let found = search.run(available_parallelism().map_or(1, Into::into), &mut |progress| reporter.tell(progress));
    reporter.end();
    match found {
        Some(found) => show(options, &search.source, &found, out),
        None => {
            writeln!(out, "No property fails on {lists} lists {}.", origin(options, &search.source))?;
            status(true)
        }
    }
}

/// Where the lists come from, for people.
fn origin(options: &Options, source: &Source) -> String {
    match source {
        Source::Random { .. } | Source::Orders { .. } => format!("with seed {}", options.seed),
        Source::All { of, longest } => format!("of up to {longest} events, each one of {}", of.list.events.len()),
    }
}

/// The lists to try.
fn source(options: &Options) -> Result<Source, Stop> {
    let given = options.file.is_some() || options.text.is_some();
    match options.all {
        Some(longest) => {
            let events =
                if given { list(options)? } else { few_events(members(options)?.unwrap_or(notation::MEMBERS))? };
            let of = case(options, events, longest);
            play(options, &of)?;
            Ok(Source::All { of, longest })
        }
        None if given => {
            let list = list(options)?;
            let events = list.events.len();
            let of = case(options, list, events);
            play(options, &of)?;
            Ok(Source::Orders { lists: options.lists, of })
        }
        None => Ok(Source::Random { lists: options.lists, members: members(options)? }),
    }
}

fn members(options: &Options) -> Result<Option<u32>, Stop> {
    match options.members {
        Some(n) if !size_allowed(n) => Err("--members takes 3, 5 or 7".into()),
        members => Ok(members),
    }
}

/// The list with memory for so many events, if no other is asked for.
fn case(options: &Options, list: EventList, events: usize) -> Case {
    let store_rows = options.store_rows.unwrap_or(events.clamp(1, STORE_ROWS));
    clean_case(list, store_rows, options.table_rows.unwrap_or(REHEARSAL_TABLE_ROWS))
}

fn properties(names: &[String]) -> Result<Vec<&'static Property>, Stop> {
    if names.is_empty() {
        return Ok(ALWAYS.iter().collect());
    }
    let all = || ALWAYS.iter().chain(SOMETIMES);
    let find = |name: &String| {
        all().find(|property| property.name == name).ok_or_else(|| {
            let meant = meant(name, all().map(|property| property.name));
            let name = if name.is_empty() { "''" } else { name };
            format!("there is no property {name}{meant}; see --property list").into()
        })
    };
    names.iter().map(find).collect()
}

fn list_properties(out: &mut dyn Write) -> Outcome {
    writeln!(out, "Of every run; these are tried if none is named:")?;
    for property in ALWAYS {
        writeln!(out, "  {:<17} {}", property.name, property.about)?;
    }
    writeln!(out, "Of some runs; a search finds a short list where it fails:")?;
    for property in SOMETIMES {
        writeln!(out, "  {:<17} {}", property.name, property.about)?;
    }
    status(true)
}

/// The list found, explained as a run is.
fn show(options: &Options, source: &Source, found: &Found, out: &mut dyn Write) -> Outcome {
    writeln!(out, "The property {} fails: {}.", found.property.name, found.how)?;
    writeln!(out, "The shortest list found, {}:", origin(options, source))?;
    writeln!(out, "{}", found.case.list)?;
    writeln!(out, "with {}\n", rows_in_words(&found.case).join(" and "))?;
    explain_run(&found.case, &play(options, &found.case)?, None, out)?;
    status(false)
}

/// Compares the core with the second implementation.
#[cfg(not(feature = "core"))]
pub fn compare(_: &Options, _: &mut dyn Write) -> Outcome {
    Err("compare needs the proved core, and this program was built without it".into())
}

/// Compares the core with the second implementation: whole or its random parts, with as many random lists as asked for.
#[cfg(feature = "core")]
pub fn compare(options: &Options, out: &mut dyn Write) -> Outcome {
    use kalebasin_rig::search::Progress;
    use kalebasin_rig::suite::{self, Compared, Pair};
    type Part = fn(Pair) -> Compared;
    let pair: Pair = [&kalebasin_rig::proved::CALLS, &kalebasin_rig::second::CALLS];
    let every: [(&str, Part); 11] = [
        ("every list of up to four events", suite::short_lists),
        ("every list of up to four events in three slots", suite::slot_lists),
        ("every three events after each part of the rehearsal", suite::rehearsal_tails),
        ("every two events in two slots after each part of the rehearsal", suite::slot_tails),
        ("every damaged byte of some lists", suite::damaged_lists),
        ("every small byte string as a list", suite::small_list_bytes),
        ("every small message and every damaged byte", suite::messages),
        ("every small message delivered to a member", suite::delivered_messages),
        ("messages written", suite::written_messages),
        ("every small record of a member", suite::small_records),
        ("every small table", suite::small_tables),
    ];
    for (what, part) in every.iter().filter(|_| !options.random) {
        if !same(what, part(pair), out)? {
            return status(false);
        }
    }
    let lists = options.lists as usize;
    let trees = suite::random_trees(pair, options.seed, lists / 5);
    if !same("random trees", trees, out)? {
        return status(false);
    }
    // fewer members than these may leave a number out, which is taken for a fault of the comparison
    let members = suite::random_members(pair, options.seed, (lists / 5).max(2_000));
    if !same("random members", members, out)? {
        return status(false);
    }
    let mut reporter = Reporter::new(options.lists);
    let mut tell = |lists: usize| reporter.tell(&Progress { lists: lists as u64, ..Progress::default() });
    let compared = suite::random_lists(pair, options.seed, lists, &mut tell);
    reporter.end();
    status(same("random lists", compared, out)?)
}

/// Says how a part of the comparison went; whether there was no difference.
#[cfg(feature = "core")]
fn same(what: &str, compared: kalebasin_rig::suite::Compared, out: &mut dyn Write) -> Result<bool, Stop> {
    match &compared {
        Ok(calls) => writeln!(out, "{what}: {calls} calls, no difference")?,
        Err(report) => writeln!(out, "{what}: {report}")?,
    }
    Ok(compared.is_ok())
}
