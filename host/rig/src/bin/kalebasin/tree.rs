//! The command that makes tree calls.

use crate::commands::{calls, count, print_lines, status, write_file, Line, Outcome};
use crate::input::tree_calls;
use crate::options::Options;
use crate::stop::Stop;
use kalebasin::{nodes, Status};
use kalebasin_rig::draw;
use kalebasin_rig::explain_tree::{explain, Called};
use kalebasin_rig::rehearsal::REHEARSAL_TABLE_ROWS;
use std::io::Write;

/// Makes the calls on a fresh table: each in words, the counts, what each preview shows and the tree.
pub fn tree(options: &Options, out: &mut dyn Write) -> Outcome {
    let list = tree_calls(options)?;
    let (calls, rows) = (calls(options), options.table_rows.unwrap_or(REHEARSAL_TABLE_ROWS));
    let (called, table) = explain(&calls, &list, rows)?;
    writeln!(out, "{} tree, {}, on {}\n", list.kind, count(rows, "table row"), calls.name)?;
    let accepted = called.iter().filter(|one| one.answer == 0).count();
    let ghosts = called.iter().map(|one| one.ghosts).sum();
    let lines: Vec<Line> = called.iter().enumerate().map(|(place, one)| line(place, one)).collect();
    let as_the_second = print_lines(&lines, out)?;
    print_counts(accepted, called.len(), ghosts, &table, out)?;
    for (at, one) in called.iter().enumerate() {
        if let Some([before, after]) = &one.previewed {
            write!(out, "\n{at:>4}  {}\n{}", one.explained.notation, draw::text_beside(before, after))?;
        }
    }
    write!(out, "\n{}", draw::text(&table))?;
    let shown = called.last().and_then(|last| last.previewed.as_ref());
    let drawn = |alone: fn(&[u64]) -> String, beside: fn(&[u64], &[u64]) -> String| match shown {
        Some([before, after]) => beside(before, after),
        None => alone(&table),
    };
    write_file(options.dot.as_deref(), || Ok(drawn(draw::dot, draw::dot_beside)))?;
    write_file(options.svg.as_deref(), || Ok(drawn(draw::svg, draw::svg_beside)))?;
    status(as_the_second)
}

fn line(place: usize, called: &Called) -> Line {
    let otherwise = called.difference.as_ref().map(|difference| format!("THE SECOND IMPLEMENTATION {difference}"));
    Line { place, explained: called.explained.clone(), number: called.answer, otherwise }
}

/// How many calls were accepted, how many rounds their adds made GHOST, and how many nodes beside the root have each status.
fn print_counts(accepted: usize, calls: usize, ghosts: usize, table: &[u64], out: &mut dyn Write) -> Result<(), Stop> {
    let of = |status: Status| nodes(table).skip(1).filter(|node| node.status == status).count();
    writeln!(
        out,
        "\n{accepted} of {} accepted, {} made GHOST, {} beside the root: {} ADDED, {} GHOST, {} COMMITTED",
        count(calls, "call"),
        count(ghosts, "round"),
        count(nodes(table).skip(1).count(), "node"),
        of(Status::Added),
        of(Status::Ghost),
        of(Status::Committed)
    )?;
    Ok(())
}
