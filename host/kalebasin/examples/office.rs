//! A program to start a host from: an office of three. In slot 0 member 2 takes over member 1's value, and member 0 takes over none,
//! which makes both their rounds GHOST. In slot 3 a value is decided meanwhile.
//!
//! Run it with `cargo run --release --example office`.

use kalebasin::{made_ghost, nodes, read_message, sent};
use kalebasin::{Event, EventList, Member, MessageNumber, Played, Refusal, Round, Slot, Tables, ValueTree};
use kalebasin::{SLOTS, STORE_ROW};
use std::error::Error;
use std::io::{self, Write};
use std::process::ExitCode;

fn main() -> ExitCode {
    match office(&mut io::stdout().lock()) {
        Ok(()) => ExitCode::SUCCESS,
        Err(error) => {
            // `println!` and `eprintln!` would panic where nobody reads.
            let _ = writeln!(io::stderr(), "office: {error}");
            ExitCode::from(2)
        }
    }
}

fn office(out: &mut dyn Write) -> Result<(), Box<dyn Error>> {
    // What happened in slot 0 of the office. Messages count from 0 in the order they are sent, in whatever slot.
    let mut list = EventList::new(3);
    list.start(Member(1), Round(1), 70)
        .deliver(MessageNumber(0), Member(0)) // START to 0, which joins
        .deliver(MessageNumber(0), Member(1)) // START to 1, which joins
        .deliver(MessageNumber(1), Member(1)) // both JOINs to the leader,
        .deliver(MessageNumber(2), Member(1)) // which proposes 70
        .deliver(MessageNumber(3), Member(0)) // PROPOSE to 0, which votes
        .start(Member(2), Round(2), 80)
        .deliver(MessageNumber(5), Member(0)) // START of round 2 to 0, whose JOIN tells its vote
        .deliver(MessageNumber(5), Member(2))
        .deliver(MessageNumber(6), Member(2))
        .deliver(MessageNumber(7), Member(2)) // round 2 proposes 70, not 80
        .start(Member(0), Round(3), 90)
        .deliver(MessageNumber(9), Member(1)) // START of round 3 to 1 and 2, which never voted
        .deliver(MessageNumber(9), Member(2))
        .deliver(MessageNumber(10), Member(0))
        .deliver(MessageNumber(11), Member(0)); // round 3 proposes 90: rounds 1 and 2 can't be decided any more

    // And in slot 3, where round 1 is another than that of slot 0.
    list.events.push(Event::start(Member(1), Round(1), 60).in_slot(Slot(3)));
    for (message, member) in [(13, 0), (13, 1), (14, 1), (15, 1), (16, 0), (16, 1), (17, 1), (18, 1)] {
        list.events.push(Event::deliver(MessageNumber(message), Member(member)).in_slot(Slot(3)));
    }
    list.deliver(MessageNumber(18), Member(1)); // a VOTE of slot 3 isn't for members of slot 0

    // The memory that play works in: 64 rows for each slot. What it holds before doesn't matter.
    let mut store = [0; 100 * STORE_ROW];
    let mut tables = Tables::new([64; SLOTS]);
    let mut answers = [0; EventList::MOST];
    let played = tables.play(&list.to_bytes(), &mut store, &mut answers)?;

    writeln!(out, "Answers")?;
    for (event, answer) in list.events.iter().zip(answers) {
        match Refusal::from_number(answer.into()) {
            None => writeln!(out, "  {event}: OK")?,
            Some(refusal) => writeln!(out, "  {event}: {refusal}")?,
        }
    }

    writeln!(out, "Messages")?;
    for (number, bytes) in sent(&store, played.messages).enumerate() {
        writeln!(out, "  {number}: {}", read_message(bytes)?)?;
    }

    for slot in [Slot(0), Slot(3)] {
        writeln!(out, "Tree of slot {slot}")?;
        for node in nodes(tables.slot(slot)) {
            writeln!(out, "  round {}, parent {}, value {}, {}", node.round, node.parent, node.value, node.status)?;
        }
    }

    // The proposals of slot 0 once more, on a tree of our own: each add says how many rounds it makes GHOST, a copy from before it which.
    writeln!(out, "Made GHOST")?;
    let table = tables.slot(Slot(0));
    let mut tree = ValueTree::fresh(vec![0; table.len()])?;
    for node in nodes(table).skip(1) {
        let before = tree.clone();
        let ghosts = tree.add(node.round, node.value, node.parent)?;
        if ghosts > 0 {
            let rounds: Vec<String> = made_ghost(before.table(), tree.table()).map(|round| round.to_string()).collect();
            writeln!(out, "  {ghosts} by round {}: {}", node.round, rounds.join(", "))?;
        }
    }

    let Played { proposals, decisions, ghosts, .. } = played;
    writeln!(out, "{proposals} proposals, {decisions} decisions, {ghosts} rounds made GHOST")?;
    Ok(())
}
