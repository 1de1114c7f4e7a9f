//! The rig's tool from the outside, its notation and its drawings. What plays a list is tried on each implementation.

// Some of it is for the tests of timelines alone.
#[allow(dead_code)]
mod svg;

use kalebasin::notation::{parse, parse_tree};
use kalebasin::{nodes, Event, EventList, Node, Played, Refusal, Round, Slot, Status, TreeKind, SLOTS, TABLE_ROW};
use kalebasin_rig::compare::{play, Lent};
use kalebasin_rig::explain::ghosts_otherwise;
use kalebasin_rig::explain_tree::explain;
use kalebasin_rig::random::Random;
use kalebasin_rig::second::model::Made;
use kalebasin_rig::second::tree::preview;
use kalebasin_rig::suite::{LOST_JOIN, MADE_GHOST, REHEARSAL};
use kalebasin_rig::trace::trace;
use kalebasin_rig::{draw, generate, json, second, Calls};
use std::ffi::OsStr;
use std::io::{BufRead, BufReader, Write};
use std::os::unix::ffi::OsStrExt;
use std::process::{Command, Stdio};
use svg::{elements, Element};

/// An implementation: the option that chooses it, if one is needed, and its name.
struct On(Option<&'static str>, &'static str);

const SECOND: On = On(Some("--second"), "the second implementation");

/// The implementations that there are, the core first: it is the one that the tool takes by itself.
const IMPLEMENTATIONS: &[On] = &[
    #[cfg(feature = "core")]
    On(None, "the proved core"),
    SECOND,
];

fn command(on: &On, args: &[&str]) -> Command {
    let mut command = Command::new(env!("CARGO_BIN_EXE_kalebasin"));
    command.args(on.0).args(args).stdin(Stdio::piped()).stdout(Stdio::piped()).stderr(Stdio::piped());
    command
}

/// Status, standard output and standard error of the tool on an implementation.
fn tool_on(on: &On, args: &[&str], input: &[u8]) -> (i32, String, String) {
    let mut child = command(on, args).spawn().unwrap();
    let _ = child.stdin.take().unwrap().write_all(input);
    let output = child.wait_with_output().unwrap();
    let text = |bytes| String::from_utf8(bytes).unwrap();
    (output.status.code().unwrap(), text(output.stdout), text(output.stderr))
}

/// The same where the implementation doesn't matter.
fn tool(args: &[&str], input: &[u8]) -> (i32, String, String) {
    tool_on(&On(None, ""), args, input)
}

/// Every command, with arguments that it takes.
const COMMANDS: &[&[&str]] = &[
    &["run", "-e", REHEARSAL],
    &["draw", "-e", REHEARSAL],
    &["encode", "-e", REHEARSAL],
    &["decode", "--hex", "-"],
    &["rehearse", "--hex", "-"],
    &["message", "00000000000000040000000900000002"],
    &["tree", "-e", "add(1,70,0)"],
    &["search", "--lists", "3"],
    #[cfg(feature = "core")]
    &["compare", "--random", "--lists", "5"],
    &["causes"],
];

#[test]
fn mistakes_have_line_and_column() {
    let cases = [
        ("n 3", 1, 3, "= is missing after n"),
        ("n=", 1, 3, "a number of members is missing here"),
        ("n=3 x(1)", 1, 5, "an event starts with s( or d(, or with its slot as in 3:d(, not with 'x'"),
        ("n=3 3 d(0,0)", 1, 7, ": is missing after the slot number"),
        ("n=3\n3:x(1)", 2, 3, "s( or d( is missing after 3:"),
        ("4294967296:d(0,0)", 1, 1, "the slot number 4294967296 doesn't fit into 32 bits"),
        ("n=3 s(1,1,70) n=3", 1, 15, "n= stands once, in front of the events"),
        ("n=3\n\n  s[1,1,70)", 3, 4, "( is missing after s"),
        ("n=3 s(1,1,70", 1, 13, ") is missing after the offer"),
        ("n=3 s(1,1)", 1, 10, ", is missing after the round number"),
        ("n=3 s(1,1,)", 1, 11, "an offer is missing here"),
        ("n=3 d(-1,0)", 1, 7, "a message number is missing here"),
        ("n=3 # ö d(\nd(0,0,0)", 2, 6, ") is missing after the member number"),
        ("n=3 d(4294967296,0)", 1, 7, "the message number 4294967296 doesn't fit into 32 bits"),
        ("n=3 s(1,1,18446744073709551616)", 1, 11, "the offer 18446744073709551616 doesn't fit into 64 bits"),
    ];
    for (text, line, column, what) in cases {
        let mistake = parse(text, None).unwrap_err();
        assert_eq!((mistake.line, mistake.column, mistake.what.as_str()), (line, column, what), "{text}");
    }
    assert_eq!(parse("n=3", Some(5)).unwrap_err().to_string(), "line 1, column 1: n=3, but 5 members were asked for");
    let (status, _, error) = tool(&["run"], b"n=3 s(1,1,70)\n  d(0;0)");
    assert_eq!(
        (status, error.as_str()),
        (2, "kalebasin: standard input: line 2, column 6: , is missing after the message number\n")
    );
}

#[test]
fn mistakes_in_tree_calls_have_line_and_column() {
    let cases = [
        ("kind command", 1, 6, "= is missing after kind"),
        ("kind=", 1, 6, "the kind is value or command"),
        (" kind= commands", 1, 8, "the kind is value or command"),
        ("kind=value kind=value", 1, 12, "kind= stands once, in front of the calls"),
        ("add(1,70,0) kind=command", 1, 13, "kind= stands once, in front of the calls"),
        ("adds(1,70,0)", 1, 1, "a call starts with add(, preview(, commit(, path( or fresh, not with \"adds\""),
        ("fresh fréch", 1, 7, "a call starts with add(, preview(, commit(, path( or fresh, not with \"fr\""),
        ("# \n (1)", 2, 2, "a call starts with add(, preview(, commit(, path( or fresh, not with \"(\""),
        ("fresh é", 1, 7, "a call starts with add(, preview(, commit(, path( or fresh, not with \"é\""),
        ("freshfresh", 1, 1, "a call starts with add(, preview(, commit(, path( or fresh, not with \"freshfresh\""),
        ("fresh()", 1, 6, "a call starts with add(, preview(, commit(, path( or fresh, not with \"(\""),
        ("add 1", 1, 5, "( is missing after add"),
        ("add(,70,0)", 1, 5, "a round number is missing here"),
        ("add(1)", 1, 6, ", is missing after the round number"),
        ("add(1,-1,0)", 1, 7, "a value is missing here"),
        ("add(1,70)", 1, 9, ", is missing after the value"),
        ("add(1,70,)", 1, 10, "a parent is missing here"),
        ("add(1,70,0,0)", 1, 11, ") is missing after the parent"),
        ("previews(1,70,0)", 1, 1, "a call starts with add(, preview(, commit(, path( or fresh, not with \"previews\""),
        ("preview 1", 1, 9, "( is missing after preview"),
        ("preview()", 1, 9, "a round number is missing here"),
        ("preview(1)", 1, 10, ", is missing after the round number"),
        ("preview(1,,0)", 1, 11, "a value is missing here"),
        ("preview(1,70)", 1, 13, ", is missing after the value"),
        ("preview(1,70,-1)", 1, 14, "a parent is missing here"),
        ("preview(1,70,0", 1, 15, ") is missing after the parent"),
        ("preview(4294967296,70,0)", 1, 9, "the round number 4294967296 doesn't fit into 32 bits"),
        ("preview(1,18446744073709551616,0)", 1, 11, "the value 18446744073709551616 doesn't fit into 64 bits"),
        ("preview(1,70,4294967296)", 1, 14, "the parent 4294967296 doesn't fit into 32 bits"),
        ("commit", 1, 7, "( is missing after commit"),
        ("path[1)", 1, 5, "( is missing after path"),
        ("path(1,2)", 1, 7, ") is missing after the round number"),
        ("commit(4294967296)", 1, 8, "the round number 4294967296 doesn't fit into 32 bits"),
        ("add(1,70,4294967296)", 1, 10, "the parent 4294967296 doesn't fit into 32 bits"),
        ("add(1,18446744073709551616,0)", 1, 7, "the value 18446744073709551616 doesn't fit into 64 bits"),
    ];
    for (text, line, column, what) in cases {
        let mistake = parse_tree(text, None).unwrap_err();
        assert_eq!((mistake.line, mistake.column, mistake.what.as_str()), (line, column, what), "{text}");
    }
    let error = "kalebasin: standard input: line 2, column 8: , is missing after the round number\n";
    assert_eq!(tool(&["tree"], b"kind=value\n  add(1;70,0)"), (2, String::new(), error.into()));
    is_mistake(&["tree", "-e", "s(1,1,70)"], b"", "-e: line 1, column 1: a call starts with add(, preview(, commit(");
    is_mistake(&["tree", "-e", "00000003"], b"", "path( or fresh, not with \"0\"\n");
    is_mistake(&["tree", "-"], &[0, 0, 0, 3], "standard input: these are bytes, not notation\n");
}

/// Where nothing says the kind, a tree is one of values.
#[test]
fn kinds_of_a_tree() {
    let kind = |text: &str, kind| parse_tree(text, kind).map(|list| list.kind);
    let (value, command) = (TreeKind::Value, TreeKind::Command);
    assert_eq!([kind("fresh", None), kind("", None), kind("kind=value", None)], [Ok(value), Ok(value), Ok(value)]);
    assert_eq!([kind("fresh", Some(command)), kind("kind = command", Some(command))], [Ok(command), Ok(command)]);
    for (one, other) in [(value, command), (command, value)] {
        let words = format!("line 1, column 2: kind={one}, but a {other} tree was asked for");
        assert_eq!(kind(&format!(" kind={one} fresh"), Some(other)).unwrap_err().to_string(), words);
        is_mistake(&["tree", "--kind", &other.to_string(), "-e", &format!(" kind={one}")], b"", &words);
    }
    for on in IMPLEMENTATIONS {
        let first_line = |args: &[&str]| tool_on(on, args, b"").1.lines().next().unwrap().to_string();
        let of = |kind, rows| format!("{kind} tree, {rows} table rows, on {}", on.1);
        assert_eq!(first_line(&["tree", "-e", "fresh"]), of(value, 64));
        assert_eq!(first_line(&["tree", "--kind", "command", "-e", "fresh"]), of(command, 64));
        assert_eq!(first_line(&["tree", "--table-rows", "5", "-e", "kind=command"]), of(command, 5));
    }
}

#[test]
fn notation_and_bytes_and_back() {
    let list = parse(REHEARSAL, None).unwrap();
    assert_eq!(list.to_string(), REHEARSAL);
    assert_eq!(EventList::from_bytes(&list.to_bytes()), Ok(list.clone()));
    assert_eq!(EventList::from_bytes(&list.to_bytes()[1..]), Err(Refusal::ListShape));
    let largest =
        "n=4294967295 4294967295:s(4294967295,4294967295,18446744073709551615) 4294967295:d(4294967295,4294967295)";
    assert_eq!(parse(largest, None).unwrap().to_string(), largest);
    for (text, start, delivery) in
        [("s(1,1,70) d(0,0)", "00000000", "00000000"), ("7:s(1,1,70) 8:d(0,0)", "00000007", "00000008")]
    {
        let (status, hex, _) = tool(&["encode", "--hex", "-e", text], b"");
        let start = format!("00000001{start}00000001000000010000000000000046");
        let delivery = format!("00000002{delivery}0000000000000000");
        assert_eq!((status, hex.trim()), (0, format!("0000000300000002{start}{delivery}").as_str()));
        assert_eq!(tool(&["decode", "--hex"], hex.as_bytes()).1, format!("n=3 {text}\n"));
    }
    assert_eq!(tool(&["encode", "-e", "0:d(0,0)"], b""), tool(&["encode", "-e", "d(0,0)"], b""));
}

/// Where nothing says how many, an office has three members.
#[test]
fn members_of_a_list() {
    let members = |text, members| parse(text, members).map(|list| list.n);
    assert_eq!([members("s(1,1,70) d(0,0)", None), members("", None), members(" # none", None)], [Ok(3), Ok(3), Ok(3)]);
    assert_eq!([members("s(1,1,70)", Some(7)), members("n=5", Some(5)), members("n=5", None)], [Ok(7), Ok(5), Ok(5)]);
    for on in IMPLEMENTATIONS {
        let first_line = |args: &[&str]| tool_on(on, args, b"").1.lines().next().unwrap().to_string();
        let with = |members| format!("{members} members, 1000 store rows, 64 table rows, on {}", on.1);
        assert_eq!(first_line(&["run", "-e", "s(1,1,70) d(0,0)"]), with(3));
        assert_eq!(first_line(&["run", "--members", "5", "-e", "s(1,1,70) d(0,0)"]), with(5));
    }
}

#[test]
fn rehearsal_from_standard_input() {
    let bytes = parse(REHEARSAL, None).unwrap().to_bytes();
    let nodes = "0 0 0 0 25 0 0 0 0 0 0 0 0 0 0\n0 0 0 3\n1 0 70 3\n2 1 70 1\n";
    let expected = nodes.to_string() + &"0 0 0 3\n".repeat(7);
    for on in IMPLEMENTATIONS {
        assert_eq!(tool_on(on, &["rehearse"], &bytes), (0, expected.clone(), String::new()));
    }
}

/// A round of each size, decided by a quorum and no more: its words say how many are counted, and which case it is.
#[test]
fn quorums_in_words() {
    for (n, needed) in [(3, 2), (5, 3), (7, 4)] {
        let to_each = |message: u32| (0..needed).map(|member| format!(" d({message},{member})")).collect::<String>();
        let to_leader = |from: u32| (from..from + needed).map(|sent| format!(" d({sent},0)")).collect::<String>();
        let propose = 1 + needed;
        let round = [to_each(0), to_leader(1), to_each(propose), to_leader(propose + 1)].concat();
        let list = format!("n={n} s(0,{n},10){round}");
        for on in IMPLEMENTATIONS {
            let (status, out, _) = tool_on(on, &["run", "-e", &list], b"");
            assert_eq!(status, 0, "{list}\n{out}");
            for (kind, ends) in [("JOIN", "it proposes 10".to_string()), ("VOTE", format!("round {n} decides 10"))] {
                for counted in 1..=needed {
                    let is_quorum = format!("; that is a quorum, {needed} of {n}: {ends}");
                    let end = if counted == needed { &is_quorum } else { "\n" };
                    let sender = counted - 1;
                    let words = format!("counts the {kind} of member {sender}, {counted} of the {needed} needed{end}");
                    assert!(out.contains(&words), "{words}\n{out}");
                }
            }
        }
    }
}

/// README's explained rehearsal: the program's own input in words, to the letter.
#[test]
fn the_rehearsal_in_words() {
    let file = concat!(env!("CARGO_MANIFEST_DIR"), "/../../crates/rehearsal/stdin");
    for on in IMPLEMENTATIONS {
        let (status, out, error) = tool_on(on, &["run", "--bytes", file], b"");
        assert_eq!((status, error.as_str()), (0, ""));
        let head = format!("3 members, 1000 store rows, 64 table rows, on {}\n\n", on.1);
        assert_eq!(out, head + include_str!("rehearsal.txt"));
    }
}

#[test]
fn runs_in_words() {
    let every_refusal =
        "s(3,1,7) d(0,0) s(1,1,7) s(1,0,7) s(2,1,7) s(1,1,7) d(0,0) d(1,0) d(1,1) d(1,1) d(5,1) s(1,4,8) d(2,0) \
         d(0,0) d(2,0)";
    let full_table = "s(1,1,70) d(0,0) d(0,1) d(1,1) d(2,1)";
    for on in IMPLEMENTATIONS {
        let (status, out, _) = tool_on(on, &["run", "--store-rows", "4", "-e", every_refusal], b"");
        assert_eq!(status, 0);
        for words in [
            "the office has members 0 to 2",
            "no message was sent yet",
            "rounds run from 1 to 1,000,000",
            "member 1 leads it",
            "it led round 1 already",
            "it has joined or voted in round 4",
            "it has led no round",
            "member 0 is counted already",
            "only messages 0 to 1 were sent yet",
            "it would send, and the 4 messages sent fill the store",
        ] {
            assert!(out.contains(words), "{words}\n{out}");
        }
        let (_, out, _) = tool_on(on, &["run", "--table-rows", "1", "-e", full_table], b"");
        assert!(out.contains("it would propose, and the 0 proposals fill the table"), "{out}");
    }
}

/// What a section of docs/host-notes.md shows: the text behind `-e`, and what the tool prints for it.
fn shown_in_the_notes(heading: &str) -> (&'static str, String) {
    let notes = include_str!("../../../docs/host-notes.md");
    let (_, section) = notes.split_once(&format!("\n## {heading}\n")).unwrap();
    let (_, shown) = section.split_once(" -e '").unwrap();
    let (text, shown) = shown.split_once("'\n\n").unwrap();
    let (shown, _) = shown.split_once("\n\nThe ").unwrap();
    (text, shown.lines().map(|line| format!("{}\n", line.strip_prefix("    ").unwrap_or(line))).collect())
}

/// The list with a lost JOIN, the one of two slots, the tree calls and the preview that docs/host-notes.md shows, to the letter.
#[test]
fn the_notes_in_words() {
    let (list, _) = shown_in_the_notes("A run in words");
    assert_eq!(parse(list, None).unwrap().to_string(), LOST_JOIN);
    for (command, heading) in [
        ("run", "A run in words"),
        ("run", "Slots in words"),
        ("tree", "Tree calls in words"),
        ("tree", "A preview in words"),
    ] {
        let (text, shown) = shown_in_the_notes(heading);
        for on in IMPLEMENTATIONS {
            let shown = shown.replace("the proved core", on.1);
            assert_eq!(tool_on(on, &[command, "-e", text], b""), (0, shown.clone(), String::new()));
            assert_eq!(tool_on(on, &[command], text.as_bytes()).1, shown);
        }
    }
}

/// The list of docs/host-notes.md whose last event makes rounds GHOST, with the line of that event.
#[test]
fn the_notes_on_rounds_made_ghost() {
    let notes = include_str!("../../../docs/host-notes.md");
    let (_, section) = notes.split_once("makes GHOST, and which, as in the last event of\n\n").unwrap();
    let mut shown = section.lines().filter_map(|line| line.strip_prefix("    "));
    let (list, line) = (shown.next().unwrap(), shown.next().unwrap());
    assert!(line.contains("which makes 2 rounds GHOST: rounds 1 and 2, and sends"), "{line}");
    for on in IMPLEMENTATIONS {
        let (status, out, _) = tool_on(on, &["run", "-e", list], b"");
        assert_eq!((status, out.lines().nth(2 + 15)), (0, Some(line)), "{out}");
        assert!(out.contains(", 3 proposals, 0 decisions, 2 rounds made GHOST\n"), "{out}");
    }
}

/// A START that comes again: joined again without a vote and with one, and refused after a vote in its round and in a higher
/// round, as a PROPOSE is there.
#[test]
fn starts_that_come_again_in_words() {
    let list = "s(1,1,70) d(0,0) d(0,1) d(0,0) d(1,1) d(2,1) d(4,0) d(0,0) s(2,2,80) d(6,0) d(6,0) d(0,0) d(4,0)";
    for on in IMPLEMENTATIONS {
        let (status, out, _) = tool_on(on, &["run", "-e", list], b"");
        let lines: Vec<&str> = out.lines().skip(2).collect();
        for (at, line) in [
            (3, " 0  member 0 joins round 1 again and sends JOIN (message 3), the same as message 1; it has never voted"),
            (7, "22  member 0 doesn't take message 0, START of round 1 from member 1: it has voted in round 1 already"),
            (9, " 0  member 0 joins round 2 and sends JOIN (message 7), telling its vote for 70 in round 1"),
            (
                10,
                " 0  member 0 joins round 2 again and sends JOIN (message 8), the same as message 7, telling its vote for 70 in \
                 round 1",
            ),
            (11, "22  member 0 doesn't take message 0, START of round 1 from member 1: it has joined or voted in round 2"),
            (
                12,
                "22  member 0 doesn't take message 4, PROPOSE of round 1 from member 1 with the value 70: it has joined or \
                 voted in round 2",
            ),
        ] {
            assert!(lines[at].ends_with(line), "{line}\n{out}");
        }
        assert_eq!(status, 0);
    }
}

/// Two slots, one of them decided, with a message of the other and a slot that isn't there.
const TWO_SLOTS: &str =
    "s(1,1,70) 3:s(1,1,80) d(0,0) 3:d(1,0) 3:d(1,1) 3:d(2,1) 3:d(3,1) 3:d(4,1) 8:d(0,0) 3:d(5,0) 3:d(5,1) \
                         3:d(6,1) 3:d(7,1) s(1,1,70)";

/// The slot is named where it isn't 0; a slot alone has its own events, with their places, and its own tree.
#[test]
fn slots_in_words() {
    for on in IMPLEMENTATIONS {
        let (status, out, _) = tool_on(on, &["run", "-e", TWO_SLOTS], b"");
        assert_eq!(status, 0);
        let lines: Vec<&str> = out.lines().collect();
        assert_eq!(lines[0], format!("3 members, 1000 store rows, 64 table rows in each slot, on {}", on.1));
        for (at, line) in [
            (0, "   0  s(1,1,70)     0  member 1 starts round 1 with the offer 70 and sends START (message 0)"),
            (1, "   1  3:s(1,1,80)   0  slot 3: member 1 starts round 1 with the offer 80 and sends START (message 1)"),
            (
                5,
                "   5  3:d(2,1)     32  slot 3: member 1 doesn't take message 2, JOIN of round 1 from member 0, which \
                 never voted: the message is of slot 0",
            ),
            (
                8,
                "   8  8:d(0,0)     32  slot 8: member 0 doesn't take message 0, START of round 1 from member 1: the \
                 office has slots 0 to 7",
            ),
            (13, "  13  s(1,1,70)    20  member 1 can't start round 1: it led round 1 already"),
            (15, "11 of 14 events accepted, 8 messages, 1 proposal, 1 decision, 0 rounds made GHOST"),
        ] {
            assert_eq!(lines[2 + at], line);
        }
        let tree = "slot 3\nroot\n└─ round 1, value 80, COMMITTED\n";
        assert!(out.ends_with(&format!(" made GHOST\n\nslot 0\nroot\n\n{tree}")), "{out}");
        for (slot, places, tree) in [
            ("0", &[0, 2, 13][..], "root\n"),
            ("3", &[1, 3, 4, 5, 6, 7, 9, 10, 11, 12], tree),
            ("5", &[], "slot 5\nroot\n"),
        ] {
            let (status, alone, _) = tool_on(on, &["run", "--slot", slot, "-e", TWO_SLOTS], b"");
            let own: Vec<String> = places.iter().map(|at| without_blanks(lines[2 + at])).collect();
            let shown = alone.lines().skip(2).take_while(|line| !line.is_empty()).map(without_blanks);
            assert_eq!((status, shown.collect::<Vec<_>>()), (0, own));
            assert!(alone.starts_with(&format!("{}, slot {slot} alone\n\n", lines[0])), "{alone}");
            assert!(alone.ends_with(&format!(" made GHOST, in all slots\n\n{tree}")), "{alone}");
        }
        let (_, one, _) = tool_on(on, &["run", "-e", "5:s(1,1,70)"], b"");
        assert!(one.starts_with("3 members, 1000 store rows, 64 table rows, on "), "{one}");
        assert!(one.ends_with("\n\nslot 5\nroot\n"), "{one}");
        let (_, full, _) = tool_on(on, &["run", "--table-rows", "1", "-e", TWO_SLOTS], b"");
        assert!(full.contains("  9  slot 3: ") && full.contains("and the 0 proposals fill the table"), "{full}");
    }
}

/// The words of a text, one blank between them: how wide a column is hangs on what else is shown.
fn without_blanks(text: &str) -> String {
    text.split_whitespace().collect::<Vec<_>>().join(" ")
}

/// The trees of several slots in one picture, and that of one slot alone.
#[test]
fn drawings_of_slots() {
    let dot = "\
digraph tree {
  rankdir = BT;
  node [shape = box, style = filled];
  newrank = true;
  { rank = same; slot0_0; slot3_0; }
  subgraph cluster_slot0_ {
    label = \"slot 0\";
    labelloc = b;
    slot0_0 [label = \"root\", fillcolor = \"#a8d8a8\"];
  }
  subgraph cluster_slot3_ {
    label = \"slot 3\";
    labelloc = b;
    slot3_0 [label = \"root\", fillcolor = \"#a8d8a8\"];
    slot3_1 [label = \"round 1\\nvalue 80\\nCOMMITTED\", fillcolor = \"#a8d8a8\"];
    slot3_1 -> slot3_0;
  }
}
";
    let (root, grown) = ([0, 0, 0, 3], [0, 0, 0, 3, 1, 0, 80, 3]);
    for on in IMPLEMENTATIONS {
        let drawn = |format: &str, more: &[&str]| {
            let (status, out, error) =
                tool_on(on, &[&["draw", "--format", format, "-e", TWO_SLOTS], more].concat(), b"");
            assert_eq!((status, error.as_str()), (0, ""));
            out
        };
        assert_eq!(drawn("text", &[]), "slot 0\nroot\n\nslot 3\nroot\n└─ round 1, value 80, COMMITTED\n");
        assert_eq!(drawn("dot", &[]), dot);
        let elements = elements(&drawn("svg", &[]));
        let headings: Vec<&str> =
            elements.iter().filter(|one| one.get("font-weight") == "bold").map(|one| one.text.as_str()).collect();
        assert_eq!(headings, ["slot 0", "slot 3"]);
        let trees: [(&str, &draw::Trees); 2] = [("0", &[(Slot(0), &root)]), ("3", &[(Slot(3), &grown)])];
        for (slot, tree) in trees {
            assert_eq!(drawn("text", &["--slot", slot]), draw::text_of(tree));
            assert_eq!(drawn("dot", &["--slot", slot]), draw::dot_of(tree));
            assert_eq!(drawn("svg", &["--slot", slot]), draw::svg_of(tree));
        }
        assert_eq!(drawn("dot", &["--slot", "0"]), draw::dot(&root));
        assert_eq!(drawn("svg", &["--slot", "0"]), draw::svg(&root));
        let folder = env!("CARGO_TARGET_TMPDIR");
        let [dot, svg] = ["dot", "svg"].map(|kind| format!("{folder}/slots.{kind}"));
        for more in [&[][..], &["--slot=3"]] {
            tool_on(on, &[&["run", "--dot", &dot, "--svg", &svg, "-e", TWO_SLOTS], more].concat(), b"");
            for (file, format) in [(&dot, "dot"), (&svg, "svg")] {
                assert_eq!(std::fs::read_to_string(file).unwrap(), drawn(format, more));
            }
        }
    }
}

/// The numbers and words of tree calls, with 5 table rows, and the whole output.
fn numbers_and_words(on: &On, kind: TreeKind, calls: &str) -> (Vec<String>, String) {
    let (status, out, _) = tool_on(on, &["tree", "--table-rows", "5", "--kind", &kind.to_string(), "-e", calls], b"");
    assert_eq!(status, 0, "{out}");
    let notation = calls.split_whitespace().map(str::len).max().unwrap();
    let lines = out.lines().skip(2).take_while(|line| !line.is_empty());
    (lines.map(|line| line[notation + "   0    ".len()..].to_string()).collect(), out)
}

/// Each number that a call in a list can get, with its cause in particular, from calls of both kinds. Only 7 is of one kind. A preview
/// in place of each add that is refused gets its number and its words.
#[test]
fn refused_tree_calls_in_words() {
    let calls = "add(2,5,0) add(4,5,2) commit(4) add(3,5,2) add(3,6,2) add(0,5,0) add(1000001,5,0) commit(0) path(1000001) add(4,5,0) \
                 add(6,5,5) add(5,5,4294967295) add(1,5,2) add(9,5,0) add(9,6,4) add(9,5,4) add(10,5,9) commit(7) path(7) commit(4) \
                 commit(3) path(0) commit(9) add(12,5,2)";
    let values = [
        " 0  round 2 is ADDED below the root, with the value 5",
        " 0  round 4 is ADDED below round 2, with the value 5",
        " 0  round 4 becomes COMMITTED",
        " 0  round 3 is GHOST below round 2, with the value 5: round 4 is there already",
        " 4  round 3 can't be added below round 2 with the value 6: it is there already, GHOST below round 2 with the value 5",
        " 3  round 0 can't be added below the root with the value 5: rounds run from 1 to 1,000,000",
        " 3  round 1000001 can't be added below the root with the value 5: rounds run from 1 to 1,000,000",
        " 3  round 0 can't be committed: rounds run from 1 to 1,000,000",
        " 3  round 1000001 has no path: rounds run from 1 to 1,000,000",
        " 4  round 4 can't be added below the root with the value 5: it is there already, COMMITTED below round 2 with the value 5",
        " 5  round 6 can't be added below round 5 with the value 5: round 5 isn't there",
        " 5  round 5 can't be added below round 4294967295 with the value 5: round 4294967295 isn't there",
        " 6  round 1 can't be added below round 2 with the value 5: 2 isn't below 1",
        " 8  round 9 can't be added below the root with the value 5: its edge crosses round 4, which is COMMITTED",
        " 7  round 9 can't be added below round 4 with the value 6: the value of round 4 is 5",
        " 0  round 9 is ADDED below round 4, with the value 5",
        " 9  round 10 can't be added below round 9 with the value 5: all rows of the table (5) are taken",
        "10  round 7 can't be committed: it isn't there",
        "10  round 7 has no path: it isn't there",
        "11  round 4 can't be committed: it is COMMITTED already",
        "12  round 3 can't be committed: it is GHOST, for the edge from round 4 to round 2 crosses it",
        " 0  the path of the root is 0",
        " 0  round 9 becomes COMMITTED",
        " 8  round 12 can't be added below round 2 with the value 5: its edge crosses rounds 4 and 9, which are COMMITTED",
    ];
    for on in IMPLEMENTATIONS {
        for kind in TreeKind::ALL {
            let mut expected = values.to_vec();
            if kind == TreeKind::Command {
                expected[14] = " 0  round 9 is ADDED below round 4, with the value 6";
                expected[15] = " 4  round 9 can't be added below round 4 with the value 5: it is there already, ADDED below round 4 with the value 6";
            }
            assert_eq!(numbers_and_words(on, kind, calls).0, expected);
            let to_preview = |(call, line): (&str, &&str)| match line.starts_with(" 0  ") {
                true => call.to_string(),
                false => call.replace("add(", "preview("),
            };
            let previews: Vec<String> = calls.split_whitespace().zip(&expected).map(to_preview).collect();
            assert_eq!(numbers_and_words(on, kind, &previews.join(" ")).0, expected);
        }
    }
}

/// What an add would do, in the words of the add, but for the mood: its round ADDED or GHOST, and how many rounds it would make GHOST,
/// and which. Nothing is done, and nothing counted in the sum.
#[test]
fn previews_in_words() {
    let calls = "add(1,5,0) add(3,5,1) preview(4,5,3) preview(4,5,1) preview(5,6,0) preview(2,5,1) preview(2,7,0) preview(1000000,5,1) \
                 commit(1) preview(4,5,1) path(3)";
    let expected = [
        " 0  round 1 is ADDED below the root, with the value 5",
        " 0  round 3 is ADDED below round 1, with the value 5",
        " 0  round 4 would be ADDED below round 3, with the value 5",
        " 0  round 4 would be ADDED below round 1, with the value 5; the add would make 1 round GHOST: round 3",
        " 0  round 5 would be ADDED below the root, with the value 6; the add would make 2 rounds GHOST: rounds 1 and 3",
        " 0  round 2 would be GHOST below round 1, with the value 5: round 3 is there already",
        " 0  round 2 would be GHOST below the root, with the value 7: round 3 is there already; the add would make 1 round GHOST: \
         round 1",
        " 0  round 1000000 would be ADDED below round 1, with the value 5; the add would make 1 round GHOST: round 3",
        " 0  round 1 becomes COMMITTED",
        " 0  round 4 would be ADDED below round 1, with the value 5; the add would make 1 round GHOST: round 3",
        " 0  the path of round 3 is 0, 1, 3",
    ];
    for on in IMPLEMENTATIONS {
        for kind in TreeKind::ALL {
            let (lines, out) = numbers_and_words(on, kind, calls);
            assert_eq!(lines, expected, "{out}");
            let counts = "\n11 of 11 calls accepted, 0 rounds made GHOST, 2 nodes beside the root: 1 ADDED, 0 GHOST, 1 COMMITTED\n";
            let tree = "\n\nroot\n└─ round 1, value 5, COMMITTED\n   └─ round 3, value 5, ADDED\n";
            assert!(out.contains(counts) && out.ends_with(tree), "{out}");
        }
    }
}

/// Adds that make one round GHOST and several, one of them GHOST itself from the first, and a table made fresh behind them: how many
/// rounds each add makes GHOST, and which, and the sum.
#[test]
fn struck_rounds_in_words() {
    let calls = "add(1,5,0) add(2,5,1) add(3,5,2) add(4,6,0) add(6,6,4) add(5,7,0) path(3) fresh path(3)";
    for on in IMPLEMENTATIONS {
        for kind in TreeKind::ALL {
            let (status, out, _) = tool_on(on, &["tree", "--kind", &kind.to_string(), "-e", calls], b"");
            assert_eq!(status, 0);
            for words in [
                "round 4 is ADDED below the root, with the value 6; the add makes 3 rounds GHOST: rounds 1, 2 and 3\n",
                "round 6 is ADDED below round 4, with the value 6\n",
                "round 5 is GHOST below the root, with the value 7: round 6 is there already; the add makes 1 round GHOST: round 4\n",
                "  0  the path of round 3 is 0, 1, 2, 3\n",
            ] {
                assert!(out.contains(words), "{words}\n{out}");
            }
            let end = "  0  the table has the root alone\n   8  path(3)     10  round 3 has no path: it isn't there\n\n\
                       8 of 9 calls accepted, 4 rounds made GHOST, 0 nodes beside the root: 0 ADDED, 0 GHOST, 0 COMMITTED\n\nroot\n";
            assert!(out.ends_with(end), "{out}");
        }
        let none =
            "\n0 of 0 calls accepted, 0 rounds made GHOST, 0 nodes beside the root: 0 ADDED, 0 GHOST, 0 COMMITTED\n\nroot\n";
        assert!(tool_on(on, &["tree"], b"").1.ends_with(none));
    }
}

/// Proposals that make two rounds GHOST and none, and the sum; the second is GHOST itself from the first.
#[test]
fn struck_rounds_of_a_run_in_words() {
    for on in IMPLEMENTATIONS {
        let (status, out, _) = tool_on(on, &["run", "-e", MADE_GHOST], b"");
        let lines: Vec<&str> = out.lines().skip(2).collect();
        for (at, line) in [
            (
                19,
                "it proposes 60 (its own offer), add(4,60,0), which makes 2 rounds GHOST: rounds 1 and 2, and sends PROPOSE (message \
                 15)",
            ),
            (20, "it proposes 90 (its own offer), add(3,90,0), and sends PROPOSE (message 16)"),
            (22, "21 of 21 events accepted, 17 messages, 4 proposals, 0 decisions, 2 rounds made GHOST"),
        ] {
            assert!(lines[at].ends_with(line), "{line}\n{out}");
        }
        assert!(status == 0 && out.matches(", which makes ").count() == 1, "{out}");
    }
}

/// Of random lists, a proposal's words name the rounds that the tables before and after its add tell, and its number is theirs. The
/// sums are those of play, and of the table that it leaves: GHOST nodes without a higher round in a row above.
#[test]
fn rounds_made_ghost_in_words() {
    let mut random = Random::new(3);
    let mut several = 0;
    for _ in 0..500 {
        let list = generate::list(&mut random, 3, 120, 120, [64; SLOTS]).unwrap();
        let left = play(&second::CALLS, &list.to_bytes(), &Lent::rows(120, 64, 120));
        let trace = trace(&second::CALLS, &list, left.answers(), 120, [64; SLOTS]).unwrap();
        for one in &trace.events {
            let struck = one.nodes.iter().filter(|node| node.status == Status::Ghost).map(|node| node.round);
            let mut rounds: Vec<u32> = match one.made {
                Some(Made::Proposal(made)) => {
                    struck.filter(|round| *round != made.round).map(|round| round.0).collect()
                }
                _ => Vec::new(),
            };
            rounds.sort_unstable();
            let behind = one.explained.words.split_once(", which makes ").map_or("", |(_, behind)| behind);
            let words = behind.split_once(", and sends PROPOSE ").map_or("", |(words, _)| words);
            let expected = match &rounds[..] {
                [] => String::new(),
                [round] => format!("1 round GHOST: round {round}"),
                [others @ .., last] => {
                    let others: Vec<String> = others.iter().map(u32::to_string).collect();
                    format!("{} rounds GHOST: rounds {} and {last}", rounds.len(), others.join(", "))
                }
            };
            assert_eq!(words, expected, "{list}");
            assert_eq!(one.ghosts.unwrap_or(0) as usize, rounds.len(), "{list}");
            several += usize::from(rounds.len() > 1);
        }
        let sum: u32 = trace.events.iter().filter_map(|one| one.ghosts).sum();
        assert_eq!(left.result.map(|played| played.ghosts), Ok(sum), "{list}");
        let in_table = |slot: &Slot| {
            let nodes: Vec<Node> = nodes(left.table(*slot)).collect();
            let from_the_first = |at: usize| nodes[..at].iter().any(|above| above.round > nodes[at].round);
            (0..nodes.len()).filter(|at| nodes[*at].status == Status::Ghost && !from_the_first(*at)).count()
        };
        assert_eq!(Slot::ALL.iter().map(in_table).sum::<usize>(), sum as usize, "{list}");
    }
    assert!(several > 20, "{several}");
}

/// What the second implementation does otherwise is told call by call; of a preview also another count, and another second table,
/// whether it is accepted or refused.
#[test]
fn tree_calls_answered_otherwise() {
    fn add(_: TreeKind, table: &mut [u64], round: Round, value: u64, parent: Round) -> Result<u32, Refusal> {
        second::tree::add(TreeKind::Command, table, round, value, parent)
    }
    fn commit(kind: TreeKind, table: &mut [u64], round: Round) -> Result<(), Refusal> {
        second::tree::commit(kind, &mut table.to_vec(), round)
    }
    fn path(kind: TreeKind, table: &[u64], round: Round, out: &mut [u64]) -> Result<usize, Refusal> {
        second::tree::path(kind, table, round, out).inspect(|count| out[..*count].reverse())
    }
    fn path_of_root(kind: TreeKind, table: &[u64], _: Round, out: &mut [u64]) -> Result<usize, Refusal> {
        second::tree::path(kind, table, Round::ROOT, out)
    }
    let [answers_0, another_table] = ["ANSWERS 0", "LEAVES ANOTHER TABLE"].map(Some);
    let [another_path, another_second] = ["WRITES ANOTHER PATH", "LEAVES ANOTHER SECOND TABLE"].map(Some);
    let calls = "add(1,5,0) add(2,6,1) path(1) preview(3,6,0) preview(3,7,1) commit(1) path(0)";
    for (faulty, told) in [
        (second::CALLS, [None; 7]),
        (
            Calls { tree_add: add, ..second::CALLS },
            [None, Some("ANSWERS 7"), answers_0, answers_0, Some("ANSWERS 7"), answers_0, answers_0],
        ),
        (Calls { tree_commit: commit, ..second::CALLS }, [None, None, None, None, None, another_table, another_table]),
        (Calls { tree_path: path, ..second::CALLS }, [None, None, another_path, None, None, None, None]),
        (Calls { tree_path: path_of_root, ..second::CALLS }, [None, None, another_path, None, None, None, None]),
        (
            Calls { tree_preview: |_, t, lent, r, v, p| preview(TreeKind::Command, t, lent, r, v, p), ..second::CALLS },
            [None, None, None, None, Some("ANSWERS 7"), None, None],
        ),
        (
            Calls {
                tree_preview: |kind, t, lent, r, v, p| preview(kind, t, lent, r, v, p).map(|_| 0),
                ..second::CALLS
            },
            [None, None, None, Some("WOULD MAKE 1 GHOST, NOT 0"), None, None, None],
        ),
        (
            Calls { tree_preview: |kind, t, _, r, v, p| preview(kind, t, &mut t.to_vec(), r, v, p), ..second::CALLS },
            [None, None, None, another_second, None, None, None],
        ),
        (
            Calls {
                tree_preview: |kind, t, lent, r, v, p| {
                    let mut whole = t.to_vec();
                    let ghosts = preview(kind, t, &mut whole, r, v, p)?;
                    let used = nodes(&whole).count() * TABLE_ROW;
                    lent[..used].copy_from_slice(&whole[..used]);
                    Ok(ghosts)
                },
                ..second::CALLS
            },
            [None, None, None, another_second, None, None, None],
        ),
        (
            Calls {
                tree_preview: |kind, t, lent, r, v, p| {
                    preview(kind, t, lent, r, v, p).inspect_err(|_| lent.copy_from_slice(t))
                },
                ..second::CALLS
            },
            [None, None, None, None, another_second, None, None],
        ),
    ] {
        let (calls, _) = explain(&faulty, &calls.parse().unwrap(), 8).unwrap();
        assert_eq!(calls.iter().map(|call| call.difference.as_deref()).collect::<Vec<_>>(), told);
        assert!(calls.iter().all(|call| call.difference.is_some() || call.answer == call.explained.answer));
    }
}

/// An add that counts other rounds than it makes GHOST is told, with both counts; of a call that is refused there is nothing to count.
#[test]
fn rounds_counted_otherwise() {
    fn with_itself(kind: TreeKind, table: &mut [u64], round: Round, value: u64, parent: Round) -> Result<u32, Refusal> {
        let ghosts = second::tree::add(kind, table, round, value, parent)?;
        Ok(ghosts + u32::from(nodes(table).any(|node| node.round == round && node.status == Status::Ghost)))
    }
    let faulty = Calls { tree_add: with_itself, ..second::CALLS };
    let list = "add(1,5,0) add(2,5,1) add(5,6,0) add(4,7,0) add(6,6,5) add(6,6,5) add(3,8,0) path(1)".parse().unwrap();
    let (calls, _) = explain(&faulty, &list, 8).unwrap();
    let told = [None, None, None, Some("MAKES 0 GHOST, NOT 1"), None, None, Some("MAKES 0 GHOST, NOT 1"), None];
    assert_eq!(calls.iter().map(|call| call.difference.as_deref()).collect::<Vec<_>>(), told);
    assert_eq!(calls.iter().map(|call| call.ghosts).collect::<Vec<_>>(), [0, 0, 2, 1, 0, 0, 1, 0]);
}

/// A play that says another number of rounds made GHOST than the model's adds make is told, and an add of a run that does isn't as the
/// model, with both numbers in its JSON.
#[test]
fn rounds_of_a_run_counted_otherwise() {
    fn one_less(
        list: &[u8],
        store: &mut [u8],
        words: &mut [u64],
        lengths: &[usize; SLOTS],
        answers: &mut [u8],
    ) -> Result<Played, Refusal> {
        let mut played = (second::CALLS.play)(list, store, words, lengths, answers)?;
        played.ghosts -= 1;
        Ok(played)
    }
    fn one_more(kind: TreeKind, table: &mut [u64], round: Round, value: u64, parent: Round) -> Result<u32, Refusal> {
        second::tree::add(kind, table, round, value, parent).map(|ghosts| ghosts + u32::from(ghosts > 0))
    }
    let list = parse(MADE_GHOST, None).unwrap();
    let told = |calls: &Calls| {
        let left = play(calls, &list.to_bytes(), &Lent::rows(100, 64, list.events.len()));
        let trace = trace(calls, &list, left.answers(), 100, [64; SLOTS]).unwrap();
        let others = trace.events.iter().filter(|one| !one.as_the_model()).map(|one| json::event(one).to_string());
        let others: Vec<String> = others.collect();
        (ghosts_otherwise(&list, left.result.unwrap().ghosts, 100, [64; SLOTS]).unwrap(), others)
    };
    assert_eq!(told(&second::CALLS), (None, Vec::new()));
    assert_eq!(told(&Calls { play: one_less, ..second::CALLS }), (Some("MAKES 2 GHOST".into()), Vec::new()));
    let (sum, others) = told(&Calls { tree_add: one_more, ..second::CALLS });
    assert_eq!((sum, others.len()), (None, 1));
    assert!(others[0].starts_with("{\"number\":19,"), "{others:?}");
    assert!(others[0].contains(",\"answer\":0,\"model_answer\":0,"), "{others:?}");
    assert!(others[0].contains(",\"ghosts\":3,\"model_ghosts\":2,"), "{others:?}");
}

#[test]
fn drawings_of_the_rehearsal() {
    let text = "root\n└─ round 1, value 70, COMMITTED\n   └─ round 2, value 70, ADDED\n";
    let dot = "\
digraph tree {
  rankdir = BT;
  node [shape = box, style = filled];
  r0 [label = \"root\", fillcolor = \"#a8d8a8\"];
  r1 [label = \"round 1\\nvalue 70\\nCOMMITTED\", fillcolor = \"#a8d8a8\"];
  r1 -> r0;
  r2 [label = \"round 2\\nvalue 70\\nADDED\", fillcolor = \"#ffffff\"];
  r2 -> r1;
}
";
    for on in IMPLEMENTATIONS {
        let drawn = |format| tool_on(on, &["draw", "--format", format, "-e", REHEARSAL], b"");
        assert_eq!(drawn("text"), (0, text.into(), String::new()));
        assert_eq!(drawn("dot"), (0, dot.into(), String::new()));
        let (status, svg, _) = drawn("svg");
        let elements = elements(&svg);
        let texts =
            |name| elements.iter().filter(|one| one.name == name).map(|one| one.text.as_str()).collect::<Vec<_>>();
        assert_eq!((status, elements[0].name.as_str(), elements.len()), (0, "svg", 1 + 3 + 2 + 7), "{svg}");
        assert_eq!((texts("rect"), texts("line")), (vec![""; 3], vec![""; 2]));
        let mut labels = texts("text");
        labels.sort_unstable();
        assert_eq!(labels, ["ADDED", "COMMITTED", "root", "round 1", "round 2", "value 70", "value 70"]);
    }
}

#[test]
fn drawings_into_files() {
    let folder = env!("CARGO_TARGET_TMPDIR");
    for (on, number) in IMPLEMENTATIONS.iter().zip(0..) {
        let [dot, svg] = ["dot", "svg"].map(|kind| format!("{folder}/rehearsal-{number}.{kind}"));
        assert_eq!(tool_on(on, &["run", "--dot", &dot, "--svg", &svg, "-e", REHEARSAL], b"").0, 0);
        for (file, format) in [(dot, "dot"), (svg, "svg")] {
            let drawn = tool_on(on, &["draw", "--format", format, "-e", REHEARSAL], b"").1;
            assert_eq!(std::fs::read_to_string(file).unwrap(), drawn);
        }
    }
}

/// The pictures of tree calls are those of a list that makes the same calls.
#[test]
fn drawings_of_tree_calls() {
    let folder = env!("CARGO_TARGET_TMPDIR");
    for (on, number) in IMPLEMENTATIONS.iter().zip(0..) {
        let [dot, svg] = ["dot", "svg"].map(|kind| format!("{folder}/tree-calls-{number}.{kind}"));
        let calls = "add(1,70,0) add(2,70,1) commit(1)";
        let (status, out, _) = tool_on(on, &["tree", "--dot", &dot, "--svg", &svg, "-e", calls], b"");
        assert_eq!(status, 0);
        assert!(out.ends_with(&tool_on(on, &["draw", "-e", REHEARSAL], b"").1), "{out}");
        for (file, format) in [(dot, "dot"), (svg, "svg")] {
            let drawn = tool_on(on, &["draw", "--format", format, "-e", REHEARSAL], b"").1;
            assert_eq!(std::fs::read_to_string(file).unwrap(), drawn);
        }
    }
}

/// The trees of each accepted preview side by side, behind the counts and before the tree; in the files where such a preview is the last
/// call, which have the tree alone else.
#[test]
fn drawings_of_previews() {
    let beside = "
   2  preview(4,80,0)
before                             after
root                               root
└─ round 1, value 70, ADDED        ├─ round 1, value 70, GHOST
   └─ round 2, value 70, ADDED     │  └─ round 2, value 70, GHOST
                                   └─ round 4, value 80, ADDED
";
    let dot_beside = "\
digraph tree {
  rankdir = BT;
  node [shape = box, style = filled];
  newrank = true;
  { rank = same; before0; after0; }
  subgraph cluster_before {
    label = \"before\";
    labelloc = b;
    before0 [label = \"root\", fillcolor = \"#a8d8a8\"];
    before1 [label = \"round 1\\nvalue 70\\nADDED\", fillcolor = \"#ffffff\"];
    before1 -> before0;
    before2 [label = \"round 2\\nvalue 70\\nADDED\", fillcolor = \"#ffffff\"];
    before2 -> before1;
  }
  subgraph cluster_after {
    label = \"after\";
    labelloc = b;
    after0 [label = \"root\", fillcolor = \"#a8d8a8\"];
    after1 [label = \"round 1\\nvalue 70\\nGHOST\", fillcolor = \"#d0d0d0\"];
    after1 -> after0;
    after2 [label = \"round 2\\nvalue 70\\nGHOST\", fillcolor = \"#d0d0d0\"];
    after2 -> after1;
    after4 [label = \"round 4\\nvalue 80\\nADDED\", fillcolor = \"#ffffff\"];
    after4 -> after0;
  }
}
";
    let before = [[0, 0, 0, 3], [1, 0, 70, 1], [2, 1, 70, 1], [0; 4]].concat();
    let after = [[0, 0, 0, 3], [1, 0, 70, 2], [2, 1, 70, 2], [4, 0, 80, 1]].concat();
    let folder = env!("CARGO_TARGET_TMPDIR");
    for (on, number) in IMPLEMENTATIONS.iter().zip(0..) {
        let [dot, svg] = ["dot", "svg"].map(|kind| format!("{folder}/previews-{number}.{kind}"));
        let drawn = |behind: &str| {
            let calls = format!("add(1,70,0) add(2,70,1) preview(4,80,0) {behind}");
            let (status, out, _) = tool_on(on, &["tree", "--dot", &dot, "--svg", &svg, "-e", &calls], b"");
            assert_eq!(status, 0);
            let [dot, svg] = [&dot, &svg].map(|file| std::fs::read_to_string(file).unwrap());
            (out, dot, svg)
        };
        let alone = format!("\n{}", draw::text(&before));
        let (out, dot, svg) = drawn("");
        assert!(out.ends_with(&format!(" 0 COMMITTED\n{beside}{alone}")), "{out}");
        assert_eq!((dot.as_str(), svg), (dot_beside, draw::svg_beside(&before, &after)));
        // a refused preview shows nothing, and another call may come last
        for behind in ["preview(2,80,0)", "path(2)"] {
            let (out, dot, svg) = drawn(behind);
            assert!(out.ends_with(&format!(" 0 COMMITTED\n{beside}{alone}")), "{out}");
            assert_eq!((dot, svg), (draw::dot(&before), draw::svg(&before)));
        }
        // each is drawn by the table at its time
        let (out, dot, svg) = drawn("add(4,80,0) preview(3,70,2)");
        let born = [&after[..], &[3, 2, 70, 2]].concat();
        let second = format!("\n   4  preview(3,70,2)\n{}", draw::text_beside(&after, &born));
        assert!(out.ends_with(&format!(" 0 COMMITTED\n{beside}{second}\n{}", draw::text(&after))), "{out}");
        assert_eq!((dot, svg), (draw::dot_beside(&after, &born), draw::svg_beside(&after, &born)));
    }
}

/// Left, top, right and bottom of an element, of a text the point where it stands.
fn edges(one: &Element) -> [i32; 4] {
    let [x, y] = match one.name.as_str() {
        "line" => return ["x1", "y1", "x2", "y2"].map(|name| one.number(name)),
        _ => ["x", "y"].map(|name| one.number(name)),
    };
    match one.name.as_str() {
        "rect" => [x, y, x + one.number("width"), y + one.number("height")],
        _ => [x, y, x, y],
    }
}

/// Two trees side by side: each is drawn as it is alone, below its heading and beside the other, and nothing is outside of the picture.
#[test]
fn trees_side_by_side() {
    let row: String = (1..12).map(|round| format!("add({round},5,0) ")).collect();
    let chain: String = (1..12).map(|round| format!("add({round},5,{}) ", round - 1)).collect();
    let widest = "add(999999,18446744073709551615,0) preview(1000000,18446744073709551615,999999)".to_string();
    for calls in ["preview(1,70,0)".into(), widest, row + "preview(12,5,0)", chain + "preview(12,6,0)"] {
        let (called, _) = explain(&second::CALLS, &calls.parse().unwrap(), 64).unwrap();
        let tables = called.last().and_then(|last| last.previewed.as_ref()).unwrap();
        let picture = elements(&draw::svg_beside(&tables[0], &tables[1]));
        let [width, height] = ["width", "height"].map(|name| picture[0].number(name));
        let mut rest = &picture[1..];
        let (mut left, mut lowest) = (0, 0);
        for (table, name) in tables.iter().zip(["before", "after"]) {
            let alone = elements(&draw::svg(table));
            let (head, behind) = rest.split_at(2);
            let (tree, behind) = behind.split_at(alone.len() - 1);
            let place = head[1].get("transform").strip_prefix("translate(").and_then(|text| text.strip_suffix(')'));
            let (x, y) = place.and_then(|place| place.split_once(' ')).unwrap();
            let [x, y] = [x, y].map(|number| number.parse::<i32>().unwrap());
            let right = x + alone[0].number("width");
            assert_eq!((head[0].name.as_str(), head[0].text.as_str(), head[1].name.as_str()), ("text", name, "g"));
            assert_eq!(format!("{tree:?}"), format!("{:?}", &alone[1..]), "{calls}");
            let highest = tree.iter().map(|one| y + edges(one)[1]).min().unwrap();
            let [middle, line, ..] = edges(&head[0]);
            assert!(x < middle && middle < right && 0 < line && line < highest, "{calls}");
            for one in tree {
                let [from, top, to, bottom] = edges(one);
                assert!(left <= x + from.min(to) && x + from.max(to) <= right, "{one:?} of {calls}");
                assert!(0 <= y + top && y + bottom <= height, "{one:?} of {calls}");
            }
            (left, lowest, rest) = (right, lowest.max(y + alone[0].number("height")), behind);
        }
        assert_eq!((width, height, rest.len()), (left, lowest, 0), "{calls}");
        assert_eq!(picture[0].get("viewBox"), format!("0 0 {width} {height}"));
    }
}

#[test]
fn a_drawn_tree_with_branches() {
    let table = [[0, 0, 0, 3], [1, 0, 5, 2], [3, 0, 6, 1], [2, 1, 5, 2]].concat();
    let text = "root\n├─ round 1, value 5, GHOST\n│  └─ round 2, value 5, GHOST\n└─ round 3, value 6, ADDED\n";
    assert_eq!(draw::text(&table), text);
    let names: Vec<String> = elements(&draw::svg(&table)).into_iter().map(|one| one.name).collect();
    let count = |name| names.iter().filter(|one| *one == name).count();
    assert_eq!([count("rect"), count("line"), count("text")], [4, 3, 10]);
}

/// The list that a search found: the line in notation, and what stands behind the line with the rows.
fn found(out: &str) -> (EventList, &str) {
    let line = out.lines().find(|line| line.starts_with("n=")).unwrap();
    let (_, explained) = out.split_once("\n\n").unwrap();
    (parse(line, None).unwrap(), explained)
}

/// The offers of a list's starts.
fn offers(list: &EventList) -> Vec<u64> {
    let offer = |event: &Event| if let Event::Start { offer, .. } = event { Some(*offer) } else { None };
    list.events.iter().filter_map(offer).collect()
}

#[test]
fn searches() {
    let orders = "s(1,1,70) d(0,0) d(0,1) d(1,1) d(2,1)";
    for on in IMPLEMENTATIONS {
        let (status, out, error) = tool_on(on, &["search", "--lists", "300", "--seed", "9"], b"");
        assert_eq!((status, out.as_str()), (0, "No property fails on 300 lists with seed 9.\n"));
        assert!(error.starts_with("300 of 300 lists, ") && error.lines().count() == 1, "{error}");
        let (status, out, _) = tool_on(on, &["search", "--property", "no-decision"], b"");
        assert_eq!((status, found(&out).0.events.len()), (1, 9), "{out}");
        let (status, out, _) = tool_on(on, &["search", "--property", "no-proposal", "-e", orders], b"");
        assert!(status == 1 && out.contains("round 1 proposes"), "{out}");
    }
}

/// The list found is explained as a run of it is, and its offers tell the starts apart.
#[test]
fn found_lists() {
    for on in IMPLEMENTATIONS {
        for property in ["no-takeover", "no-late-decision", "one-decision", "no-ghost"] {
            let (status, out, _) = tool_on(on, &["search", "--property", property], b"");
            let (list, explained) = found(&out);
            let (_, run, _) = tool_on(on, &["run", "-e", &list.to_string()], b"");
            assert_eq!((status, explained), (1, run.split_once("\n\n").unwrap().1), "{out}");
            let offers = offers(&list);
            assert!(offers.len() > 1 && offers.iter().zip(1..).all(|(offer, place)| *offer == 10 * place), "{list}");
        }
    }
}

/// All lists up to a length: of events that are given, or of few.
#[test]
fn searches_of_all_lists() {
    for on in IMPLEMENTATIONS {
        let all = |args: &[&str]| tool_on(on, &[&["search", "--all"], args].concat(), b"");
        let (status, out, error) = all(&["3", "--members", "5"]);
        let lists = 1 + 22 + 22 * 22 + 22 * 22 * 22;
        let words = format!("No property fails on {lists} lists of up to 3 events, each one of 22.\n");
        assert_eq!((status, out), (0, words));
        assert!(error.starts_with(&format!("{lists} of {lists} lists, ")), "{error}");
        let events = "d(2,1) d(1,1) d(0,1) d(0,0) s(1,1,70)";
        let (status, out, _) = all(&["6", "--property", "no-proposal", "-e", events]);
        assert_eq!((status, found(&out).0.events.len()), (1, 5), "{out}");
        let (status, out, _) = all(&["4", "--property", "no-proposal", "-e", events]);
        assert_eq!((status, out.as_str()), (0, "No property fails on 781 lists of up to 4 events, each one of 5.\n"));
        let (_, out, _) = all(&["5", "--property", "no-full-store", "--store-rows", "2", "-e", events]);
        assert!(found(&out).1.contains("fill the store"), "{out}");
    }
}

/// A search keeps as many threads busy as there are cores.
#[test]
fn searches_on_all_cores() {
    let cores = std::thread::available_parallelism().unwrap().get();
    let mut child = command(&IMPLEMENTATIONS[0], &["search", "--lists", &u64::MAX.to_string()]).spawn().unwrap();
    BufReader::new(child.stderr.take().unwrap()).lines().next().unwrap().unwrap();
    let threads = std::fs::read_dir(format!("/proc/{}/task", child.id())).unwrap().count();
    child.kill().unwrap();
    child.wait().unwrap();
    assert_eq!(threads, 1 + cores);
}

/// On a terminal a search shows a bar with the time left, again and again on one line, and then what it shows elsewhere.
#[test]
fn a_bar_on_a_terminal() {
    let lists = 10_000 * std::thread::available_parallelism().unwrap().get();
    let search = format!("{} search --lists {lists}", env!("CARGO_BIN_EXE_kalebasin"));
    let mut terminal = Command::new("script");
    terminal.args(["--quiet", "--return", "--command", &search, "/dev/null"]);
    let output = terminal.stdin(Stdio::null()).output().unwrap();
    assert_eq!(output.status.code(), Some(0));
    let shown = String::from_utf8(output.stdout).unwrap();
    let (bars, last) = shown.rsplit_once("\r\x1b[K").unwrap();
    assert!(last.starts_with(&format!("{lists} of {lists} lists, ")), "{shown:?}");
    assert!(last.ends_with(&format!("\nNo property fails on {lists} lists with seed 1.\r\n")), "{shown:?}");
    let mut before = 0;
    for bar in bars.strip_prefix("\r\x1b[K").unwrap().split("\r\x1b[K") {
        let (bar, words) = bar.strip_prefix("[").unwrap().split_once("] ").unwrap();
        let (percent, words) = words.split_once(&format!("% of {lists} lists, ")).unwrap();
        let percent: usize = percent.parse().unwrap();
        assert!(before <= percent && percent <= 100 && words.ends_with(" left"), "{shown:?}");
        let filled = bar.trim_end_matches('.');
        assert!(bar.len() == 30 && filled.chars().all(|part| part == '#'), "{shown:?}");
        assert!((filled.len() * 100).abs_diff(percent * 30) < 100, "{shown:?}");
        before = percent;
    }
}

/// A search that doesn't end by itself says how far it is while it runs, each time further.
#[test]
fn progress_of_a_search() {
    let mut child = command(&IMPLEMENTATIONS[0], &["search", "--lists", &u64::MAX.to_string()]).spawn().unwrap();
    let lines = BufReader::new(child.stderr.take().unwrap()).lines().take(2).map(Result::unwrap);
    let tried: Vec<u64> = lines.map(|line| line.split(' ').next().unwrap().parse().unwrap()).collect();
    child.kill().unwrap();
    child.wait().unwrap();
    assert!(tried.len() == 2 && 0 < tried[0] && tried[0] < tried[1], "{tried:?}");
}

/// The comparison's random parts, with as many lists as asked for; a seed gives the same lists again.
#[cfg(feature = "core")]
#[test]
fn comparisons() {
    let compare = |seed| tool_on(&IMPLEMENTATIONS[0], &["compare", "--random", "--seed", seed, "--lists", "500"], b"");
    let (status, out, error) = compare("9");
    assert_eq!(status, 0, "{out}");
    let lines: Vec<&str> = out.lines().collect();
    for (line, what) in lines.iter().zip(["random trees: ", "random members: "]) {
        assert!(line.starts_with(what) && line.ends_with(" calls, no difference"), "{out}");
    }
    assert_eq!(lines[2..], ["random lists: 500 calls, no difference"]);
    assert!(error.starts_with("500 of 500 lists, "), "{error}");
    assert_eq!(compare("9").1, out);
    assert_ne!(compare("10").1, out);
}

#[test]
fn help() {
    let (status, out, error) = tool(&["--help"], b"");
    assert_eq!((status, error.as_str()), (0, ""));
    assert_eq!(tool(&["help"], b"").1, out);
    for command in COMMANDS.iter().map(|args| args[0]) {
        assert!(out.contains(&format!("\n  {command} ")), "{out}");
        let (status, own, error) = tool(&[command, "--help"], b"");
        assert_eq!((status, error.as_str()), (0, ""));
        assert!(own.starts_with(&format!("usage: kalebasin {command} ")), "{own}");
        assert_eq!([&["help", command][..], &["-h", command]].map(|args| tool(args, b"").1), [&*own, &*own]);
    }
    let (status, out, _) = tool(&["--version"], b"");
    assert!(status == 0 && out.starts_with(&format!("kalebasin {}, ", env!("CARGO_PKG_VERSION"))), "{out}");
}

/// Status 2, and one line that has these words.
fn is_mistake(args: &[&str], input: &[u8], words: &str) {
    let (status, out, error) = tool(args, input);
    assert_eq!((status, out.as_str(), error.lines().count()), (2, "", 1), "{args:?}: {error}");
    assert!(error.starts_with("kalebasin: ") && error.contains(words), "{args:?}: {error}");
}

#[test]
fn mistakes_on_the_command_line() {
    for (args, words) in [
        (&[][..], "a command is missing"),
        (&[""], "a command is missing"),
        (&["RUN", "-e", ""], "there is no command RUN (did you mean run?)"),
        (&["fly"], "there is no command fly; see kalebasin --help"),
        (&["serach"], "there is no command serach (did you mean search?)"),
        (&["mesage", "-"], "(did you mean message?)"),
        (&["reh"], "(did you mean rehearse?)"),
        (&["search", "--property", "no-decison"], "(did you mean no-decision?)"),
        (&["search", "--property="], "there is no property ''; see --property list"),
        (&["run", "--store-rows", "0"], "--store-rows takes a number from 1 to 2000, not 0"),
        (&["run", "--table-rows=257"], "--table-rows takes a number from 1 to 256, not 257"),
        (&["run", "--slot", "8", "-e", ""], "--slot takes a number from 0 to 7, not 8"),
        (&["draw", "--slot=", "-e", ""], "--slot takes a number from 0 to 7, not \n"),
        (&["search", "--seed"], "--seed needs a value"),
        (&["run", "--bytes=yes"], "--bytes takes no value"),
        (&["draw", "--format", "gif", "-e", ""], "--format takes text, dot, svg or timeline, not gif"),
        (&["run", "--members", "+5", "-e", ""], "--members takes a number from 0 to 4294967295, not +5"),
        (&["run", "--html", "-", "-e", ""], "--html takes a file, not -: standard output is taken"),
        (&["run", "--svg=-", "-e", ""], "--svg takes a file, not -"),
        (&["run", "--dot", "-", "-e", ""], "--dot takes a file, not -"),
        (&["tree", "--kind", "Command", "-e", ""], "--kind takes value or command, not Command"),
        (&["tree", "--kind"], "--kind needs a value: --kind K"),
        (&["tree", "--table-rows", "0", "-e", ""], "--table-rows takes a number from 1 to 256, not 0"),
        (&["tree", "--svg", "-", "-e", ""], "--svg takes a file, not -"),
        (&["tre"], "there is no command tre (did you mean tree?)"),
        (&["search", "--members", "4"], "--members takes 3, 5 or 7"),
        (&["search", "--all", "40"], "more such lists than can be counted"),
        (&["run", "no such file"], "no such file: "),
        (&["run", "no\nsuch\x1b[7mfile"], "no\\nsuch\\u{1b}[7mfile: "),
    ] {
        is_mistake(args, b"", words);
    }
}

/// Options that leave one another without effect are refused with the command's help, and so is one that stands twice.
#[test]
fn options_without_effect() {
    for (args, words) in [
        (&["run", "-e", "", "file"][..], "-e stands instead of FILE; give one of them"),
        (&["run", "-e", "", "--bytes"], "-e is notation; --bytes and --hex are for FILE"),
        (&["run", "--bytes", "--hex", "file"], "FILE holds bytes or digits; give --bytes or --hex"),
        (&["run", "--members", "3", "--bytes"], "the bytes say how many members there are"),
        (&["run", "-e", "s(1,1,70)", "-e", "s(2,2,70)"], "-e stands twice; run takes it once"),
        (&["draw", "--format=dot", "-e", "", "--format", "svg"], "--format stands twice; draw takes it once"),
        (&["draw", "--slot=3", "-e", "", "--slot", "3"], "--slot stands twice; draw takes it once"),
        (&["tree", "-e", "", "file"], "-e stands instead of FILE; give one of them"),
        (&["tree", "--kind", "value", "--kind=value"], "--kind stands twice; tree takes it once"),
        (&["rehearse", "--second", "--second"], "--second stands twice; rehearse takes it once"),
        (&["search", "--bytes"], "--bytes and --hex are for FILE, which may be -"),
        (&["search", "--store-rows", "3"], "random lists have memory of their own; --store-rows and"),
        (&["search", "--table-rows", "3", "--lists", "3"], "random lists have memory of their own; --store-rows and"),
        (&["search", "--all", "3", "--lists", "3"], "--all tries all lists; --lists and --seed are for random ones"),
        (&["search", "--all", "3", "--seed", "9", "-e", ""], "--all tries all lists; --lists and --seed are for"),
        (&["search", "--property", "list", "--lists", "3"], "--property list shows the properties and tries nothing"),
        (&["search", "--property", "list", "file"], "--property list shows the properties and tries nothing"),
    ] {
        let (status, out, error) = tool(args, b"");
        let (line, help) = error.split_once("\n\n").unwrap_or_else(|| panic!("{args:?}: {error}"));
        assert_eq!((status, out.as_str(), help), (2, "", &*tool(&[args[0], "--help"], b"").1), "{args:?}");
        assert!(line.starts_with(&format!("kalebasin: {words}")) && line.lines().count() == 1, "{args:?}: {line}");
    }
    let (status, out, _) = tool(&["search", "--property", "list"], b"");
    assert!(status == 0 && out.contains("\n  no-late-decision "), "{out}");
    let both = ["search", "--property", "model", "--lists", "3", "--property", "counts"];
    assert_eq!(tool(&both, b"").0, 0);
}

/// What a command doesn't take is refused with its own help, whether another command takes it or none does.
#[test]
fn options_that_a_command_does_not_take() {
    let options =
        ["-e", "--members", "--kind", "--bytes", "--hex", "--store-rows", "--table-rows", "--format", "--dot", "--svg"];
    let options = options.iter().chain(&[
        "--slot",
        "--html",
        "--json",
        "--seed",
        "--lists",
        "--all",
        "--property",
        "--random",
        "--second",
        "--fly",
    ]);
    let mut refused = 0;
    for option in options {
        for command in COMMANDS.iter().map(|args| args[0]) {
            let help = tool(&[command, "--help"], b"").1;
            if help.contains(&format!("\n  {option} ")) {
                continue;
            }
            let (status, out, error) = tool(&[command, option, "1"], b"");
            assert_eq!((status, out.as_str()), (2, ""), "{command} {option}");
            assert_eq!(error, format!("kalebasin: {command} doesn't take {option}\n\n{help}"));
            refused += 1;
        }
    }
    assert!(refused > 80, "{refused}");
    let error = tool(&["search", "--sed=4"], b"").2;
    assert!(error.starts_with("kalebasin: search doesn't take --sed (did you mean --seed?)\n\nusage: "), "{error}");
    let error = tool(&["causes", "now"], b"").2;
    assert!(error.starts_with("kalebasin: now is one argument too many for causes\n\nusage: "), "{error}");
}

#[test]
fn values_and_operands() {
    let drawn = tool(&["draw", "--format", "dot", "--members", "5", "-e", "s(1,1,70)"], b"");
    assert_eq!(drawn.0, 0);
    assert_eq!(tool(&["--format=dot", "draw", "--members=5", "-e", "s(1,1,70)"], b""), drawn);
    let folder = env!("CARGO_TARGET_TMPDIR");
    std::fs::write(format!("{folder}/--seed=1"), "s(1,1,70)").unwrap();
    let mut encode = command(&On(None, ""), &["encode", "--hex", "--", "--seed=1"]);
    let output = encode.current_dir(folder).output().unwrap();
    assert_eq!(String::from_utf8(output.stdout).unwrap(), tool(&["encode", "--hex", "-e", "s(1,1,70)"], b"").1);
}

/// The digits of a message, as an argument and on standard input.
#[test]
fn messages_in_digits() {
    let words = "JOIN of round 5 from member 0, which never voted\n";
    for on in IMPLEMENTATIONS {
        for digits in [
            "00000000 00000002 00000005 00000000 00000000",
            "0000000000000002000000050000000000000000",
            "00:00:00:00:00:00:00:02:00:00:00:05:00:00:00:00:00:00:00:00",
            "0x00000000 0x00000002 0x00000005 0x00000000 0x00000000",
            "0X000000000000000200000005:0000000000000000\n",
        ] {
            assert_eq!(tool_on(on, &["message", digits], b""), (0, words.into(), String::new()), "{digits}");
            assert_eq!(tool_on(on, &["message", "-"], digits.as_bytes()), (0, words.into(), String::new()), "{digits}");
        }
        let refused = "kalebasin: the message is refused with 14: the message's length isn't that of its kind\n";
        for digits in ["00000000000000020000000500000000", ""] {
            assert_eq!(tool_on(on, &["message", digits], b""), (1, String::new(), refused.into()));
            assert_eq!(tool_on(on, &["message", "-"], digits.as_bytes()), (1, String::new(), refused.into()));
        }
        let words = "JOIN of round 5 from member 0 in slot 7, which never voted\n";
        assert_eq!(tool_on(on, &["message", "00000007 00000002 00000005 00000000 00000000"], b"").1, words);
        let above = "kalebasin: the message is refused with 32: the slot of a message or event is above 7, \
                     or a message is of another slot\n";
        assert_eq!(tool_on(on, &["message", "00000008 00000009"], b""), (1, String::new(), above.into()));
    }
    is_mistake(&["message"], b"", "message needs hexadecimal digits");
    is_mistake(&["message", "0000000g"], b"", "'g' is no hexadecimal digit");
    is_mistake(&["message", "-"], b"0:0:0:2", "standard input: 0 has an odd number of hexadecimal digits");
    is_mistake(&["message", "0x"], b"", "0x has an odd number of hexadecimal digits");
}

/// Bytes and digits given where notation is due get the option to use.
#[test]
fn bytes_where_notation_is_due() {
    let bytes = parse(REHEARSAL, None).unwrap().to_bytes();
    let digits = tool(&["encode", "--hex", "-e", REHEARSAL], b"").1;
    for command in ["run", "draw", "search"] {
        is_mistake(&[command, "-"], &bytes, "these are bytes, not notation; --bytes is for the bytes of a list");
        is_mistake(&[command, "-"], &[0xff, 0xfe], "--bytes is for the bytes of a list");
        is_mistake(&[command, "-"], digits.as_bytes(), "--hex is for the bytes of a list");
    }
    is_mistake(&["encode"], &bytes, "decode takes the bytes of a list");
    is_mistake(&["encode"], digits.as_bytes(), "decode --hex takes the bytes of a list");
    is_mistake(&["encode", "-e", &digits], b"", "decode --hex takes the bytes of a list");
    for command in ["run", "draw", "search"] {
        is_mistake(&[command, "-e", &digits], b"", "; --hex FILE is for the bytes of a list");
    }
    let run = tool(&["run", "-e", REHEARSAL], b"");
    assert_eq!(tool(&["run", "--bytes"], &bytes), run);
    assert_eq!(tool(&["run", "--hex"], digits.as_bytes()), run);
}

/// Digits and notation given where bytes are due are refused with 26 and a hint; other bytes have none.
#[test]
fn text_where_bytes_are_due() {
    let digits = tool(&["encode", "--hex", "-e", REHEARSAL], b"").1;
    let read = [&["decode"][..], &["rehearse"], &["run", "--bytes"], &["draw", "--bytes"], &["search", "--bytes", "-"]];
    for args in read {
        let notation = match args.contains(&"--bytes") {
            true => "; this is text; without --bytes it is read as notation\n",
            false => "; this is text; encode turns notation into bytes\n",
        };
        for (input, words) in [
            (digits.as_bytes(), "; these are hexadecimal digits, which --hex is for\n"),
            (REHEARSAL.as_bytes(), notation),
            (b"n=3 s(1", notation),
            (b"", " its first 8 bytes)\n"),
            (b"\x00n=3 s(1,1,70)", " above 1,000)\n"),
        ] {
            let (status, _, error) = tool(args, input);
            assert!(status == 1 && error.contains(" is refused with 26: "), "{args:?}: {error}");
            assert!(error.ends_with(words) && error.lines().count() == 1, "{args:?}: {error}");
        }
    }
    let twice: String = digits.trim().bytes().map(|digit| format!("{digit:02x}")).collect();
    assert!(tool(&["decode", "--hex"], twice.as_bytes()).2.ends_with(" above 1,000)\n"));
}

/// A refused list has the same status and the same line on standard error in every command.
#[test]
fn refused_lists() {
    let whole = parse("s(1,1,70) d(0,2)", None).unwrap().to_bytes();
    let changed = |at: usize, to: u8| [&whole[..at], &[to], &whole[at + 1..]].concat();
    let shape = "the list is refused with 26: the count is above 1,000, or bytes, count and kinds don't match exactly";
    let many = parse(&"d(0,0)".repeat(1_001), None).unwrap().to_bytes();
    let size = "the list is refused with 27: the number of members isn't 3, 5 or 7".to_string();
    let at = |place: &str| format!("{shape} ({place})");
    for (bytes, words) in [
        (changed(3, 4), size),
        (many, at("byte 4: the count is 1001, above 1,000")),
        (whole[..7].to_vec(), at("byte 7: the list ends within its first 8 bytes")),
        (Vec::new(), at("byte 0: the list ends within its first 8 bytes")),
        (changed(11, 3), at("byte 8, event 0: the kind is 3, not 1 or 2")),
        (changed(32, 1), at("byte 32, event 1: the kind is 16777218, not 1 or 2")),
        (changed(7, 3), at("byte 48, event 2: the list ends here, and the count is 3")),
        (changed(7, 1), at("byte 32, event 0: the list should end here, not at byte 48")),
        (changed(7, 0), at("byte 8: the list should end here, not at byte 48")),
        (whole[..47].to_vec(), at("byte 47, event 1: the list ends within a delivery of 16 bytes")),
        (whole[..31].to_vec(), at("byte 31, event 0: the list ends within a start of 24 bytes")),
        (whole[..34].to_vec(), at("byte 34, event 1: the list ends within the kind")),
    ] {
        let line = format!("kalebasin: {words}\n");
        for on in IMPLEMENTATIONS {
            for args in [&["run", "--bytes"][..], &["draw", "--bytes"], &["search", "--bytes", "-"]] {
                assert_eq!(tool_on(on, args, &bytes), (1, String::new(), line.clone()), "{args:?}");
            }
            let number = format!("{}\n", &words["the list is refused with ".len()..][..2]);
            assert_eq!(tool_on(on, &["rehearse"], &bytes), (1, number, line.clone()));
        }
        let (status, _, error) = tool(&["decode"], &bytes);
        assert_eq!((status, error), (1, line));
    }
    for (text, words) in [("n=4 s(1,1,70)".into(), "refused with 27"), ("d(0,0)".repeat(1_001), "(byte 4: the count")] {
        let (status, out, line) = tool(&["run", "-e", &text], b"");
        assert!(status == 1 && out.is_empty() && line.contains(words), "{line}");
        for command in ["draw", "search"] {
            assert_eq!(tool(&[command, "-e", &text], b""), (1, String::new(), line.clone()));
        }
        let (status, out, error) = tool(&["encode", "--hex", "-e", &text], b"");
        assert_eq!((status, &error), (1, &line));
        assert_eq!(tool(&["run", "--hex"], out.as_bytes()), (1, String::new(), line));
    }
}

/// Where standard output can't be written, each command ends with one line and status 2.
#[test]
fn output_that_can_not_be_written() {
    let full = || Stdio::from(std::fs::File::options().write(true).open("/dev/full").unwrap());
    let closed = || {
        let mut reader = Command::new("true").stdin(Stdio::piped()).spawn().unwrap();
        let mut pipe = reader.stdin.take().unwrap();
        reader.wait().unwrap();
        // A process that another test is just starting has the reader's end for a moment too.
        while pipe.write(b" ").is_ok() {
            std::thread::yield_now();
        }
        Stdio::from(pipe)
    };
    let digits = tool(&["encode", "--hex", "-e", REHEARSAL], b"").1;
    let run = |args: &[&str], out: Stdio, error: Stdio| {
        let mut child = command(&On(None, ""), args).stdout(out).stderr(error).spawn().unwrap();
        let _ = child.stdin.take().unwrap().write_all(digits.as_bytes());
        let output = child.wait_with_output().unwrap();
        (output.status.code(), String::from_utf8(output.stderr).unwrap())
    };
    for args in COMMANDS.iter().copied().chain([&["--help"][..], &["run", "--help"], &["--version"]]) {
        for (out, words) in [(full(), "No space left on device"), (closed(), "Broken pipe")] {
            let (status, error) = run(args, out, Stdio::piped());
            let last = error.lines().last().unwrap_or_default();
            assert!(last.starts_with(&format!("kalebasin: standard output: {words}")), "{args:?}: {error}");
            let progress = usize::from(args[0] == "search");
            assert_eq!((status, error.lines().count()), (Some(2), 1 + progress), "{args:?}: {error}");
        }
        assert_eq!(run(args, full(), full()).0, Some(2), "{args:?}");
        assert_eq!(run(args, closed(), closed()).0, Some(2), "{args:?}");
    }
    // A refusal is told only where all that goes before it was written.
    for args in [&["encode", "-e", "n=4"][..], &["rehearse"]] {
        let (status, error) = run(args, full(), Stdio::piped());
        assert!(status == Some(2) && error.starts_with("kalebasin: standard output: "), "{args:?}: {error}");
    }
    for option in ["--svg", "--dot"] {
        let (status, error) = run(&["run", option, "/dev/full", "-e", REHEARSAL], Stdio::null(), Stdio::piped());
        assert_eq!(
            (status, error.as_str()),
            (Some(2), "kalebasin: /dev/full: No space left on device (os error 28)\n")
        );
    }
}

/// Arguments that aren't UTF-8 name files, and are mistakes elsewhere.
#[test]
fn arguments_that_are_not_text() {
    let odd = OsStr::from_bytes(b"list-\xff");
    let folder = std::path::Path::new(env!("CARGO_TARGET_TMPDIR"));
    std::fs::write(folder.join(odd), REHEARSAL).unwrap();
    let run = |args: &[&OsStr]| {
        let mut command = Command::new(env!("CARGO_BIN_EXE_kalebasin"));
        let output = command.args(args).current_dir(folder).stdin(Stdio::null()).output().unwrap();
        (output.status.code().unwrap(), output.stdout, String::from_utf8(output.stderr).unwrap())
    };
    let text = OsStr::new;
    assert_eq!(run(&[text("draw"), odd]), run(&[text("draw"), text("-e"), text(REHEARSAL)]));
    assert_eq!(run(&[text("run"), text("--svg"), odd, text("-e"), text(REHEARSAL)]).0, 0);
    assert!(std::fs::read_to_string(folder.join(odd)).unwrap().starts_with("<svg"));
    for args in [
        &[odd][..],
        &[text("run"), text("-e"), odd],
        &[text("run"), text("--members"), odd],
        &[text("message"), odd],
        &[text("tree"), text("-e"), odd],
        &[text("tree"), text("--kind"), odd],
        &[text("search"), text("--property"), odd],
        &[text("run"), OsStr::from_bytes(b"--svg=\xff")],
        &[text("run"), OsStr::from_bytes(b"--\xff")],
        &[OsStr::from_bytes(b"-\xff")],
    ] {
        let (status, out, error) = run(args);
        assert_eq!((status, out.len(), error.lines().count()), (2, 0, 1), "{args:?}: {error}");
        assert!(error.starts_with("kalebasin: "), "{error}");
    }
}

/// The name of a refusal's number in the header: that of the variant in capitals.
fn header_name(refusal: &Refusal) -> String {
    let mut name = String::from("KALEBASIN");
    for letter in format!("{refusal:?}").chars() {
        if letter.is_uppercase() {
            name.push('_');
        }
        name.extend(letter.to_uppercase());
    }
    name
}

/// The numbers of refusals are 1 to 32 in order, and the C header has the same causes.
#[test]
fn refusals_and_the_header() {
    let header = include_str!("../../include/kalebasin.h");
    for (at, refusal) in Refusal::ALL.iter().enumerate() {
        assert_eq!(refusal.number() as usize, at + 1);
        assert_eq!(Refusal::from_number(refusal.number()), Some(*refusal));
        let name = header_name(refusal);
        assert!(header.contains(&format!("    {name} = {}", refusal.number())), "{refusal}");
        assert!(header.contains(&format!("case {name}: return \"{}\";", refusal.cause())), "{refusal}");
    }
    assert_eq!(Refusal::ALL.len(), 32);
    assert_eq!([0, 33].map(Refusal::from_number), [None, None]);
}
