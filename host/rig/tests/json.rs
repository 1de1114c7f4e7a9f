//! The JSON of a run, from the tool: an object for each event, with the fields that docs/host-notes.md names.

use kalebasin_rig::suite::{MADE_GHOST, REHEARSAL};
use std::process::Command;

/// Status, standard output and standard error of the tool.
fn tool(args: &[&str]) -> (i32, String, String) {
    let output = Command::new(env!("CARGO_BIN_EXE_kalebasin")).args(args).output().unwrap();
    let text = |bytes| String::from_utf8(bytes).unwrap();
    (output.status.code().unwrap(), text(output.stdout), text(output.stderr))
}

/// The JSON of a list on the second implementation; that of the core is the same.
fn json(list: &str) -> String {
    let (status, out, error) = tool(&["run", "--json", "--second", "-e", list]);
    assert_eq!((status, error.as_str()), (0, ""));
    assert_eq!(tool(&["run", "--json", "-e", list]).1, out);
    out
}

/// The section of docs/host-notes.md about JSON.
fn documented() -> &'static str {
    let notes = include_str!("../../../docs/host-notes.md");
    let (_, section) = notes.split_once("\n## A run as JSON\n").expect("the notes have the section");
    section.split("\n## ").next().unwrap()
}

#[test]
fn the_documented_line() {
    let printed = json(REHEARSAL);
    assert_eq!(printed.lines().count(), 15);
    let example: String = documented().lines().filter_map(|line| line.strip_prefix("    ")).collect();
    assert_eq!(printed.lines().last(), Some(example.as_str()));
}

/// Every name that occurs is in the notes; names are what stands in quotes in front of a colon.
#[test]
fn every_field_is_documented() {
    let printed = json(REHEARSAL) + &json("s(3,1,7) d(0,0) s(2,1,7)");
    let mut names: Vec<&str> =
        printed.split("\":").filter_map(|part| part.rsplit_once('"')).map(|part| part.1).collect();
    names.sort_unstable();
    names.dedup();
    assert_eq!(names.len(), 36, "{names:?}");
    for name in names {
        assert!(documented().contains(&format!("`{name}`")), "{name}");
    }
}

/// A proposal has the number of rounds that it made GHOST, and its nodes have them; one that is GHOST from the first isn't counted.
#[test]
fn rounds_made_ghost() {
    let printed = json(MADE_GHOST);
    assert_eq!(printed.lines().count(), 21);
    let node = |round, parent, value, status| {
        format!("{{\"round\":{round},\"parent\":{parent},\"value\":\"{value}\",\"status\":\"{status}\"}}")
    };
    let by_round_4 = [node(1, 0, 70, "GHOST"), node(2, 1, 70, "GHOST"), node(4, 0, 60, "ADDED")].join(",");
    for (at, line) in printed.lines().enumerate() {
        let (ghosts, nodes) = match at {
            4 => ("0", node(1, 0, 70, "ADDED")),
            10 => ("0", node(2, 1, 70, "ADDED")),
            19 => ("2", by_round_4.clone()),
            20 => ("0", node(3, 0, 90, "GHOST")),
            _ => ("null", String::new()),
        };
        assert!(line.contains(&format!(",\"ghosts\":{ghosts},\"model_ghosts\":{ghosts},\"late\":null,")), "{line}");
        assert!(line.ends_with(&format!(",\"nodes\":[{nodes}]}}")), "{line}");
    }
}

/// An event and a message have their slot, also where they are of different ones; one slot alone keeps the numbers of its events.
#[test]
fn slots() {
    let list = "s(1,1,70) 3:s(1,1,80) 3:d(0,0) 8:d(0,0)";
    let printed = json(list);
    let lines: Vec<&str> = printed.lines().collect();
    assert!(lines[0].contains(r#""kind":"start","slot":0,"member":1,"#), "{printed}");
    assert!(lines[1].contains(r#""sent":{"number":1,"kind":"START","slot":3,"round":1,"sender":1},"#), "{printed}");
    assert!(lines[2].contains(r#""kind":"deliver","slot":3,"message":0,"member":0},"answer":32,"#), "{printed}");
    assert!(lines[2].contains(r#""delivered":{"kind":"START","slot":0,"round":1,"sender":1},"#), "{printed}");
    assert!(lines[2].contains(r#""before":{"slot":3,"member":0,"#), "{printed}");
    assert!(lines[3].contains(r#""slot":8,"#) && lines[3].contains(r#""before":null,"after":null,"#), "{printed}");
    let (status, alone, _) = tool(&["run", "--json", "--second", "--slot", "3", "-e", list]);
    assert_eq!((status, alone), (0, format!("{}\n{}\n", lines[1], lines[2])));
}

/// A refused list has no events to tell of; a file that can't be written is a mistake, and the JSON is there all the same.
#[test]
fn refused_lists_and_files_that_fail() {
    for more in [&["--json"][..], &["--html", "/nowhere/page.html"]] {
        let (status, out, _) = tool(&[&["run", "-e", "n=4 s(1,1,7)"], more].concat());
        assert!(status == 1 && !out.contains("notation"), "{out}");
    }
    let (status, out, error) = tool(&["run", "--json", "--html", "/nowhere/page.html", "-e", "s(1,1,7)"]);
    assert_eq!((status, out.lines().count()), (2, 1));
    assert!(error.starts_with("kalebasin: /nowhere/page.html: "), "{error}");
}
