//! The cases of the program `tree_cases`, which makes the proved calls of trees of both kinds: its stored output is what the
//! second implementation gives for its stored input.

use kalebasin::{number_of, Round, TreeKind, TABLE_ROW, TABLE_ROWS};
use kalebasin_rig::second::tree::{add, commit, fresh, path, preview};
use std::collections::BTreeSet;
use std::fs;

/// The program's table, how many of its words are lent, how many a preview is lent, and the numbers given.
struct Run {
    words: [u64; TABLE_ROW * TABLE_ROWS],
    lent: usize,
    second: usize,
    given: Given,
}

/// The numbers that previews of each kind give, and those of the other calls.
#[derive(Default)]
struct Given {
    previews: [BTreeSet<u32>; 2],
    others: [BTreeSet<u32>; 2],
}

impl Run {
    /// What the program writes behind a call, `a(1,5,0)`: the number; behind an add, a path and a preview also the count of its answer,
    /// and behind a path or a preview the words lent to it.
    fn call(&mut self, text: &str) -> String {
        let (name, arguments) = text.strip_suffix(')').and_then(|call| call.split_once('(')).expect(text);
        let numbers: Vec<u32> = arguments.split(',').map(|number| number.parse().expect(text)).collect();
        let kind = if name.starts_with(char::is_uppercase) { TreeKind::Command } else { TreeKind::Value };
        if let ("f", [words]) = (name, &numbers[..]) {
            self.lent = *words as usize;
        }
        if let ("f" | "s", [words]) = (name, &numbers[..]) {
            self.second = *words as usize;
        }
        let table = &mut self.words[..self.lent];
        let mut out = Vec::new();
        let answer = match (name, &numbers[..]) {
            ("f", [_]) => fresh(table).map(|()| 0),
            ("a" | "A", [round, value, parent]) => {
                add(kind, table, Round(*round), u64::from(*value), Round(*parent)).map(|ghosts| ghosts as usize)
            }
            ("c" | "C", [round]) => commit(kind, table, Round(*round)).map(|()| 0),
            ("p" | "P", [round, room]) => {
                out.resize(*room as usize, 0);
                path(kind, table, Round(*round), &mut out)
            }
            ("v" | "V", [round, value, parent]) => {
                out.resize(self.second, 7);
                let shown = preview(kind, table, &mut out, Round(*round), u64::from(*value), Round(*parent));
                shown.map(|ghosts| ghosts as usize)
            }
            ("s", [_]) => return String::new(),
            ("w", [word, value]) => {
                table[*word as usize] = u64::from(*value);
                return String::new();
            }
            _ => panic!("the program has no call {text}"),
        };
        let given = if let "v" | "V" = name { &mut self.given.previews } else { &mut self.given.others };
        given[kind as usize].insert(number_of(&answer));
        let mut written = vec![u64::from(number_of(&answer))];
        if let "a" | "A" | "p" | "P" | "v" | "V" = name {
            written.push(answer.unwrap_or(0) as u64);
        }
        written.extend(out);
        written.iter().map(|number| format!(" {number}")).collect()
    }

    /// What the program writes for a line.
    fn line(&mut self, line: &str) -> String {
        let parts: Vec<String> = line
            .split(' ')
            .map(|part| if part.contains('(') { format!("{part}{}", self.call(part)) } else { part.into() })
            .collect();
        let rows = self.words[..self.lent].chunks_exact(TABLE_ROW).take_while(|row| row[3] != 0);
        let nodes = rows.map(|row| format!(" | {} {} {} {}", row[0], row[1], row[2], row[3]));
        parts.join(" ") + &nodes.collect::<String>() + "\n"
    }
}

/// A file of the program.
fn file(name: &str) -> String {
    format!("{}/../../crates/tree_cases/{name}", env!("CARGO_MANIFEST_DIR"))
}

/// The output for the stored input, and the numbers given.
fn worked() -> (String, Given) {
    let mut run = Run { words: [0; TABLE_ROW * TABLE_ROWS], lent: 0, second: 0, given: Given::default() };
    let input = fs::read_to_string(file("stdin")).expect("the program's cases");
    (input.lines().map(|line| run.line(line)).collect(), run.given)
}

/// The program's output to the letter. Previews of values get every number that they have, and so do the other calls; those of
/// commands every one but 7.
#[test]
fn the_program_tree_cases() {
    let (output, given) = worked();
    assert_eq!(output, fs::read_to_string(file("stdout")).expect("the program's output"));
    let previews: BTreeSet<u32> = (0..=9).chain([31]).collect();
    for ([values, commands], mut numbers) in [(given.previews, previews), (given.others, (0..=13).collect())] {
        assert_eq!(values, numbers);
        numbers.remove(&7);
        assert_eq!(commands, numbers);
    }
}

#[test]
#[ignore = "writes the program's output anew, after a change of the cases"]
fn write_the_output() {
    fs::write(file("stdout"), worked().0).unwrap();
}
