//! The example `machines`: members on threads of their own, over UDP, come to know one value in each of two slots, whatever the
//! shim loses, repeats and holds back.

#![cfg(feature = "core")]

#[allow(dead_code)]
#[path = "../examples/machines.rs"]
mod machines;

use std::ffi::OsString;
use std::time::Duration;

/// The lines of a run that ends well.
fn run(members: u32, seed: u64, lost: usize) -> Vec<String> {
    let (text, agreed) = machines::run(members, seed, lost, machines::LONGEST_RUN, machines::MOST_DATAGRAMS).unwrap();
    assert!(agreed, "{members} members, seed {seed}, {lost} in a hundred lost:\n{text}");
    text.lines().map(str::to_owned).collect()
}

/// The number in front of a word of the last line but one.
fn count(lines: &[String], word: &str) -> usize {
    let line = &lines[lines.len() - 2];
    let words: Vec<&str> = line.split([' ', ',', ':', ';']).filter(|word| !word.is_empty()).collect();
    let at = words.iter().position(|other| *other == word).unwrap_or_else(|| panic!("no {word} in: {line}"));
    words[..at].iter().rev().find_map(|number| number.parse().ok()).unwrap()
}

#[test]
fn all_members_know_one_value_in_each_slot() {
    for members in [3, 5, 7] {
        for (seed, lost) in [(1, 0), (2, 20), (3, 50)] {
            let lines = run(members, seed, lost);
            for (slot, value) in [("slot 0: ", " knows 7"), ("slot 5: ", " knows 57")] {
                let of_slot = || lines.iter().filter(|line| line.starts_with(slot));
                assert!(of_slot().any(|line| line.contains(" decided ")), "{lines:?}");
                assert_eq!(of_slot().filter(|line| line.contains(value)).count(), members as usize, "{lines:?}");
            }
            assert_eq!(lines.last().unwrap(), "all know the same value in each slot");
        }
    }
}

#[test]
fn the_shim_loses_repeats_and_holds_back() {
    let lines = run(5, 4, 70);
    for word in ["datagrams", "lost", "repeated", "held"] {
        assert!(count(&lines, word) > 0, "{word}: {lines:?}");
    }
    assert_eq!(count(&run(3, 5, 0), "lost"), 0);
}

/// With all datagrams lost nobody knows anything, and that is told.
#[test]
fn no_decision_is_told() {
    let (text, agreed) = machines::run(3, 6, 100, Duration::from_secs(1), machines::MOST_DATAGRAMS).unwrap();
    assert!(!agreed && text.ends_with("NOT all know the same value in each slot\n"), "{text}");
    for slot in [0, 5] {
        assert!(text.contains(&format!("slot {slot}: member 2 knows of no decision\n")), "{text}");
    }
}

/// A run sends no more datagrams than it may, and ends then.
#[test]
fn datagrams_are_bounded() {
    let (text, agreed) = machines::run(3, 7, 0, machines::LONGEST_RUN, 5).unwrap();
    assert!(!agreed && text.contains("\n5 datagrams: "), "{text}");
}

#[test]
fn arguments() {
    let asked = |text: &str| machines::asked(text.split_whitespace().map(OsString::from));
    assert_eq!((asked(""), asked("7 9 90")), (Some((5, 1, 20)), Some((7, 9, 90))));
    for text in ["4", "+5", "3 x", "3 1 91", "3 1 0 0"] {
        assert_eq!(asked(text), None, "{text}");
    }
}
