//! The quick play, and the second implementation with the quick play's tree, against the second implementation, lent memory included.

mod compared;

use compared::{same, seed};
use kalebasin_rig::suite;
use kalebasin_rig::{quick, second, Calls};

const PAIR: [&Calls; 2] = [&quick::CALLS, &second::CALLS];

#[test]
fn every_list_of_up_to_four_events() {
    same("short lists", suite::short_lists(PAIR));
}

#[test]
fn every_three_events_after_each_part_of_the_rehearsal() {
    same("rehearsal tails", suite::rehearsal_tails(PAIR));
}

#[test]
fn every_list_of_up_to_four_events_in_slots() {
    same("lists in slots", suite::slot_lists(PAIR));
}

#[test]
fn every_two_events_after_each_part_of_the_rehearsal_in_another_slot() {
    same("rehearsal tails in slots", suite::slot_tails(PAIR));
}

#[test]
fn every_damaged_byte_of_some_lists() {
    same("damaged lists", suite::damaged_lists(PAIR));
}

#[test]
fn every_small_byte_string_as_a_list() {
    same("small list bytes", suite::small_list_bytes(PAIR));
}

#[test]
fn random_lists() {
    same("random lists", suite::random_lists(PAIR, seed(), 120_000, &mut |_| ()));
}

#[test]
fn random_lists_with_one_walk() {
    same("random lists", suite::random_lists([&quick::ONE_WALK, &second::CALLS], seed(), 120_000, &mut |_| ()));
}
