//! Lists for pictures and pages, and what happens in them.

use kalebasin::{number_of, EventList, Slot, SLOTS};
use kalebasin_rig::generate::{self, Slots};
use kalebasin_rig::random::Random;
use kalebasin_rig::second::{self, model::Model};
use kalebasin_rig::trace::{trace, Trace};

/// Most sorts of refusals, deliveries again, to oneself and to nobody, a message that isn't there, and the largest offer.
pub const REFUSALS: &str =
    "s(3,1,7) d(0,0) s(1,1,7) s(1,0,7) s(2,1,7) s(1,1,7) d(0,0) d(0,0) d(1,0) d(1,1) d(1,1) d(2,1) d(5,1) \
     s(1,4,18446744073709551615) d(0,5) d(0,1) d(3,1) d(0,1) d(4,2) d(5,2) d(6,1) d(5,2) d(5,0) d(8,1)";

/// Slots 0 and 3 side by side: round 1 of each, a message of the other slot, a slot that isn't there and a member that isn't, and
/// a message that only the other slot's members get.
pub const SLOTS_SIDE_BY_SIDE: &str =
    "s(1,1,70) 3:s(1,1,80) d(0,0) 3:d(1,0) d(0,1) 3:d(1,1) 3:d(2,1) d(2,1) d(4,1) 3:d(3,1) 3:d(5,1) 8:d(0,0) 3:d(0,3) \
     3:d(6,2) 3:d(7,0) 3:d(7,1) 3:d(8,1) 3:d(9,1)";

/// The memory of the tool.
pub const STORE_ROWS: usize = 1_000;
pub const TABLE_ROWS: [usize; SLOTS] = [64; SLOTS];

/// A random list of so many events in slot 0.
pub fn random_list(seed: u64, n: u32, events: usize) -> EventList {
    let slots = Slots::one(Slot(0));
    generate::list_in(&slots, &mut Random::new(seed), n, events, STORE_ROWS, TABLE_ROWS).unwrap()
}

/// What happened, by the second implementation.
pub fn happened(list: &EventList) -> Trace {
    let (_, steps) = Model::run(list, STORE_ROWS, TABLE_ROWS).unwrap();
    let answers: Vec<u8> = steps.iter().map(|step| number_of(step) as u8).collect();
    trace(&second::CALLS, list, &answers, STORE_ROWS, TABLE_ROWS).unwrap()
}
