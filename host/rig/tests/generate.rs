//! What random lists reach of a START that comes again. What else they reach is asked in `second_play.rs`.

use kalebasin::{number_of, Event, Message, Round};
use kalebasin_rig::generate::{self, Case};
use kalebasin_rig::random::Random;
use kalebasin_rig::second::model::Model;
use std::collections::{BTreeMap, BTreeSet};

/// The stage of the member that this event brings a START to, if it has joined that round or a higher one.
fn stage(model: &Model, event: &Event) -> Option<&'static str> {
    let Event::Deliver { message, member, .. } = event else { return None };
    let Message::Start { slot: message_slot, round, .. } = *model.message(*message)? else { return None };
    let record = model.member(event.slot(), *member).filter(|record| record.slot == message_slot)?;
    match (record.j, record.v) {
        (joined, _) if joined < round => None,
        (joined, _) if joined > round => Some("in a higher round"),
        (_, voted) if voted == round => Some("voted in the round"),
        (_, Round::ROOT) => Some("never voted"),
        _ => Some("voted in a lower round"),
    }
}

/// Of a hundred lists at least so many have a START for a member in this stage that gets this number.
#[test]
fn starts_that_come_again() {
    let (mut random, mut counts, lists) = (Random::new(1), BTreeMap::new(), 20_000);
    for _ in 0..lists {
        let Case { list, lent } = generate::case(&mut random);
        let (store_rows, table_rows) = lent.whole_rows();
        let mut model = Model::new(list.n, store_rows, table_rows).unwrap();
        let mut reached = BTreeSet::new();
        for event in &list.events {
            let stage = stage(&model, event);
            let number = number_of(&model.take(event));
            reached.extend(stage.map(|stage| (stage, number)));
        }
        reached.into_iter().for_each(|one| *counts.entry(one).or_insert(0) += 1);
    }
    println!("of {lists} lists: {counts:#?}");
    let shares = [
        (("never voted", 0), 30),
        (("voted in a lower round", 0), 10),
        (("voted in the round", 22), 5),
        (("in a higher round", 22), 10),
        (("never voted", 30), 2),
        (("voted in a lower round", 30), 1),
    ];
    for (reached, percent) in shares {
        let count = counts.get(&reached).copied().unwrap_or(0);
        assert!(count * 100 >= lists * percent, "{reached:?}, {percent}: {counts:#?}");
    }
}
