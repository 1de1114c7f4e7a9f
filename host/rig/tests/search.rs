//! The lists that a search goes through, and what it finds on how many threads; shrinking, and where bytes go wrong.

use kalebasin::notation::parse;
use kalebasin::{nodes, Event, EventList, Played, Refusal, Round, Slot, Status, SLOTS, STORE_ROW, TABLE_ROW};
use kalebasin_rig::generate::Case;
use kalebasin_rig::search::{clean_case, few_events, Property, Run, Search, Source, ALWAYS, SOMETIMES};
use kalebasin_rig::shape::misshape;
use kalebasin_rig::shrink::shrink;
use kalebasin_rig::suite::{LOST_JOIN, REHEARSAL};
use kalebasin_rig::{second, suite, Calls};
use std::collections::BTreeSet;

fn case(text: &str) -> Case {
    let list = parse(text, None).unwrap();
    let events = list.events.len();
    clean_case(list, events, 4)
}

/// Each list once, shorter ones first, each with an answer byte for each event.
#[test]
fn all_lists() {
    let events = case("n=5 s(1,1,10) d(0,0) d(0,1)");
    let source = Source::All { of: events.clone(), longest: 4 };
    let lists = source.lists().unwrap();
    assert_eq!(lists, 1 + 3 + 9 + 27 + 81);
    let cases: Vec<Case> = (0..lists).map(|number| source.case(1, number)).collect();
    assert!(cases.is_sorted_by_key(|case| case.list.events.len()));
    assert!(cases.iter().all(|case| case.lent.answers == case.list.events.len() && case.list.n == 5));
    assert!(cases.iter().flat_map(|case| &case.list.events).all(|event| events.list.events.contains(event)));
    let texts: BTreeSet<String> = cases.iter().map(|case| case.list.to_string()).collect();
    assert_eq!((texts.len() as u64, cases.last().map(|case| case.list.events.len())), (lists, Some(4)));
    assert_eq!(Source::All { of: events, longest: 41 }.lists(), None);
    assert_eq!(Source::All { of: case("n=3"), longest: 9 }.lists(), Some(1));
}

#[test]
fn few_events_of_each_office() {
    for n in [3, 5, 7] {
        let list = few_events(n).unwrap();
        assert_eq!((list.n, list.events.len()), (n, 2 + 4 * n as usize));
        assert_eq!(list.events[1], Event::start(Round(2).leader(n).unwrap(), Round(2), 20));
    }
}

/// A seed and a number give the same list again; another of either gives another.
#[test]
fn random_lists_by_number() {
    let source = Source::Random { lists: 100, members: Some(5) };
    let cases: BTreeSet<String> = (0..10)
        .flat_map(|seed| (0..100).map(move |number| (seed, number)))
        .map(|(seed, number)| {
            let case = source.case(seed, number);
            assert_eq!((case.list.n, &case), (5, &source.case(seed, number)));
            format!("{case:?}")
        })
        .collect();
    assert_eq!(cases.len(), 1_000);
}

/// However many threads there are, the same list is found, and without one as many lists are tried as asked for.
#[test]
fn threads() {
    for (seed, property) in (1..).zip(SOMETIMES) {
        let found = [1, 2, 7].map(|threads| {
            let source = Source::Random { lists: 10_000, members: None };
            let search = Search { calls: &second::CALLS, properties: vec![property], seed, source };
            search.run(threads, &mut |_| ()).unwrap_or_else(|| panic!("{} never fails", property.name)).case
        });
        assert!(found[0] == found[1] && found[0] == found[2], "{}: {found:?}", property.name);
    }
    for threads in [0, 1, 3] {
        let source = Source::Random { lists: 333, members: None };
        let search = Search { calls: &second::CALLS, properties: ALWAYS.iter().collect(), seed: 1, source };
        let mut tried = 0;
        assert!(search.run(threads, &mut |progress| tried = progress.lists).is_none());
        assert_eq!(tried, 333);
    }
}

fn property(name: &str) -> &'static Property {
    ALWAYS.iter().chain(SOMETIMES).find(|property| property.name == name).unwrap()
}

/// Two JOINs of one member for one round that differ are told; JOINs of two members may, and those of two slots.
#[test]
fn joins_that_differ() {
    fn voted(
        list: &[u8],
        store: &mut [u8],
        words: &mut [u64],
        lengths: &[usize; SLOTS],
        answers: &mut [u8],
    ) -> Result<Played, Refusal> {
        let played = (second::CALLS.play)(list, store, words, lengths, answers);
        store[2 * STORE_ROW + 19] = 1;
        played
    }
    let faulty = Calls { play: voted, ..second::CALLS };
    let how = |calls, list| (property("joins").fails)(calls, &Run::new(calls, &case(list)).unwrap());
    let told = "messages 1 and 2 are JOINs of one member for one round, and differ";
    assert_eq!(how(&faulty, LOST_JOIN).as_deref(), Some(told));
    assert_eq!([how(&faulty, REHEARSAL), how(&second::CALLS, LOST_JOIN)], [None, None]);
    assert_eq!(how(&faulty, "s(1,1,70) d(0,0) 3:s(1,1,80) 3:d(1,0)"), None);
    assert_eq!(how(&faulty, "3:s(1,1,70) 3:d(0,0) 3:d(0,0)").as_deref(), Some(told));
}

/// A sum of rounds made GHOST that isn't that of the tables before and after each add is told.
#[test]
fn ghosts_that_are_miscounted() {
    fn all_ghosts(
        list: &[u8],
        store: &mut [u8],
        words: &mut [u64],
        lengths: &[usize; SLOTS],
        answers: &mut [u8],
    ) -> Result<Played, Refusal> {
        let mut played = (second::CALLS.play)(list, store, words, lengths, answers)?;
        let table = &words[..lengths[0]];
        played.ghosts = nodes(table).filter(|node| node.status == Status::Ghost).count() as u32;
        Ok(played)
    }
    let faulty = Calls { play: all_ghosts, ..second::CALLS };
    let how = |calls, list| (property("counts").fails)(calls, &Run::new(calls, &case(list)).unwrap());
    // Round 2 is proposed, then round 1, which is GHOST from the first.
    let from_the_first = "s(1,1,70) d(0,0) d(0,1) d(1,1) s(2,2,80) d(3,0) d(3,2) d(4,2) d(5,2) d(2,1)";
    let told = "[10, 8, 2, 0, 0] are held and [10, 8, 2, 0, 1] are said";
    assert_eq!(how(&faulty, from_the_first).as_deref(), Some(told));
    assert_eq!([how(&faulty, REHEARSAL), how(&second::CALLS, from_the_first)], [None, None]);
}

/// The shortest list in which a JOIN is sent again: a start, and its START twice to one member.
#[test]
fn a_join_again() {
    let source = Source::Random { lists: 10_000, members: None };
    let search = Search { calls: &second::CALLS, properties: vec![property("no-join-again")], seed: 1, source };
    let found = search.run(2, &mut |_| ()).unwrap();
    let events = &found.case.list.events;
    assert!(events.len() == 3 && events[1] == events[2], "{}", found.case.list);
}

/// Slots get low: they come together where that fails too, and else stay apart and keep their tables.
#[test]
fn shrunk_slots() {
    let lent_in = |case: &Case, slot: Slot| case.lent.tables[slot.0 as usize];
    let starts = || {
        let mut case = case("5:s(1,1,10) 9:s(2,2,20) 7:s(0,3,30)");
        case.lent.tables = [1, 2, 3, 4, 5, 6, 7, 8].map(|rows| rows * TABLE_ROW);
        case
    };
    let all = |case: &Case| case.list.events.len() == 3;
    let slots = |case: &Case| case.list.events.iter().map(Event::slot).collect::<Vec<_>>();
    assert_eq!(slots(&shrink(starts(), &mut |case| all(case))), [0, 0, 0].map(Slot));
    let apart = |case: &Case| all(case) && slots(case).iter().collect::<BTreeSet<_>>().len() == 3;
    assert_eq!(slots(&shrink(starts(), &mut |case| apart(case))), [0, 2, 1].map(Slot));
    let kept = |case: &Case| apart(case) && lent_in(case, slots(case)[2]) == 8 * TABLE_ROW;
    assert_eq!(slots(&shrink(starts(), &mut |case| kept(case))), [0, 2, 1].map(Slot));
    let above = |case: &Case| all(case) && !slots(case)[1].in_range();
    assert_eq!(slots(&shrink(starts(), &mut |case| above(case))), [0, 8, 0].map(Slot));
}

/// An event that is taken out takes its message along; those of other slots keep theirs.
#[test]
fn shrunk_lists_of_slots() {
    let whole = "7:s(1,1,10) s(1,1,20) 7:d(0,0) d(1,0) 3:d(1,0) 7:d(2,1)";
    let last = |case: &Case| case.list.to_string().ends_with("d(1,1)");
    let shrunk = shrink(case(whole), &mut |case| {
        let run = Run::new(&second::CALLS, case).unwrap();
        last(case) && run.answers.last() == Some(&0)
    });
    assert_eq!(shrunk.list.to_string(), "n=3 s(1,1,10) d(0,0) d(1,1)");
}

fn offers(list: &EventList) -> Vec<u64> {
    let offer = |event: &Event| if let Event::Start { offer, .. } = event { Some(*offer) } else { None };
    list.events.iter().filter_map(offer).collect()
}

/// Offers get small and stay apart, also where one of them has to stay.
#[test]
fn shrunk_offers() {
    let starts = "s(1,1,500) s(2,2,500) s(0,3,18446744073709551615) s(1,4,10)";
    let all = |case: &Case| case.list.events.len() == 4;
    assert_eq!(offers(&shrink(case(starts), &mut |case| all(case)).list), [10, 20, 30, 40]);
    let kept = |case: &Case, kept: u64| all(case) && offers(&case.list).contains(&kept);
    assert_eq!(offers(&shrink(case(starts), &mut |case| kept(case, u64::MAX)).list), [20, 30, u64::MAX, 10]);
    let equal = |case: &Case| all(case) && offers(&case.list)[0] == offers(&case.list)[1];
    let shrunk = offers(&shrink(case(starts), &mut |case| equal(case)).list);
    assert_eq!(shrunk, [500, 500, 20, 10]);
}

/// What is wrong with the bytes of a list is told of exactly those that are refused with 26, at a byte that is there or
/// right behind the last.
#[test]
fn shapes_of_lists() {
    let lists = ["n=3 s(1,1,70) 7:d(0,0) d(1,1)", "n=5", "n=7 d(0,0) 8:s(6,6,0)"]
        .map(|text| parse(text, None).unwrap().to_bytes());
    let mut refused = 0;
    for list in lists {
        suite::each_damage(&list, &mut |bytes| {
            let misshape = misshape(bytes);
            let read = EventList::from_bytes(bytes);
            assert_eq!(read.as_ref().err(), misshape.as_ref().map(|_| &Refusal::ListShape), "{bytes:?}");
            assert!(misshape.is_none_or(|misshape| misshape.byte <= bytes.len()), "{bytes:?}");
            refused += usize::from(read.is_err());
            Ok(())
        })
        .unwrap();
    }
    assert!(refused > 5_000, "{refused}");
}
