//! Numbers of every size in the rig's library: what no office, memory or tree has is refused, and nothing panics that doesn't
//! say so.

use kalebasin::notation::parse;
use kalebasin::{EventList, Member, Message, Refusal, Round, Slot, TreeKind, SLOTS};
use kalebasin_rig::compare::{play, Lent};
use kalebasin_rig::explain::{explain, ghosts_otherwise};
use kalebasin_rig::generate::{self, Case, Slots};
use kalebasin_rig::random::Random;
use kalebasin_rig::search::{clean_case, few_events, Run, Search, Source, ALWAYS};
use kalebasin_rig::second::member::{fresh, Decision, Proposal};
use kalebasin_rig::second::model::{Breach, Made, MadeAt, Model, SlotBreach};
use kalebasin_rig::second::tree::is_tree;
use kalebasin_rig::shrink::shrink;
use kalebasin_rig::suite::REHEARSAL;
use kalebasin_rig::trace::{model_ghosts, trace};
use kalebasin_rig::{draw, explain_tree, second};

const NO_OFFICES: [u32; 8] = [0, 1, 2, 4, 6, 8, 9, u32::MAX];

/// The rehearsal for another number of members.
fn list(n: u32) -> EventList {
    let mut list = parse(REHEARSAL, None).unwrap();
    list.n = n;
    list
}

#[test]
fn offices_that_are_none() {
    for n in NO_OFFICES {
        let list = list(n);
        let case = clean_case(list.clone(), 20, 4);
        let refused = Some(Refusal::OfficeSize);
        assert_eq!(Model::new(n, 20, [4; SLOTS]).err(), refused);
        assert_eq!(Model::run(&list, 20, [4; SLOTS]).err(), refused);
        assert_eq!(explain(&list, 20, [4; SLOTS]).err(), refused);
        assert_eq!(ghosts_otherwise(&list, 0, 20, [4; SLOTS]).err(), refused);
        assert_eq!(trace(&second::CALLS, &list, &[0; 15], 20, [4; SLOTS]).err(), refused);
        assert_eq!(generate::list(&mut Random::new(1), n, 9, 20, [4; SLOTS]).err(), refused);
        assert_eq!(few_events(n).err(), refused);
        assert_eq!(Run::new(&second::CALLS, &case).err(), refused);
        assert!(matches!(Source::Random { lists: 1, members: Some(n) }.case(1, 0).list.n, 3 | 5 | 7));
        let source = Source::Orders { lists: 3, of: case.clone() };
        let search = Search { calls: &second::CALLS, properties: ALWAYS.iter().collect(), seed: 1, source };
        assert!(search.run(1, &mut |_| ()).is_none());
        let shrunk = |events| shrink(case.clone(), &mut |case| case.list.n == n && case.list.events.len() >= events);
        assert_eq!([0, 2, 15].map(|events| shrunk(events).list.events.len()), [0, 2, 15]);
    }
}

/// A run asks for what play asks for, in its order.
#[test]
fn memory_that_play_refuses() {
    let run_with = |store, tables, misfit, answers, events: usize| {
        let list = parse(&"d(0,0)".repeat(events), None).unwrap();
        Run::new(&second::CALLS, &Case { list, lent: Lent { store, tables, misfit, answers, dirt: 0 } }).err()
    };
    let run = |store, table, answers, events| run_with(store, [table; SLOTS], 0, answers, events);
    assert_eq!(run(32, 4, 2, 2), None);
    assert_eq!(run(0, 0, 0, 1_001), Some(Refusal::ListShape));
    for (store, answers) in [(0, 2), (31, 2), (33, 2), (32 * 2_001, 2), (usize::MAX, 2), (32, 1)] {
        assert_eq!(run(store, 0, answers, 2), Some(Refusal::StoreOrAnswers), "{store} {answers}");
    }
    for table in [0, 3, 5, 4 * 257, usize::MAX] {
        assert_eq!(run(32, table, 2, 2), Some(Refusal::TableLength), "{table}");
        for slot in 0..SLOTS {
            let mut tables = [4; SLOTS];
            tables[slot] = table;
            assert_eq!(run_with(32, tables, 0, 2, 2), Some(Refusal::TableLength), "{tables:?}");
        }
    }
    for misfit in [isize::MIN, -1, 1, isize::MAX] {
        assert_eq!(run_with(32, [4; SLOTS], misfit, 2, 2), Some(Refusal::TableLength), "{misfit}");
    }
    let rows = Lent::rows(usize::MAX, usize::MAX, 0);
    assert_eq!((rows.store, rows.tables, rows.words()), (usize::MAX, [usize::MAX; SLOTS], usize::MAX));
    assert_eq!(Lent { misfit: isize::MIN, ..Lent::rows(1, 1, 0) }.words(), 0);
}

/// What there are too few words for is empty, and so is what no slot has.
#[test]
fn tables_that_were_not_lent() {
    let bytes = list(3).to_bytes();
    let left = play(&second::CALLS, &bytes, &Lent { misfit: -6, ..Lent::rows(20, 1, 15) });
    assert_eq!(left.result, Err(Refusal::TableLength));
    let lengths: Vec<usize> = (0..9).map(|slot| left.table(Slot(slot)).len()).collect();
    assert_eq!(lengths, [4, 4, 4, 4, 4, 4, 0, 0, 0]);
    let tables = [usize::MAX, 4, usize::MAX, 4, 4, 4, 4, 4];
    let left = play(&second::CALLS, &bytes, &Lent { misfit: isize::MIN, tables: [1; SLOTS], ..Lent::rows(20, 1, 15) });
    assert!((0..9).chain([u32::MAX]).all(|slot| left.table(Slot(slot)).is_empty()));
    assert_eq!(
        second::play::play(&bytes, &mut [0; 640], &mut [0; 32], &tables, &mut [0; 15]),
        Err(Refusal::TableLength)
    );
}

/// What says that it panics does.
#[test]
fn lists_of_no_slot() {
    for used in [vec![], vec![Slot(8)], vec![Slot(u32::MAX)]] {
        let slots = Slots { used, stray: 0 };
        let list = || generate::list_in(&slots, &mut Random::new(1), 3, 9, 20, [4; SLOTS]);
        assert!(std::panic::catch_unwind(list).is_err(), "{slots:?}");
    }
}

/// The model has room for no proposal in a table of no rows, and no tree has more than 256.
#[test]
fn tables_of_every_size() {
    for rows in [0, 1] {
        let explained = explain(&list(3), 20, [rows; SLOTS]).unwrap();
        assert_eq!(explained[5].answer, Refusal::NoFreeRow.number());
    }
    for rows in [0, 257, usize::MAX] {
        for slot in Slot::ALL {
            let mut table_rows = [4; SLOTS];
            table_rows[slot.0 as usize] = rows;
            let (model, _) = Model::run(&list(3), usize::MAX, table_rows).unwrap();
            let breach = SlotBreach { slot, breach: Breach::Table(Refusal::TableLength) };
            assert_eq!((model.third_demand(), model_ghosts(&model)), (Err(breach), Err(breach)));
            assert_eq!(ghosts_otherwise(&list(3), 0, 20, table_rows).err(), Some(Refusal::TableLength));
            let traced = trace(&second::CALLS, &list(3), &[0; 15], 20, table_rows);
            assert_eq!(traced.err(), Some(Refusal::TableLength));
        }
        let calls = "add(1,70,0)".parse().unwrap();
        assert_eq!(explain_tree::explain(&second::CALLS, &calls, rows).err(), Some(Refusal::TableLength));
    }
    for words in [0, 1, 3, 5, 1_023, 1_025, 4_096] {
        assert!(TreeKind::ALL.iter().all(|kind| !is_tree(*kind, &vec![0; words])), "{words}");
    }
}

/// What the tree refuses of what was made is told, and no round is counted.
#[test]
fn made_what_the_tree_refuses() {
    let decided = MadeAt { event: 4, made: Made::Decision(Decision { round: Round(1), value: 70 }) };
    let proposed = Made::Proposal(Proposal { round: Round(1), value: 70, parent: Round(2) });
    let proposed = MadeAt { event: 0, made: proposed };
    for slot in Slot::ALL {
        let mut model = Model::new(3, 20, [4; SLOTS]).unwrap();
        let broken = |breach| Err(SlotBreach { slot, breach });
        model.slots[slot.0 as usize].made = vec![decided];
        assert_eq!(model_ghosts(&model), broken(Breach::Refused(decided, Refusal::RoundAbsent)));
        model.slots[slot.0 as usize].made = vec![proposed, decided];
        assert_eq!(model_ghosts(&model), broken(Breach::Refused(proposed, Refusal::ParentAbsent)));
    }
}

/// Nodes that are their own parents or one another's don't keep a drawing from its end.
#[test]
fn tables_that_are_no_trees() {
    for rows in [[1, 0, 1, 1], [1, 2, 2, 1], [1, 1, 1, 1], [0, 1, 1, 0]] {
        let [a, b, c, d] = rows;
        let table = [0, 0, 0, 3, a, b, 7, 1, c, d, 7, 1];
        assert!(draw::text(&table).starts_with("root\n") && draw::svg(&table).ends_with("</svg>\n"));
        assert!(draw::dot(&table).ends_with("}\n"));
        for [before, after] in [[&table[..], &[]], [&[], &table]] {
            assert!(draw::text_beside(before, after).starts_with("before "));
            assert!(draw::svg_beside(before, after).ends_with("</svg>\n"));
            assert!(draw::dot_beside(before, after).ends_with("}\n"));
        }
    }
}

/// A record for more members than there are flags takes no sender that has none.
#[test]
fn records_that_are_not_sound() {
    let mut record = fresh(Slot(0), Member(1), 3).unwrap();
    record.n = u32::MAX;
    record.start(Round(1), 70).unwrap();
    for sender in [7, u32::MAX - 1, u32::MAX] {
        assert_eq!(record.deliver(&Message::join(Round(1), Member(sender), None)), Err(Refusal::WrongSender));
    }
}

/// What says that it panics does, before it asks for any memory.
#[test]
fn lists_of_no_number() {
    let all = Source::All { of: clean_case(EventList::new(3), 1, 1), longest: 5 };
    assert!(all.case(1, 0).list.events.is_empty());
    assert!(std::panic::catch_unwind(|| all.case(1, 1)).is_err());
}
