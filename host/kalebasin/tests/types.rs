//! The types that a host sees: lists from notation and from events, slots and their tables, refusals from numbers, trees in lent and
//! owned words, rounds made GHOST, previews, members, and numbers of every size.

use kalebasin::{made_ghost, nodes, notation, sent};
use kalebasin::{Event, EventList, Member, Message, MessageNumber, NoRefusal, Refusal, Round};
use kalebasin::{Slot, Status, Tables, TreeCall, TreeCallList, TreeKind, Vote, SLOTS, TABLE_ROW};
use std::collections::HashSet;

#[test]
fn lists_from_notation() {
    assert_eq!("n=5 s(1,1,70) d(0,2)".parse(), notation::parse("n=5 s(1,1,70) d(0,2)", None));
    assert_eq!("d(0,2)".parse::<EventList>().map(|list| list.n), Ok(notation::MEMBERS));
    let mistake = "n=3\ns(1;1,70)".parse::<EventList>().unwrap_err();
    assert_eq!((mistake.line, mistake.column), (2, 4));
}

/// A list without slots is of slot 0. Events of other slots have theirs in front, in notation; in bytes each has it behind its kind.
#[test]
fn slots_of_events() {
    let start = Event::start(Member(1), Round(1), 70);
    let delivery = Event::deliver(MessageNumber(0), Member(2));
    assert_eq!([start.slot(), delivery.slot()], [Slot(0); 2]);
    assert_eq!([start.in_slot(Slot(0)), delivery.in_slot(Slot(0))], [start, delivery]);
    let mut list = EventList::new(3);
    list.extend([start, delivery.in_slot(Slot(3)), start.in_slot(Slot(7)), delivery]);
    assert_eq!(list.to_string(), "n=3 s(1,1,70) 3:d(0,2) 7:s(1,1,70) d(0,2)");
    for text in
        [&list.to_string(), "0:s(1,1,70)3:d(0,2)7:s(1,1,70)0:d(0,2)", "s(1,1,70) 3 : # x\nd(0,2) 007:s(1,1,70) d(0,2)"]
    {
        assert_eq!(text.parse().as_ref(), Ok(&list), "{text}");
    }
    let words = [3, 4, 1, 0, 1, 1, 0, 70, 2, 3, 0, 2, 1, 7, 1, 1, 0, 70, 2, 0, 0, 2];
    let bytes: Vec<u8> = words.iter().flat_map(|word: &u32| word.to_be_bytes()).collect();
    assert_eq!((list.to_bytes(), EventList::from_bytes(&bytes)), (bytes.clone(), Ok(list)));
    for length in 0..bytes.len() {
        assert_eq!(EventList::from_bytes(&bytes[..length]), Err(Refusal::ListShape), "{length}");
    }
    for (text, column, what) in [
        ("3s(1,1,70)", 2, ": is missing after the slot number"),
        ("3", 2, ": is missing after the slot number"),
        ("4294967296", 11, ": is missing after the slot number"),
        ("3: ", 4, "s( or d( is missing after 3:"),
        ("3:4:s(1,1,70)", 3, "s( or d( is missing after 3:"),
        ("3:n=5", 3, "s( or d( is missing after 3:"),
        ("3:s", 4, "( is missing after s"),
        (":s(1,1,70)", 1, "an event starts with s( or d(, or with its slot as in 3:d(, not with ':'"),
        ("4294967296:s(1,1,70)", 1, "the slot number 4294967296 doesn't fit into 32 bits"),
    ] {
        let mistake = notation::Mistake { line: 1, column, what: what.into() };
        assert_eq!(text.parse::<EventList>(), Err(mistake));
    }
}

#[test]
fn slots_of_messages() {
    let vote = Vote { round: Round(1), value: 70 };
    for (message, words) in [
        (Message::start(Round(2), Member(0)), "START of round 2 from member 0 in slot 3"),
        (Message::join(Round(2), Member(0), None), "JOIN of round 2 from member 0 in slot 3, which never voted"),
        (
            Message::join(Round(2), Member(0), Some(vote)),
            "JOIN of round 2 from member 0 in slot 3, which voted for 70 in round 1",
        ),
        (Message::propose(Round(2), Member(0), 70), "PROPOSE of round 2 from member 0 in slot 3 with the value 70"),
        (Message::vote(Round(2), Member(0)), "VOTE of round 2 from member 0 in slot 3"),
    ] {
        let other = message.in_slot(Slot(3));
        assert_eq!((message.slot(), other.slot()), (Slot(0), Slot(3)));
        assert_eq!((other.to_string(), message.to_string()), (words.into(), words.replace(" in slot 3", "")));
        assert_eq!((other.in_slot(Slot(0)), other == message), (message, false));
        assert_eq!([other.kind(), &other.round().to_string()], [message.kind(), "2"]);
    }
    assert_eq!(Slot::ALL.map(|slot| slot.0 as usize), std::array::from_fn::<_, SLOTS, _>(|at| at));
}

#[test]
fn tree_calls_from_notation() {
    let text = "kind=command add(1,70,0) preview(2,80,1) commit(1) path(1) fresh";
    assert_eq!(text.parse(), notation::parse_tree(text, None));
    let calls = [
        TreeCall::Add { round: Round(1), value: 70, parent: Round::ROOT },
        TreeCall::Preview { round: Round(2), value: 80, parent: Round(1) },
        TreeCall::Commit(Round(1)),
        TreeCall::Path(Round(1)),
        TreeCall::Fresh,
    ];
    let list = TreeCallList { kind: TreeKind::Command, calls: calls.into() };
    assert_eq!(list.to_string(), text);
    assert_eq!(text.parse(), Ok(list));
    assert_eq!("fresh".parse::<TreeCallList>().map(|list| list.kind), Ok(notation::KIND));
    let mistake = "kind=value\nadd(1;70,0)".parse::<TreeCallList>().unwrap_err();
    assert_eq!((mistake.line, mistake.column), (2, 6));
    for kind in TreeKind::ALL {
        assert_eq!(TreeKind::from_name(&kind.to_string()), Some(kind));
    }
    assert_eq!(["", "Value", "values"].map(TreeKind::from_name), [None; 3]);
}

#[test]
fn lists_from_events() {
    let events = [Event::start(Member(1), Round(1), 70), Event::deliver(MessageNumber(0), Member(2))];
    let mut built = EventList::new(3);
    built.start(Member(1), Round(1), 70).deliver(MessageNumber(0), Member(2));
    assert_eq!(events.into_iter().collect::<EventList>(), built);
    let mut extended = EventList::new(7);
    extended.extend(events);
    extended.extend(events);
    assert_eq!(extended.to_string(), "n=7 s(1,1,70) d(0,2) s(1,1,70) d(0,2)");
}

#[test]
fn refusals_from_numbers() {
    for number in (0..1_000).chain([u32::MAX]) {
        assert_eq!(Refusal::try_from(number).ok(), Refusal::from_number(number));
        assert_eq!(Refusal::try_from(number).map_or_else(|none| none.0, u32::from), number);
    }
    assert_eq!(Refusal::try_from(19), Ok(Refusal::NotLeader));
    assert_eq!(Refusal::try_from(0), Err(NoRefusal(0)));
    assert_eq!(NoRefusal(33).to_string(), "33 isn't the number of a refusal");
}

/// Tables of any number of rows in each slot, none too: each slot has its own words, and together they are all.
#[test]
fn tables_of_slots() {
    for rows in [[1; SLOTS], [0; SLOTS], [3, 0, 1, 256, 0, 2, 7, 4], [4, 0, 0, 0, 0, 0, 0, 0], [0, 0, 0, 0, 0, 0, 0, 4]]
    {
        let tables = Tables::new(rows);
        assert_eq!(tables.lengths(), &rows.map(|rows| rows * TABLE_ROW));
        assert_eq!(tables.words().len(), rows.iter().sum::<usize>() * TABLE_ROW);
        let mut at = tables.words().as_ptr();
        for ((slot, table), rows) in tables.iter().zip(rows) {
            assert_eq!((table, table.as_ptr(), table.len()), (tables.slot(slot), at, rows * TABLE_ROW));
            at = table.as_ptr_range().end;
        }
        assert_eq!((tables.iter().count(), at), (SLOTS, tables.words().as_ptr_range().end));
        assert_eq!([8, 9, u32::MAX].map(|slot| tables.slot(Slot(slot))), [&[]; 3]);
    }
}

/// What is equal counts once in a set.
#[test]
fn values_in_sets() {
    let lists: HashSet<EventList> =
        ["s(1,1,70)", "n=3 s(1,1,70)", "n=5 s(1,1,70)"].map(|text| text.parse().unwrap()).into();
    assert_eq!(lists.len(), 2);
    let table = [0, 0, 0, 3, 1, 0, 70, 1, 0, 0, 0, 0];
    assert_eq!(nodes(&table).chain(nodes(&table)).collect::<HashSet<_>>().len(), 2);
}

const NUMBERS: [u32; 12] = [0, 1, 2, 3, 6, 7, 8, 999_999, 1_000_000, 1_000_001, u32::MAX - 1, u32::MAX];

/// No number makes a function panic: neither an argument nor a byte or word of what it reads.
#[test]
fn numbers_of_every_size() {
    for number in NUMBERS {
        for n in NUMBERS {
            let leader = Round(number).leader(n);
            assert_eq!(leader.is_none(), n == 0);
            assert!(leader.is_none_or(|leader| leader.0 < n));
            let mut list = EventList::new(n);
            list.start(Member(number), Round(number), u64::MAX).deliver(MessageNumber(number), Member(number));
            let in_other_slots: Vec<Event> = list.events.iter().map(|event| event.in_slot(Slot(n))).collect();
            list.extend(in_other_slots);
            assert_eq!(EventList::from_bytes(&list.to_bytes()).as_ref(), Ok(&list));
            assert_eq!(list.to_string().parse().as_ref(), Ok(&list));
            let (round, parent) = (Round(number), Round(n));
            let calls = vec![
                TreeCall::Add { round, value: u64::MAX, parent },
                TreeCall::Preview { round, value: u64::MAX, parent },
                TreeCall::Commit(round),
                TreeCall::Fresh,
                TreeCall::Path(parent),
            ];
            for kind in TreeKind::ALL {
                let list = TreeCallList { kind, calls: calls.clone() };
                assert_eq!(list.to_string().parse().as_ref(), Ok(&list));
            }
        }
        assert_eq!(Round(number).in_range(), (1..=1_000_000).contains(&number));
        assert_eq!(Slot(number).in_range(), Slot::ALL.contains(&Slot(number)));
        let (round, sender) = (Round(number), Member(number));
        for message in [
            Message::start(round, sender),
            Message::join(round, sender, Some(Vote { round, value: u64::MAX })),
            Message::propose(round, sender, u64::MAX),
            Message::vote(round, sender),
        ] {
            let message = message.in_slot(Slot(number));
            assert_eq!((message.slot(), message.round(), message.sender()), (Slot(number), round, sender));
            assert!(message.to_string().starts_with(message.kind()));
        }
        for length in 0..=3 * 32 {
            assert!(sent(&vec![0xff; length], number).count() <= length / 32);
            assert!(sent(&vec![0; length], number).all(|bytes| bytes.len() <= 32));
        }
    }
    for word in [0, 1, 2, 3, 4, 1 << 32, u64::MAX] {
        assert_eq!(Status::from_word(word).is_some(), (1..=3).contains(&word));
        for length in 0..=13 {
            assert!(nodes(&vec![word; length]).count() <= length / 4);
            let ghosts = made_ghost(&vec![1; length], &[word; 13]).count();
            assert_eq!(ghosts, if word == 2 { length / 4 } else { 0 });
        }
    }
}

/// The same of the calls into the core.
#[cfg(feature = "core")]
#[test]
fn calls_with_numbers_of_every_size() {
    use kalebasin::{play, read_message, tree, MemberRecord};
    tree_calls_with_numbers_of_every_size::<tree::Value>();
    tree_calls_with_numbers_of_every_size::<tree::Command>();
    for number in NUMBERS {
        for length in 0..=32 {
            let words: Vec<u8> = number.to_be_bytes().into_iter().cycle().take(length).collect();
            assert_eq!(read_message(&words).is_ok(), [(1, 16), (3, 24)].contains(&(number, length)), "{words:?}");
            let mut list = EventList::new(number);
            list.start(Member(number), Round(number), u64::MAX).deliver(MessageNumber(number), Member(number));
            let other_slots: Vec<Event> = list.events.iter().map(|event| event.in_slot(Slot(number))).collect();
            list.extend(other_slots);
            let (mut store, mut words, mut answers) = (vec![9; length], [9; 40], vec![9; length]);
            let played = play(&list.to_bytes(), &mut store, &mut words, &[4, 4, 8, 4, 4, 4, 4, 8], &mut answers);
            assert_eq!(played.is_ok(), [3, 7].contains(&number) && length == 32);
            let mut tables = Tables::new([number as usize % 300; SLOTS]);
            let played = tables.play(&list.to_bytes(), &mut store, &mut answers);
            assert_eq!(played.is_ok(), [3, 7].contains(&number) && length == 32);
        }
        for other in NUMBERS {
            for members in NUMBERS {
                let fresh = MemberRecord::fresh(Slot(number), Member(other), members);
                assert_eq!(fresh.is_ok(), number <= 7 && other < members && [3, 7].contains(&members));
                let fields = fresh.map(|record| record.fields()).map(|of| (of.slot, of.number, of.members));
                assert_eq!(
                    fields.unwrap_or((Slot(number), Member(other), members)),
                    (Slot(number), Member(other), members)
                );
            }
            let mut lengths = [number as usize; SLOTS];
            lengths[7] = other as usize;
            let (no_events, mut words) = (EventList::new(3).to_bytes(), [9; 60]);
            let played = play(&no_events, &mut [9; 32], &mut words, &lengths, &mut []);
            assert_eq!(played, Err(Refusal::TableLength));
            assert_eq!(words, [9; 60]);
        }
    }
}

/// Play takes lengths that are those of tables and that fill the words exactly, equal or not, and leaves a tree in each slot; [`Tables`]
/// does the same.
#[cfg(feature = "core")]
#[test]
fn play_in_tables_of_slots() {
    use kalebasin::play;
    let text = "2:s(1,1,70) 7:s(1,1,80) 2:d(0,0) 2:d(0,1) 7:d(0,0) 7:d(1,0) 7:d(1,1) 2:d(2,1) 2:d(3,1) 7:d(4,1) \
                7:d(5,1) 2:d(5,1)";
    let list: EventList = text.parse().unwrap();
    let (bytes, mut store, mut answers) = (list.to_bytes(), [9; 32 * 8], [9; 13]);
    let right = [[8; SLOTS], [4, 4, 8, 4, 4, 4, 4, 8], [1_024, 4, 8, 12, 4, 16, 4, 8]];
    for lengths in right {
        let mut words = vec![9; lengths.iter().sum()];
        let played = play(&bytes, &mut store, &mut words, &lengths, &mut answers).unwrap();
        assert_eq!(
            [played.accepted, played.messages, played.proposals, played.decisions, played.ghosts],
            [10, 8, 2, 0, 0]
        );
        assert_eq!(answers, [0, 0, 0, 0, 32, 0, 0, 0, 0, 0, 0, 32, 9]);
        let mut tables = Tables::new(lengths.map(|length| length / TABLE_ROW));
        assert_eq!(tables.play(&bytes, &mut store, &mut answers), Ok(played));
        assert_eq!(tables.words(), words);
        for (slot, table) in tables.iter() {
            let values: Vec<u64> = nodes(table).map(|node| node.value).collect();
            let expected: &[u64] = match slot.0 {
                2 => &[0, 70],
                7 => &[0, 80],
                _ => &[0],
            };
            assert_eq!(values, expected);
        }
    }
    for (lengths, sum) in right.iter().map(|lengths| (lengths, lengths.iter().sum::<usize>())) {
        for count in [0, 4, sum - 4, sum - 1, sum + 1, sum + 4] {
            let mut words = vec![9; count];
            assert_eq!(play(&bytes, &mut store, &mut words, lengths, &mut answers), Err(Refusal::TableLength));
            assert_eq!(words, vec![9; count]);
        }
        for slot in 0..SLOTS {
            for length in [0, 1, 3, 5, 1_028, usize::MAX] {
                let mut other = *lengths;
                other[slot] = length;
                let mut words = vec![9; (sum - lengths[slot]).saturating_add(length).min(9_000)];
                assert_eq!(play(&bytes, &mut store, &mut words, &other, &mut answers), Err(Refusal::TableLength));
            }
        }
    }
    assert_eq!(Tables::new([0; SLOTS]).play(&bytes, &mut store, &mut answers), Err(Refusal::TableLength));
    assert_eq!(Tables::new([257; SLOTS]).play(&bytes, &mut store, &mut answers), Err(Refusal::TableLength));
}

/// A member keeps its slot, sends messages of it and takes those of no other.
#[cfg(feature = "core")]
#[test]
fn members_of_slots() {
    use kalebasin::{read_message, MemberRecord};
    let mut reply = [0; Message::LONGEST];
    for slot in Slot::ALL {
        let mut leader = MemberRecord::fresh(slot, Member(1), 3).unwrap();
        let sent = leader.start(Round(1), 70, &mut reply).unwrap().sent;
        let start = reply[..sent].to_vec();
        assert_eq!(read_message(&start), Ok(Message::start(Round(1), Member(1)).in_slot(slot)));
        for other in Slot::ALL {
            let fresh = MemberRecord::fresh(other, Member(0), 3).unwrap();
            let mut member = fresh.clone();
            let report = member.deliver(&start, &mut reply);
            if other != slot {
                assert_eq!((report, member), (Err(Refusal::WrongSlot), fresh));
                continue;
            }
            let join = read_message(&reply[..report.unwrap().sent]);
            assert_eq!(join, Ok(Message::join(Round(1), Member(0), None).in_slot(slot)));
            assert_eq!((member.fields().slot, member.fields().joined), (slot, Round(1)));
        }
    }
    let mut fields = MemberRecord::fresh(Slot(7), Member(1), 3).unwrap().fields();
    fields.slot = Slot(8);
    let mut unsound = MemberRecord::from_fields(fields);
    assert_eq!(unsound.start(Round(1), 70, &mut reply), Err(Refusal::RecordUnsound));
    assert_eq!(unsound.fields(), fields);
}

#[cfg(feature = "core")]
fn tree_calls_with_numbers_of_every_size<K: kalebasin::tree::Kind>() {
    use kalebasin::tree::Tree;
    for length in 0..=13 {
        let mut fresh = vec![9; length];
        let is_table = [4, 8, 12].contains(&length);
        assert_eq!(Tree::<K, _>::fresh(&mut fresh).is_ok(), is_table);
        for (table, is_tree) in [(&fresh, is_table), (&vec![u64::MAX; length], false)] {
            let tree = || Tree::<K, _>::from_table(table.clone());
            for round in NUMBERS.map(Round) {
                for parent in NUMBERS.map(Round) {
                    let added = tree().add(round, u64::MAX, parent);
                    let in_order = round.in_range() && parent == Round::ROOT;
                    assert_eq!(added.is_ok(), is_tree && length > 4 && in_order);
                    for room in 0..=13 {
                        let shown = tree().preview(&mut vec![u64::MAX; room], round, u64::MAX, parent);
                        let lengths_differ = is_table && room != length;
                        assert_eq!(shown, if lengths_differ { Err(Refusal::LengthsDiffer) } else { added });
                    }
                    let ghosts = tree().would_make_ghost(round, u64::MAX, parent);
                    assert_eq!(ghosts.map(|rounds| rounds.len() as u32), added);
                }
                assert!(tree().commit(round).is_err());
                assert_eq!(tree().path(round, &mut [0; 2]).is_ok(), is_tree && round == Round::ROOT);
            }
        }
    }
}

/// What holds the words may be lent or owned. It comes back with the tree, and a refused call leaves it.
#[cfg(feature = "core")]
#[test]
fn trees_in_words_lent_and_owned() {
    use kalebasin::{CommandTree, ValueTree};
    const GROWN: [u64; 8] = [0, 0, 0, 3, 1, 0, 70, 3];
    fn grow<T: AsMut<[u64]> + AsRef<[u64]>>(table: T) -> T {
        let mut tree = ValueTree::fresh(table).unwrap();
        tree.add(Round(1), 70, Round::ROOT).unwrap();
        tree.commit(Round(1)).unwrap();
        assert_eq!(tree.add(Round(2), 70, Round(1)), Err(Refusal::NoFreeRow));
        assert_eq!((tree.table(), tree.nodes().count()), (&GROWN[..], 2));
        tree.into_table()
    }
    let mut words = [9; 8];
    assert_eq!(*grow(&mut words), GROWN);
    assert_eq!(*grow(&mut words[..]), GROWN);
    assert_eq!(grow([9; 8]), GROWN);
    assert_eq!(grow(vec![9; 8]), GROWN);
    assert_eq!(*grow(vec![9; 8].into_boxed_slice()), GROWN);
    assert_eq!(ValueTree::from_table(&words[..]).path(Round(1), &mut [0; 2]), Ok(2));
    assert_eq!(ValueTree::fresh(&mut words[..7]).err(), Some(Refusal::TableLength));
    assert_eq!(words, GROWN);
    assert_eq!(CommandTree::from(ValueTree::from_table(words)), CommandTree::from_table(words));
}

/// An add answers how many rounds were ADDED before it and are GHOST after it; a copy of the table tells which. Those that were GHOST
/// before aren't counted, nor is the new one, though it may be GHOST from the first, as rounds 4 and 6 here. A preview answers the
/// same before the add, in a second table that held anything, and leaves the tree.
#[cfg(feature = "core")]
#[test]
fn rounds_made_ghost() {
    use kalebasin::tree::{Command, Kind, Tree, Value};
    fn grow<K: Kind + Clone>() {
        let mut tree = Tree::<K, _>::fresh(vec![9; 32]).unwrap();
        for (round, value, parent, ghosts) in [
            (1, 5, 0, &[][..]),
            (2, 5, 1, &[]),
            (5, 6, 0, &[1, 2]),
            (4, 5, 2, &[]),
            (7, 6, 5, &[]),
            (6, 8, 0, &[5]),
            (8, 9, 0, &[7]),
        ] {
            let (round, parent, mut second) = (Round(round), Round(parent), [u64::MAX; 32]);
            let ghosts: Vec<Round> = ghosts.iter().copied().map(Round).collect();
            let before = tree.clone();
            assert_eq!(tree.would_make_ghost(round, value, parent).as_ref(), Ok(&ghosts));
            assert_eq!(tree.preview(&mut second, round, value, parent), Ok(ghosts.len() as u32));
            assert_eq!(tree.table(), before.table());
            assert_eq!(tree.add(round, value, parent), Ok(ghosts.len() as u32));
            assert_eq!(tree.table(), second);
            assert_eq!(made_ghost(before.table(), tree.table()).collect::<Vec<_>>(), ghosts);
        }
        let ghosts: Vec<Round> =
            tree.nodes().filter(|node| node.status == Status::Ghost).map(|node| node.round).collect();
        assert_eq!(ghosts, [1, 2, 5, 4, 7, 6].map(Round));
        let (before, mut second) = (tree.clone(), [u64::MAX; 32]);
        assert_eq!(tree.preview(&mut second, Round(9), 9, Round(8)), Err(Refusal::NoFreeRow));
        assert_eq!(tree.would_make_ghost(Round(9), 9, Round(8)), Err(Refusal::NoFreeRow));
        assert_eq!(tree.add(Round(9), 9, Round(8)), Err(Refusal::NoFreeRow));
        assert_eq!((tree.table(), second), (before.table(), [u64::MAX; 32]));
    }
    grow::<Value>();
    grow::<Command>();
}

/// Play adds up what its adds answer: rounds 1 and 2 are made GHOST by round 4; round 3, proposed behind it, is GHOST from the first.
#[cfg(feature = "core")]
#[test]
fn rounds_made_ghost_in_play() {
    let text = "s(1,1,70) d(0,0) d(0,1) d(1,1) d(2,1) d(3,0) s(2,2,80) d(5,0) d(5,2) d(6,2) d(7,2) s(0,3,90) d(9,1) \
                d(9,2) d(10,0) s(1,4,60) d(12,1) d(12,2) d(13,1) d(14,1) d(11,0)";
    let list: EventList = text.parse().unwrap();
    let (mut store, mut tables, mut answers) = ([0; 32 * 17], Tables::new([5; SLOTS]), [0; 21]);
    let played = tables.play(&list.to_bytes(), &mut store, &mut answers).unwrap();
    assert_eq!([played.accepted, played.proposals, played.decisions, played.ghosts], [21, 4, 0, 2]);
    let nodes: Vec<(u32, Status)> =
        nodes(tables.slot(Slot(0))).skip(1).map(|node| (node.round.0, node.status)).collect();
    assert_eq!(nodes, [(1, Status::Ghost), (2, Status::Ghost), (4, Status::Added), (3, Status::Ghost)]);
}

/// Each kind's calls take the tables that calls of that kind can leave: a value tree's those that a command tree's take, and not
/// all of them.
#[cfg(feature = "core")]
#[test]
fn trees_of_both_kinds() {
    use kalebasin::{CommandTree, ValueTree};
    let (mut words, mut second) = ([0; 16], [9; 16]);
    let (mut path, whole) = ([0; 4], [0, 1, 2, 0]);
    let mut edits = CommandTree::from(ValueTree::fresh(&mut words).unwrap());
    edits.add(Round(1), 70, Round::ROOT).unwrap();
    edits.add(Round(2), 80, Round(1)).unwrap();
    assert_eq!((edits.path(Round(2), &mut path), path), (Ok(3), whole));
    let mut values = ValueTree::from_table(words);
    assert_eq!(values.add(Round(3), 80, Round(2)), Err(Refusal::NotATree));
    assert_eq!(values.preview(&mut second, Round(3), 80, Round(2)), Err(Refusal::NotATree));
    assert_eq!(values.would_make_ghost(Round(3), 80, Round(2)), Err(Refusal::NotATree));
    assert_eq!(values.preview(&mut second[1..], Round(3), 80, Round(2)), Err(Refusal::LengthsDiffer));
    assert_eq!(second, [9; 16]);
    assert_eq!(values.commit(Round(2)), Err(Refusal::NotATree));
    assert_eq!(values.path(Round(2), &mut path), Err(Refusal::NotATree));
    assert_eq!((values.into_table(), path), (words, whole));
    let edits = CommandTree::from_table(&words[..]);
    assert_eq!(edits.preview(&mut second, Round(3), 90, Round(1)), Ok(1));
    assert_eq!(second, [0, 0, 0, 3, 1, 0, 70, 1, 2, 1, 80, 2, 3, 1, 90, 1]);
    assert_eq!(edits.preview(&mut [], Round(3), 90, Round(1)), Err(Refusal::LengthsDiffer));
    assert_eq!(edits.would_make_ghost(Round(3), 90, Round(1)), Ok(vec![Round(2)]));
    CommandTree::from_table(&mut words).commit(Round(2)).unwrap();
    assert_eq!(CommandTree::from_table(words).add(Round(3), 80, Round(1)), Err(Refusal::CrossesCommitted));
}
