//! The second implementation's tree against documents 01 and 02, for both kinds of trees: cases P1 to P11, the four
//! properties and history statuses on every short list of calls, trees as the tables that calls leave, how many rounds an
//! add made GHOST, previews beside adds, and what the kinds have to do with one another.

use kalebasin::{nodes, number_of, Node, Round, Status, TreeKind};
use kalebasin_rig::random::Random;
use kalebasin_rig::second::tree::{add, commit, fresh, is_tree, made_ghost, path, preview};
use std::collections::{BTreeMap, HashSet};

#[derive(Clone, Copy, Debug)]
enum Call {
    Add(u32, u64, u32),
    Commit(u32),
}
use Call::{Add, Commit};

fn fresh_table(rows: usize) -> Vec<u64> {
    let mut table = vec![7; rows * 4];
    fresh(&mut table).unwrap();
    table
}

fn call(kind: TreeKind, table: &mut [u64], call: Call) -> u32 {
    match call {
        Add(round, value, parent) => number_of(&add(kind, table, Round(round), value, Round(parent))),
        Commit(round) => number_of(&commit(kind, table, Round(round))),
    }
}

fn run(kind: TreeKind, rows: usize, calls: &[Call]) -> (Vec<u32>, Vec<u64>) {
    let mut table = fresh_table(rows);
    (calls.iter().map(|one| call(kind, &mut table, *one)).collect(), table)
}

/// The number of a path call, or how many rounds it wrote; and the words lent, which are 99 at first.
fn path_of(kind: TreeKind, table: &[u64], round: u32, room: usize) -> (Result<usize, u32>, Vec<u64>) {
    let mut out = vec![99; room];
    (path(kind, table, Round(round), &mut out).map_err(|refusal| refusal.number()), out)
}

/// The answer of a preview and the second table, which held these words.
fn preview_of(kind: TreeKind, table: &[u64], held: &[u64], (r, v, p): (u32, u64, u32)) -> (Result<u32, u32>, Vec<u64>) {
    let mut second = held.to_vec();
    (preview(kind, table, &mut second, Round(r), v, Round(p)).map_err(|refusal| refusal.number()), second)
}

fn status(table: &[u64], round: u32) -> Status {
    nodes(table).find(|node| node.round == Round(round)).unwrap().status
}

/// A number that check 7 comes before, if the kind has that.
fn behind_7(kind: TreeKind, number: u32) -> u32 {
    match kind {
        TreeKind::Value => 7,
        TreeKind::Command => number,
    }
}

/// The kinds differ in P5.
#[test]
fn cases_p1_to_p11() {
    let p6 = [Add(1, 5, 0), Add(3, 6, 0), Add(2, 5, 1)];
    let p7 = [&p6[..], &[Commit(3), Add(4, 5, 2), Add(5, 6, 3)]].concat();
    for kind in TreeKind::ALL {
        let cases: &[(&str, usize, &[Call], &[u32])] = &[
            ("P1", 8, &[Add(1, 5, 0)], &[0]),
            ("P2", 8, &[Add(1, 5, 0), Add(1, 5, 0)], &[0, 4]),
            ("P3", 8, &[Add(1, 5, 1)], &[5]),
            ("P4", 8, &[Add(3, 5, 0), Add(2, 5, 3)], &[0, 6]),
            ("P5", 8, &[Add(1, 5, 0), Add(2, 6, 1)], &[0, behind_7(kind, 0)]),
            ("P6", 8, &p6, &[0, 0, 0]),
            ("P7", 8, &p7, &[0, 0, 0, 0, 8, 0]),
            ("P8", 8, &[Add(1, 5, 0), Commit(1), Add(3, 5, 1), Commit(3), Add(2, 6, 0)], &[0, 0, 0, 0, 8]),
            ("P9", 8, &[Commit(0), Commit(1)], &[3, 10]),
            ("P10", 1, &[Add(1, 5, 0)], &[9]),
            ("P11", 8, &[Add(1_000_000, 0, 0), Add(1_000_001, 0, 0)], &[0, 3]),
        ];
        for (name, rows, calls, answers) in cases {
            assert_eq!(run(kind, *rows, calls).0, *answers, "{name}, {kind}");
        }
        let (_, table) = run(kind, 8, &p6);
        assert_eq!([1, 2, 3].map(|round| status(&table, round)), [Status::Ghost, Status::Ghost, Status::Added]);
    }
}

/// A preview of an add that is refused gets its number, and leaves the second table.
#[test]
fn refusals_in_order() {
    for kind in TreeKind::ALL {
        let mut table = run(kind, 4, &[Add(2, 5, 0), Add(4, 5, 2), Commit(4), Add(6, 5, 4)]).1;
        let whole = table.clone();
        let cases = [
            (Add(0, 5, 9), 3),
            (Add(1_000_001, 5, 9), 3),
            (Add(4, 9, 9), 4),
            (Add(5, 9, 5), 5),
            (Add(5, 9, u32::MAX), 5),
            (Add(3, 9, 4), 6),
            (Add(3, 9, 2), behind_7(kind, 9)),
            (Add(5, 9, 2), behind_7(kind, 8)),
            (Add(5, 5, 2), 8),
            (Add(5, 5, 4), 9),
            (Commit(0), 3),
            (Commit(1_000_001), 3),
            (Commit(5), 10),
            (Commit(4), 11),
        ];
        for (one, number) in cases {
            assert_eq!(call(kind, &mut table, one), number, "{one:?}, {kind}");
            assert_eq!(table, whole, "{one:?}, {kind}");
            if let Add(r, v, p) = one {
                let shown = preview_of(kind, &table, &[99; 16], (r, v, p));
                assert_eq!(shown, (Err(number), vec![99; 16]), "{one:?}, {kind}");
            }
        }
        let (answers, _) = run(kind, 8, &[Add(1, 5, 0), Add(2, 5, 0), Commit(1), Commit(2)]);
        assert_eq!(answers, [0, 0, 12, 0], "{kind}");
    }
}

#[test]
fn lengths() {
    for length in 0..=1_100 {
        let mut table = vec![9; length];
        let allowed = (4..=1_024).contains(&length) && length % 4 == 0;
        assert_eq!(number_of(&fresh(&mut table)), u32::from(!allowed), "{length}");
        let mut expected = vec![if allowed { 0 } else { 9 }; length];
        if allowed {
            expected[3] = 3;
        }
        assert_eq!(table, expected);
        for kind in TreeKind::ALL.into_iter().filter(|_| !allowed) {
            let numbers = [Add(0, 0, 0), Commit(0)].map(|one| call(kind, &mut table, one));
            assert_eq!(numbers, [1, 1], "{length}, {kind}");
            assert_eq!(path_of(kind, &table, 2_000_000, 0), (Err(1), vec![]), "{length}, {kind}");
            assert_eq!(table, expected);
        }
    }
}

#[test]
fn paths() {
    for (kind, value) in [(TreeKind::Value, 6), (TreeKind::Command, 6), (TreeKind::Command, 8)] {
        let (_, table) = run(kind, 8, &[Add(1, 5, 0), Add(3, 6, 0), Add(2, 5, 1), Add(7, value, 3)]);
        let path_of = |round, room| path_of(kind, &table, round, room);
        assert_eq!(path_of(0, 2), (Ok(1), vec![0, 99]));
        assert_eq!(path_of(0, 0), (Err(13), vec![]));
        assert_eq!(path_of(7, 4), (Ok(3), vec![0, 3, 7, 99]));
        assert_eq!(path_of(2, 3), (Ok(3), vec![0, 1, 2]));
        assert_eq!(path_of(2, 2), (Err(13), vec![99, 99]));
        assert_eq!(path_of(4, 0), (Err(10), vec![]));
        assert_eq!(path_of(1_000_001, 0), (Err(3), vec![]));
    }
}

const VALUES: [u64; 2] = [0, 5];

/// Every add and commit of rounds 1 to `k` with two values.
fn alphabet(k: u32) -> Vec<Call> {
    let adds = (1..=k).flat_map(|r| (0..=k).flat_map(move |p| VALUES.map(|v| Add(r, v, p))));
    adds.chain((1..=k).map(Commit)).collect()
}

/// The four properties, in their order. The third has its value clause for a value tree alone.
fn has_properties(kind: TreeKind, calls: &[Call]) -> bool {
    let edges: Vec<(usize, u32, u64, u32)> = calls
        .iter()
        .enumerate()
        .filter_map(|(at, one)| if let Add(r, v, p) = *one { Some((at, r, v, p)) } else { None })
        .collect();
    let commits: Vec<(usize, u32)> = calls
        .iter()
        .enumerate()
        .filter_map(|(at, one)| if let Commit(r) = *one { Some((at, r)) } else { None })
        .collect();
    let once = |rounds: Vec<u32>| rounds.iter().collect::<HashSet<_>>().len() == rounds.len();
    let p1 = once(edges.iter().map(|edge| edge.1).collect()) && once(commits.iter().map(|commit| commit.1).collect());
    let p2 = commits.iter().all(|(at, r)| edges.iter().any(|edge| edge.0 < *at && edge.1 == *r));
    let value_fits = |v: u64, of_parent: u64| kind == TreeKind::Command || of_parent == v;
    let p3 = edges.iter().all(|(at, r, v, p)| {
        p < r && (*p == 0 || edges.iter().any(|edge| edge.0 < *at && edge.1 == *p && value_fits(*v, edge.2)))
    });
    let p4 = commits.iter().all(|(_, c)| !edges.iter().any(|(_, r, _, p)| p < c && c < r));
    p1 && p2 && p3 && p4
}

fn history_status(calls: &[Call], round: u32) -> Status {
    if calls.iter().any(|one| matches!(one, Commit(r) if *r == round)) {
        Status::Committed
    } else if calls.iter().any(|one| matches!(one, Add(r, _, p) if *p < round && round < *r)) {
        Status::Ghost
    } else {
        Status::Added
    }
}

fn each_list(alphabet: &[Call], length: usize, calls: &mut Vec<Call>, look: &mut dyn FnMut(&[Call])) {
    look(calls);
    if length > 0 {
        for one in alphabet {
            calls.push(*one);
            each_list(alphabet, length - 1, calls, look);
            calls.pop();
        }
    }
}

/// Every list of up to 4 calls of rounds 1 to 3, with what it comes to for a kind: the list, the numbers, the table.
fn each_short_run(kind: TreeKind, mut look: impl FnMut(&[Call], &[u32], &[u64])) {
    let mut lists = 0;
    each_list(&alphabet(3), 4, &mut Vec::new(), &mut |calls| {
        lists += 1;
        let (answers, table) = run(kind, 6, calls);
        look(calls, &answers, &table);
    });
    assert_eq!(lists, 551_881);
}

/// Every short list: OK throughout exactly if it has the four properties, and then the table is the adds in order with
/// history statuses.
#[test]
fn accepted_lists_are_those_with_the_four_properties() {
    for kind in TreeKind::ALL {
        each_short_run(kind, |calls, answers, table| {
            let accepted = answers.iter().all(|number| *number == 0);
            assert_eq!(accepted, has_properties(kind, calls), "{calls:?}, {kind}");
            if accepted {
                let expected = calls.iter().filter_map(|one| match *one {
                    Add(r, v, p) => Some([u64::from(r), u64::from(p), v, history_status(calls, r) as u64]),
                    Commit(_) => None,
                });
                let mut whole: Vec<u64> = [0, 0, 0, 3].into_iter().chain(expected.flatten()).collect();
                whole.resize(24, 0);
                assert_eq!(table, whole, "{calls:?}, {kind}");
            }
        });
    }
}

/// How many rounds each add made GHOST, or its refusal. Each commit is to get OK.
fn made_by_adds(kind: TreeKind, rows: usize, calls: &[Call]) -> Vec<Result<u32, u32>> {
    let mut table = fresh_table(rows);
    let mut answers = Vec::new();
    for one in calls {
        match *one {
            Add(round, value, parent) => {
                let answer = add(kind, &mut table, Round(round), value, Round(parent));
                answers.push(answer.map_err(|refusal| refusal.number()));
            }
            Commit(round) => commit(kind, &mut table, Round(round)).unwrap(),
        }
    }
    answers
}

/// Each case is the same for both kinds.
#[test]
fn rounds_made_ghost_by_hand() {
    let chain = [Add(1, 5, 0), Add(2, 5, 1), Add(3, 5, 2)];
    let after_chain = |last: Call| [&chain[..], &[last]].concat();
    let cases: &[(&str, &[Call], &[u32])] = &[
        ("the first", &[Add(1, 5, 0)], &[0]),
        ("ancestors", &chain, &[0, 0, 0]),
        ("one", &after_chain(Add(4, 5, 2)), &[0, 0, 0, 1]),
        ("all but an ancestor", &after_chain(Add(4, 5, 1)), &[0, 0, 0, 2]),
        ("several", &after_chain(Add(4, 6, 0)), &[0, 0, 0, 3]),
        // Round 3 crosses rounds 1 and 2, of which 1 is GHOST.
        ("GHOST already", &[Add(1, 5, 0), Add(2, 6, 0), Add(3, 7, 0)], &[0, 1, 1]),
        ("all GHOST already", &[Add(1, 5, 0), Add(3, 6, 0), Add(4, 6, 3), Add(2, 5, 0)], &[0, 1, 0, 0]),
        ("born GHOST, P6", &[Add(1, 5, 0), Add(3, 6, 0), Add(2, 5, 1)], &[0, 1, 0]),
        ("born GHOST, one struck", &[Add(1, 5, 0), Add(3, 5, 1), Add(2, 6, 0)], &[0, 0, 1]),
        ("born GHOST, two struck", &[Add(1, 5, 0), Add(2, 5, 1), Add(5, 5, 2), Add(4, 6, 0)], &[0, 0, 0, 2]),
        (
            "COMMITTED ancestors",
            &[Add(1, 5, 0), Add(2, 5, 1), Commit(2), Commit(1), Add(3, 5, 2), Add(4, 5, 2)],
            &[0, 0, 0, 1],
        ),
    ];
    for kind in TreeKind::ALL {
        for (name, calls, made) in cases {
            let answers: Vec<_> = made.iter().map(|made| Ok(*made)).collect();
            assert_eq!(made_by_adds(kind, 8, calls), answers, "{name}, {kind}");
        }
        // Refused adds make nothing GHOST: round 2 is left for the last one that is accepted.
        let refused = [
            Add(1, 5, 0),
            Commit(1),
            Add(2, 5, 1),
            Add(2, 5, 1),
            Add(1_000_001, 5, 1),
            Add(3, 5, 9),
            Add(3, 6, 0),
            Add(3, 5, 1),
            Add(4, 5, 1),
        ];
        let answers = [Ok(0), Ok(0), Err(4), Err(3), Err(5), Err(8), Ok(1), Err(9)];
        assert_eq!(made_by_adds(kind, 4, &refused), answers, "{kind}");
    }
}

/// No node has its parent's value.
#[test]
fn rounds_of_other_values_made_ghost() {
    let calls = [Add(1, 5, 0), Add(2, 6, 1), Add(3, 7, 2), Add(4, 8, 3), Add(5, 9, 1), Add(7, 5, 5), Add(6, 4, 1)];
    let answers = [Ok(0), Ok(0), Ok(0), Ok(0), Ok(3), Ok(0), Ok(1)];
    assert_eq!(made_by_adds(TreeKind::Command, 8, &calls), answers);
    let for_values = [Ok(0), Err(7), Err(5), Err(5), Err(7), Err(5), Err(7)];
    assert_eq!(made_by_adds(TreeKind::Value, 8, &calls), for_values);
}

/// One round with every two statuses: from ADDED to GHOST alone is counted.
#[test]
fn made_ghost_by_statuses() {
    for before in 0..=3 {
        for after in 0..=3 {
            let table = |status: u64| [0, 0, 0, 3, 1, 0, 5, status, 2, 0, 6, 1];
            let expected = u32::from((before, after) == (1, 2));
            assert_eq!(made_ghost(&table(before), &table(after)), expected, "{before} before and {after} after");
        }
    }
}

/// Every short list that gets OK throughout and ends in an add: which rounds that made GHOST, by the calls alone.
#[test]
fn rounds_made_ghost_by_history_statuses() {
    for kind in TreeKind::ALL {
        let mut numbers = HashSet::new();
        each_short_run(kind, |calls, answers, _| {
            let Some((Add(r, v, p), before)) = calls.split_last() else { return };
            if answers.iter().any(|number| *number != 0) {
                return;
            }
            let rounds = before.iter().filter_map(|one| if let Add(r, ..) = *one { Some(r) } else { None });
            let is_made = |round: &u32| {
                (history_status(before, *round), history_status(calls, *round)) == (Status::Added, Status::Ghost)
            };
            let expected = rounds.filter(is_made).count() as u32;
            let mut table = run(kind, 6, before).1;
            assert_eq!(add(kind, &mut table, Round(*r), *v, Round(*p)), Ok(expected), "{calls:?}, {kind}");
            numbers.insert(expected);
        });
        assert_eq!(numbers, HashSet::from([0, 1, 2]), "{kind}");
    }
}

/// Each case is the same for both kinds: how many rounds the add would make GHOST, and the second table whole.
#[test]
fn previews_by_hand() {
    for kind in TreeKind::ALL {
        let table = run(kind, 5, &[Add(1, 5, 0), Add(3, 5, 1)]).1;
        let second = |one, three, row: [u64; 4]| [[0, 0, 0, 3], [1, 0, 5, one], [3, 1, 5, three], row, [0; 4]].concat();
        for (name, (r, v, p), ghosts, expected) in [
            ("none", (4, 5, 3), 0, second(1, 1, [4, 3, 5, 1])),
            ("one", (4, 5, 1), 1, second(1, 2, [4, 1, 5, 1])),
            ("several", (4, 6, 0), 2, second(2, 2, [4, 0, 6, 1])),
            ("born GHOST", (2, 5, 1), 0, second(1, 1, [2, 1, 5, 2])),
            ("born GHOST, one struck", (2, 6, 0), 1, second(2, 1, [2, 0, 6, 2])),
        ] {
            for held in [&[99; 20][..], &[0; 20], &table, &expected] {
                let shown = preview_of(kind, &table, held, (r, v, p));
                assert_eq!(shown, (Ok(ghosts), expected.clone()), "{name}, {kind}");
            }
        }
    }
    let table = run(TreeKind::Value, 5, &[Add(1, 5, 0)]).1;
    assert_eq!(preview_of(TreeKind::Value, &table, &[99; 20], (2, 6, 1)), (Err(7), vec![99; 20]));
    assert_eq!(preview_of(TreeKind::Command, &table, &[99; 20], (2, 6, 1)).0, Ok(0));
}

/// 1 of the first table, then 31, then 2 of the first, then 3, for tables of any lengths and whatever the second holds.
#[test]
fn previews_of_any_lengths() {
    for kind in TreeKind::ALL {
        let tree = run(kind, 5, &[Add(2, 5, 0), Add(4, 5, 2), Commit(4), Add(6, 5, 4)]).1;
        for (table, number) in [(&tree[..], 3), (&[9; 20], 2)] {
            for (length, room) in (0..=16).flat_map(|length| (0..=20).map(move |room| (length, room))) {
                let number = match () {
                    () if ![4, 8, 12, 16].contains(&length) => 1,
                    () if room != length => 31,
                    () => number,
                };
                for held in [&tree[..room], &[0; 20][..room], &[99; 20][..room]] {
                    let shown = preview_of(kind, &table[..length], held, (0, 5, 0));
                    assert_eq!(shown, (Err(number), held.to_vec()), "{length} and {room} words, {kind}");
                }
            }
        }
        let mut long = fresh_table(256);
        long.resize(1_028, 0);
        for (length, room, number) in [(1_024, 1_024, 3), (1_024, 1_028, 31), (1_025, 1_025, 1), (1_028, 1_028, 1)] {
            let shown = preview_of(kind, &long[..length], &vec![99; room], (0, 5, 0));
            assert_eq!(shown, (Err(number), vec![99; room]), "{length} and {room} words, {kind}");
        }
    }
}

/// Every short list that ends in an add: a preview of it, on the table before, has its number, and makes of the second table
/// what the add leaves; where it is refused, the second stays.
#[test]
fn previews_are_adds_on_a_copy() {
    for kind in TreeKind::ALL {
        // of each length that of the list seen last: a list is seen right before those that it begins
        let mut tables = vec![Vec::new(); 5];
        let mut numbers = HashSet::new();
        each_short_run(kind, |calls, answers, table| {
            tables[calls.len()] = table.to_vec();
            let Some((&Add(r, v, p), before)) = calls.split_last() else { return };
            let first = &tables[before.len()];
            let expected = match answers[before.len()] {
                0 => (Ok(made_ghost(first, table)), table.to_vec()),
                number => (Err(number), vec![99; 24]),
            };
            assert_eq!(preview_of(kind, first, &[99; 24], (r, v, p)), expected, "{calls:?}, {kind}");
            numbers.insert(answers[before.len()]);
        });
        assert_eq!(numbers, HashSet::from([0, 4, 5, 6, behind_7(kind, 8), 8]), "{kind}");
    }
}

/// Every add of rounds 1 to 4 with two values on every tree of commands that rounds 1 to 3 with these values leave in four rows, trees
/// of values among them, by the calls of both kinds, with anything in the second table.
#[test]
fn previews_in_any_table() {
    let mut random = Random::new(2);
    let mut trees: Vec<Vec<u64>> = reachable(TreeKind::Command, 4).into_iter().collect();
    trees.sort_unstable();
    for kind in TreeKind::ALL {
        for table in &trees {
            for one in alphabet(4) {
                let Add(r, v, p) = one else { continue };
                let held: Vec<u64> = match random.below(3) {
                    0 => random.pick(&trees).clone(),
                    1 => (0..16).map(|_| random.below(5) as u64).collect(),
                    _ => vec![u64::MAX; 16],
                };
                let mut after = table.clone();
                let answer = add(kind, &mut after, Round(r), v, Round(p)).map_err(|refusal| refusal.number());
                let second = if answer.is_ok() { after } else { held.clone() };
                assert_eq!(preview_of(kind, table, &held, (r, v, p)), (answer, second), "{one:?} on {table:?}, {kind}");
            }
        }
    }
}

/// A call about a node that is there, most often one of the last: an add above it or its commit.
fn random_call(random: &mut Random, table: &[u64]) -> Call {
    let there: Vec<Node> = nodes(table).collect();
    let first = if random.chance(60) { there.len().saturating_sub(3) } else { 0 };
    let node = *random.pick(&there[first..]);
    if random.chance(5) {
        return Commit(node.round.0);
    }
    let value = if random.chance(80) { node.value } else { random.below(3) as u64 };
    Add(node.round.0 + random.between(1, 6) as u32, value, node.round.0)
}

/// What the accepted adds of random trees came to.
#[derive(Default, Debug)]
struct Reached {
    struck_none: usize,
    struck_one: usize,
    struck_several: usize,
    born_ghost: usize,
    born_ghost_and_struck: usize,
    refused: usize,
}

impl Reached {
    fn count(&mut self, made: u32, born: bool) {
        self.struck_none += usize::from(made == 0);
        self.struck_one += usize::from(made == 1);
        self.struck_several += usize::from(made > 1);
        self.born_ghost += usize::from(born);
        self.born_ghost_and_struck += usize::from(born && made > 0);
    }
}

/// Random trees, refused calls too: each number by the rounds' statuses before and after, and at any time each round that
/// is GHOST was counted once or was born GHOST.
#[test]
fn each_ghost_was_counted_once_or_born_so() {
    let mut random = Random::new(1);
    let mut reached = Reached::default();
    for _ in 0..10_000 {
        let kind = *random.pick(&TreeKind::ALL);
        let rows = random.between(1, 40);
        let mut table = fresh_table(rows);
        let (mut counted, mut born) = (0, 0);
        for _ in 0..2 * rows {
            let before = table.clone();
            match random_call(&mut random, &table) {
                Add(r, v, p) => match add(kind, &mut table, Round(r), v, Round(p)) {
                    Ok(made) => {
                        let added = nodes(&before).filter(|node| node.status == Status::Added);
                        let turned = added.filter(|node| status(&table, node.round.0) == Status::Ghost);
                        assert_eq!(made, turned.count() as u32, "add({r},{v},{p}) on {before:?}, {kind}");
                        let is_born = status(&table, r) == Status::Ghost;
                        (counted, born) = (counted + made, born + u32::from(is_born));
                        reached.count(made, is_born);
                    }
                    Err(_) => {
                        assert_eq!(table, before, "add({r},{v},{p}), {kind}");
                        reached.refused += 1;
                    }
                },
                Commit(r) => _ = commit(kind, &mut table, Round(r)),
            }
            let ghosts = nodes(&table).filter(|node| node.status == Status::Ghost).count() as u32;
            assert_eq!(counted + born, ghosts, "{table:?}, {kind}");
        }
    }
    println!("{reached:#?}");
    let Reached { struck_none, struck_one, struck_several, born_ghost, born_ghost_and_struck, refused } = reached;
    for count in [struck_none, struck_one, struck_several, born_ghost, born_ghost_and_struck, refused] {
        assert!(count > 1_000, "{count}");
    }
}

/// The path of the highest COMMITTED node has every COMMITTED node; how many they are.
fn committed_on_one_path(kind: TreeKind, table: &[u64]) -> usize {
    let is_committed = |node: &Node| node.status == Status::Committed;
    let rounds: Vec<Round> = nodes(table).filter(is_committed).map(|node| node.round).collect();
    let highest = rounds.iter().max().unwrap();
    let (_, path) = path_of(kind, table, highest.0, table.len());
    assert!(rounds.iter().all(|round| path.contains(&round.0.into())), "{table:?}, {kind}");
    rounds.len()
}

/// Every short list, its refused calls too, and every table that longer lists leave in four rows.
#[test]
fn committed_nodes_lie_on_one_path() {
    for kind in TreeKind::ALL {
        let mut most = 0;
        each_short_run(kind, |_, _, table| most = most.max(committed_on_one_path(kind, table)));
        assert_eq!(most, 3, "{kind}");
        let most = reachable(kind, 4).iter().map(|table| committed_on_one_path(kind, table)).max();
        assert_eq!(most, Some(4), "{kind}");
    }
}

/// The numbers of accepted lists for one value, as far as document 02 gives them. With one value the kinds don't differ.
#[test]
fn numbers_of_accepted_lists() {
    let alphabet: Vec<Call> = alphabet(2).into_iter().filter(|one| !matches!(one, Add(_, 0, _))).collect();
    for kind in TreeKind::ALL {
        let mut counts = BTreeMap::new();
        each_list(&alphabet, 2, &mut Vec::new(), &mut |calls| {
            if run(kind, 6, calls).0.iter().all(|number| *number == 0) {
                *counts.entry(calls.len()).or_insert(0) += 1;
            }
        });
        assert_eq!(counts.into_values().collect::<Vec<_>>(), [1, 2, 5], "{kind}");
    }
}

/// All tables that calls of rounds 1 to 3 leave in so many rows, by search from fresh.
fn reachable(kind: TreeKind, rows: usize) -> HashSet<Vec<u64>> {
    let mut seen = HashSet::from([fresh_table(rows)]);
    let mut open: Vec<Vec<u64>> = seen.iter().cloned().collect();
    while let Some(table) = open.pop() {
        for one in alphabet(3) {
            let mut next = table.clone();
            if call(kind, &mut next, one) == 0 && seen.insert(next.clone()) {
                open.push(next);
            }
        }
    }
    seen
}

/// A table is a tree exactly if some list of calls leaves it: every table of four rows with small words.
#[test]
fn trees_are_the_tables_that_calls_leave() {
    let row = |code: u64| [code % 4, code / 4 % 4, VALUES[code as usize / 16 % 2], code / 32];
    for kind in TreeKind::ALL {
        let trees = reachable(kind, 4);
        let mut found = 0;
        for code in 0..128 * 128 * 128 {
            let table = [[0, 0, 0, 3], row(code % 128), row(code / 128 % 128), row(code / 128 / 128)].concat();
            let is_one = is_tree(kind, &table);
            assert_eq!(is_one, trees.contains(&table), "{table:?}, {kind}");
            found += usize::from(is_one);
        }
        assert_eq!(found, trees.len(), "{kind}");
    }
}

/// Each path call on each tree of four rows: the path of the parent with the round put after it.
#[test]
fn paths_go_over_the_parents() {
    for kind in TreeKind::ALL {
        for table in reachable(kind, 4) {
            assert_eq!(path_of(kind, &table, 0, 1), (Ok(1), vec![0]));
            for node in nodes(&table).skip(1) {
                let (length, mut expected) = path_of(kind, &table, node.parent.0, 4);
                let length = length.unwrap();
                expected[length] = node.round.0.into();
                assert_eq!(path_of(kind, &table, node.round.0, 4), (Ok(length + 1), expected), "{table:?}, {kind}");
            }
        }
    }
}

/// A value may be any word where no other is compared with it: those of a command tree, and in this value tree that of
/// round 3, which has no child.
#[test]
fn words_out_of_range_make_no_tree() {
    let value_of = |row: usize| row * 4 + 2;
    for kind in TreeKind::ALL {
        let (_, tree) = run(kind, 5, &[Add(1, 5, 0), Add(3, 6, 0), Add(2, 5, 1)]);
        let any_word = match kind {
            TreeKind::Value => vec![value_of(2)],
            TreeKind::Command => vec![value_of(1), value_of(2), value_of(3)],
        };
        for at in 0..tree.len() {
            for word in [1_000_001, 1 << 32, (1 << 32) + tree[at], u64::MAX] {
                let mut table = tree.clone();
                table[at] = word;
                let number = if any_word.contains(&at) { 0 } else { 2 };
                assert_eq!(call(kind, &mut table, Commit(3)), number, "word {at} is {word}, {kind}");
            }
        }
    }
}

/// A table that only command calls leave.
#[test]
fn a_tree_of_commands_alone() {
    let (answers, table) = run(TreeKind::Command, 5, &[Add(1, 5, 0), Add(2, 6, 1)]);
    assert_eq!(
        (answers, is_tree(TreeKind::Command, &table), is_tree(TreeKind::Value, &table)),
        (vec![0, 0], true, false)
    );
    for one in [Add(3, 6, 2), Commit(2)] {
        let mut left = table.clone();
        assert_eq!(call(TreeKind::Value, &mut left, one), 2, "{one:?}");
        assert_eq!(left, table, "{one:?}");
        assert_eq!(call(TreeKind::Command, &mut left, one), 0, "{one:?}");
        assert_ne!(left, table, "{one:?}");
    }
    assert_eq!(path_of(TreeKind::Value, &table, 2, 3), (Err(2), vec![99; 3]));
    assert_eq!(path_of(TreeKind::Command, &table, 2, 3), (Ok(3), vec![0, 1, 2]));
}

/// Every table that command calls leave in three or four rows, those of value trees among them. There a call of the two
/// kinds answers and leaves the same, but for an add that a value tree refuses with 7; on any other the value tree's calls
/// answer 2 and change nothing.
#[test]
fn the_kinds_side_by_side() {
    let mut numbers_for_7 = HashSet::new();
    for rows in [3, 4] {
        let [value_trees, command_trees] = TreeKind::ALL.map(|kind| reachable(kind, rows));
        assert!(value_trees.len() < command_trees.len() && value_trees.is_subset(&command_trees));
        for table in &command_trees {
            let for_both = value_trees.contains(table);
            for one in alphabet(3) {
                let [value, command] = TreeKind::ALL.map(|kind| {
                    let mut left = table.clone();
                    (call(kind, &mut left, one), left)
                });
                match (for_both, value.0) {
                    (false, _) => assert_eq!(value, (2, table.clone()), "{one:?}"),
                    (true, 7) => {
                        assert_eq!(&value.1, table, "{one:?}");
                        numbers_for_7.insert(command.0);
                    }
                    (true, _) => assert_eq!(value, command, "{one:?} on {table:?}"),
                }
            }
            for round in 0..=3 {
                let [value, command] = TreeKind::ALL.map(|kind| path_of(kind, table, round, 3));
                assert_eq!(value, if for_both { command } else { (Err(2), vec![99; 3]) }, "path({round}) on {table:?}");
            }
        }
    }
    assert_eq!(numbers_for_7, HashSet::from([0, 8, 9]));
}
