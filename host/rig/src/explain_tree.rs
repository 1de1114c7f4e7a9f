//! Tree calls in words, call by call: what each did, or why it did nothing.

use crate::explain::Explained;
use crate::{second, Calls};
use kalebasin::{made_ghost, nodes, number_of, Node, Refusal, Round, Status, TreeCall, TreeCallList, TreeKind};
use kalebasin::{TABLE_ROW, TABLE_ROWS};

/// A call that an implementation made, beside the second implementation's.
#[derive(Clone, Debug, PartialEq, Eq, Hash)]
pub struct Called {
    /// The answer given: 0 or the number of a refusal.
    pub answer: u32,
    /// How many rounds the call made GHOST, as an add answers; of other calls 0.
    pub ghosts: usize,
    /// The call in words, with the second implementation's answer.
    pub explained: Explained,
    /// Of an accepted preview the tables before and after the add that it shows.
    pub previewed: Option<[Vec<u64>; 2]>,
    /// What the second implementation does otherwise.
    pub difference: Option<String>,
}

/// Makes a list of calls on a fresh table of so many rows, by an implementation and by the second one: each call, and the table
/// that the implementation leaves. A path is lent as many words as the table has rows, which is enough for any; a preview a second
/// table of other words.
///
/// ```
/// use kalebasin_rig::{explain_tree::explain, second};
///
/// let list = "kind=value add(1,70,0) add(2,80,1)".parse().unwrap();
/// let (calls, _) = explain(&second::CALLS, &list, 64)?;
/// let words: Vec<String> = calls.into_iter().map(|call| call.explained.words).collect();
/// assert_eq!(words, [
///     "round 1 is ADDED below the root, with the value 70",
///     "round 2 can't be added below round 1 with the value 80: the value of round 1 is 70",
/// ]);
/// # Ok::<(), kalebasin::Refusal>(())
/// ```
///
/// # Errors
/// 1 where no tree has so many rows.
pub fn explain(calls: &Calls, list: &TreeCallList, table_rows: usize) -> Result<(Vec<Called>, Vec<u64>), Refusal> {
    let [mut own, mut reference] = [Run::fresh(calls, table_rows)?, Run::fresh(&second::CALLS, table_rows)?];
    let mut called = Vec::new();
    for call in &list.calls {
        let [own_before, before] = [&own, &reference].map(|run| run.table.clone());
        let answers = [&mut own, &mut reference].map(|run| run.call(list.kind, *call));
        let words = match answers[1] {
            Ok(count) => accepted(&before, &reference, *call, count),
            Err(refusal) => refused(&nodes(&before).collect::<Vec<_>>(), *call, refusal),
        };
        called.push(Called {
            answer: number_of(&answers[0]),
            ghosts: ghosts_answered(*call, answers[0]),
            previewed: previewed(own_before, &own, *call, answers[0]),
            explained: Explained { notation: call.to_string(), answer: number_of(&answers[1]), words },
            difference: difference([&own, &reference], *call, answers),
        });
    }
    Ok((called, own.table))
}

/// The table of an implementation, and the words lent for a path or as a second table.
struct Run<'a> {
    calls: &'a Calls,
    table: Vec<u64>,
    out: Vec<u64>,
}

impl Run<'_> {
    fn fresh(calls: &Calls, table_rows: usize) -> Result<Run<'_>, Refusal> {
        // One row more than a tree has is enough to be refused.
        let rows = table_rows.min(TABLE_ROWS + 1);
        let mut run = Run { calls, table: vec![0; rows * TABLE_ROW], out: Vec::new() };
        (calls.tree_fresh)(&mut run.table)?;
        Ok(run)
    }

    fn call(&mut self, kind: TreeKind, call: TreeCall) -> Result<usize, Refusal> {
        self.out = match call {
            TreeCall::Preview { .. } => vec![u64::MAX; self.table.len()],
            _ => vec![0; self.table.len() / TABLE_ROW],
        };
        self.calls.tree_call(kind, &mut self.table, call, &mut self.out)
    }
}

/// How many rounds a call made GHOST that was answered so.
fn ghosts_answered(call: TreeCall, answer: Result<usize, Refusal>) -> usize {
    match (call, answer) {
        (TreeCall::Add { .. }, Ok(ghosts)) => ghosts,
        _ => 0,
    }
}

/// Of an accepted preview the table from before it, and the second one.
fn previewed(before: Vec<u64>, run: &Run, call: TreeCall, answer: Result<usize, Refusal>) -> Option<[Vec<u64>; 2]> {
    match (call, answer) {
        (TreeCall::Preview { .. }, Ok(_)) => Some([before, run.out.clone()]),
        _ => None,
    }
}

/// What the second of two does otherwise than the first, after a call that they answered so.
fn difference([one, other]: [&Run; 2], call: TreeCall, answers: [Result<usize, Refusal>; 2]) -> Option<String> {
    let numbers = answers.map(|answer| number_of(&answer));
    if numbers[0] != numbers[1] {
        return Some(format!("ANSWERS {}", numbers[1]));
    }
    let counts = answers.map(|answer| answer.unwrap_or(0));
    let same_count = counts[0] == counts[1];
    match call {
        TreeCall::Add { .. } if !same_count => Some(format!("MAKES {} GHOST, NOT {}", counts[1], counts[0])),
        TreeCall::Preview { .. } if !same_count => Some(format!("WOULD MAKE {} GHOST, NOT {}", counts[1], counts[0])),
        TreeCall::Preview { .. } if one.out != other.out => Some("LEAVES ANOTHER SECOND TABLE".into()),
        _ if !same_count || one.out != other.out => Some("WRITES ANOTHER PATH".into()),
        _ if one.table != other.table => Some("LEAVES ANOTHER TABLE".into()),
        _ => None,
    }
}

fn accepted(before: &[u64], after: &Run, call: TreeCall, count: usize) -> String {
    match call {
        TreeCall::Fresh => "the table has the root alone".into(),
        TreeCall::Add { round, value, parent } => {
            let ghosts = ghosts_in_words("; the add makes", made_ghost(before, &after.table).collect());
            added(before, "is", round, value, parent) + &ghosts
        }
        TreeCall::Preview { round, value, parent } => {
            let ghosts = ghosts_in_words("; the add would make", made_ghost(before, &after.out).collect());
            added(before, "would be", round, value, parent) + &ghosts
        }
        TreeCall::Commit(round) => format!("round {round} becomes COMMITTED"),
        TreeCall::Path(round) => {
            let rounds: Vec<String> = after.out[..count].iter().map(u64::to_string).collect();
            format!("the path of {} is {}", named(round), rounds.join(", "))
        }
    }
}

/// What becomes of an added round; `is` says whether it is so or would be so.
fn added(before: &[u64], is: &str, round: Round, value: u64, parent: Round) -> String {
    let place = format!("below {}, with the value {value}", named(parent));
    match nodes(before).map(|node| node.round).find(|other| *other > round) {
        Some(higher) => format!("round {round} {is} GHOST {place}: round {higher} is there already"),
        None => format!("round {round} {is} ADDED {place}"),
    }
}

/// What stands behind an add that made these rounds GHOST, from the words that say that it does: `; the add makes 2 rounds GHOST:
/// rounds 1 and 3`.
pub(crate) fn ghosts_in_words(the_add_makes: &str, rounds: Vec<Round>) -> String {
    match rounds.len() {
        0 => String::new(),
        1 => format!("{the_add_makes} 1 round GHOST: {}", all_named(rounds)),
        count => format!("{the_add_makes} {count} rounds GHOST: {}", all_named(rounds)),
    }
}

fn refused(before: &[Node], call: TreeCall, refusal: Refusal) -> String {
    let what = match call {
        TreeCall::Fresh => "the table can't be made fresh".into(),
        TreeCall::Add { round, value, parent } | TreeCall::Preview { round, value, parent } => {
            format!("round {round} can't be added below {} with the value {value}", named(parent))
        }
        TreeCall::Commit(round) => format!("round {round} can't be committed"),
        TreeCall::Path(round) => format!("round {round} has no path"),
    };
    let why = why(before, call, refusal).unwrap_or_else(|| refusal.cause().into());
    format!("{what}: {why}")
}

/// The cause in particular, where there is more to say than the refusal's own words.
fn why(before: &[Node], call: TreeCall, refusal: Refusal) -> Option<String> {
    let node = |round| before.iter().find(|node| node.round == round);
    // a preview is refused as its add is
    let call = match call {
        TreeCall::Preview { round, value, parent } => TreeCall::Add { round, value, parent },
        call => call,
    };
    Some(match (refusal, call) {
        (Refusal::RoundRange, _) => "rounds run from 1 to 1,000,000".into(),
        (Refusal::RoundPresent, TreeCall::Add { round, .. }) => {
            let Node { parent, value, status, .. } = node(round)?;
            format!("it is there already, {status} below {} with the value {value}", named(*parent))
        }
        (Refusal::ParentAbsent, TreeCall::Add { parent, .. }) => format!("round {parent} isn't there"),
        (Refusal::ParentNotBelow, TreeCall::Add { round, parent, .. }) => format!("{parent} isn't below {round}"),
        (Refusal::ValueDiffers, TreeCall::Add { parent, .. }) => {
            format!("the value of round {parent} is {}", node(parent)?.value)
        }
        (Refusal::CrossesCommitted, TreeCall::Add { round, parent, .. }) => {
            let committed = before.iter().filter(|node| node.status == Status::Committed).map(|node| node.round);
            let crossed: Vec<Round> = committed.filter(|other| parent < *other && *other < round).collect();
            let verb = if crossed.len() == 1 { "is" } else { "are" };
            format!("its edge crosses {}, which {verb} COMMITTED", all_named(crossed))
        }
        (Refusal::NoFreeRow, _) => format!("all rows of the table ({}) are taken", before.len()),
        (Refusal::RoundAbsent, _) => "it isn't there".into(),
        (Refusal::IsCommitted, _) => "it is COMMITTED already".into(),
        (Refusal::IsGhost, TreeCall::Commit(round)) => {
            let edge = before.iter().find(|node| node.parent < round && round < node.round)?;
            format!("it is GHOST, for the edge from round {} to {} crosses it", edge.round, named(edge.parent))
        }
        _ => return None,
    })
}

/// `the root` or `round 3`.
fn named(round: Round) -> String {
    match round {
        Round::ROOT => "the root".into(),
        round => format!("round {round}"),
    }
}

/// `round 3`, `rounds 1 and 3` or `rounds 1, 2 and 3`, lowest first.
fn all_named(mut rounds: Vec<Round>) -> String {
    rounds.sort();
    match &rounds[..] {
        [others @ .., last] if !others.is_empty() => {
            let others: Vec<String> = others.iter().map(Round::to_string).collect();
            format!("rounds {} and {last}", others.join(", "))
        }
        rounds => rounds.iter().map(|round| format!("round {round}")).collect(),
    }
}
