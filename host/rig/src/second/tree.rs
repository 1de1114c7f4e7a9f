//! The tree: a lent table of 64-bit words, four a row, of either kind.
//!
//! What the kind changes is check 7: a value tree's add makes it, a command tree's doesn't. So a table may be a tree for the
//! command calls alone; one that is a tree for the value tree's calls is one for both. All else is the same.

use kalebasin::{Refusal, Round, TreeKind, TABLE_ROW, TABLE_ROWS};

// The words of a row.
const ROUND: usize = 0;
const PARENT: usize = 1;
const VALUE: usize = 2;
const STATUS: usize = 3;

// The statuses.
const FREE: u64 = 0;
const ADDED: u64 = 1;
const GHOST: u64 = 2;
const COMMITTED: u64 = 3;

const ROOT: [u64; TABLE_ROW] = [0, 0, 0, COMMITTED];

/// Makes the table fresh, a tree of both kinds.
pub fn fresh(table: &mut [u64]) -> Result<(), Refusal> {
    check_length(table)?;
    table.fill(0);
    table[..TABLE_ROW].copy_from_slice(&ROOT);
    Ok(())
}

/// add(r, v, p): the number of rounds made GHOST. The kind says which tables are trees, and whether v is compared with
/// p's value.
pub fn add(kind: TreeKind, table: &mut [u64], round: Round, value: u64, parent: Round) -> Result<u32, Refusal> {
    check_table(kind, table)?;
    check_round(round)?;
    machine_add(kind, table, round.0.into(), value, parent.0.into())
}

/// What add(r, v, p) would do: the second table becomes what the first would, and the answer is that of add. The second
/// is as long as the first and may hold anything.
pub fn preview(
    kind: TreeKind,
    table: &[u64],
    second: &mut [u64],
    round: Round,
    value: u64,
    parent: Round,
) -> Result<u32, Refusal> {
    check_length(table)?;
    if second.len() != table.len() {
        return Err(Refusal::LengthsDiffer);
    }
    let mut memory = copy_of(table);
    let copy = &mut memory[..table.len()];
    let ghosts = add(kind, copy, round, value, parent)?;
    second.copy_from_slice(copy);
    Ok(ghosts)
}

/// commit(r). The kind says which tables are trees.
pub fn commit(kind: TreeKind, table: &mut [u64], round: Round) -> Result<(), Refusal> {
    check_table(kind, table)?;
    check_round(round)?;
    machine_commit(table, round.0.into())
}

/// path(r): the number of rounds written. The kind says which tables are trees.
pub fn path(kind: TreeKind, table: &[u64], round: Round, out: &mut [u64]) -> Result<usize, Refusal> {
    check_table(kind, table)?;
    if round != Round::ROOT {
        check_round(round)?;
    }
    let round = u64::from(round.0);
    if find(table, round).is_none() {
        return Err(Refusal::RoundAbsent);
    }
    let count = path_length(table, round);
    if out.len() < count {
        return Err(Refusal::PathTooLong);
    }
    write_path(table, round, &mut out[..count]);
    Ok(count)
}

/// A length that a table can have.
pub fn check_length(table: &[u64]) -> Result<(), Refusal> {
    let rows = table.len() / TABLE_ROW;
    if table.len() % TABLE_ROW == 0 && (1..=TABLE_ROWS).contains(&rows) {
        Ok(())
    } else {
        Err(Refusal::TableLength)
    }
}

/// Whether some list of calls of this kind from fresh leaves this table: the adds in row order, each COMMITTED node
/// committed as soon as it is added. Any other order of the commits accepts no more adds, for an edge that crosses a
/// node keeps it from being COMMITTED, whichever came first.
pub fn is_tree(kind: TreeKind, table: &[u64]) -> bool {
    if check_length(table).is_err() {
        return false;
    }
    let mut memory = [0; TABLE_ROW * TABLE_ROWS];
    let replay = &mut memory[..table.len()];
    replay[..TABLE_ROW].copy_from_slice(&ROOT);
    for row in table.chunks_exact(TABLE_ROW).skip(1) {
        if row[STATUS] == FREE {
            break;
        }
        let in_range = u32::try_from(row[ROUND]).is_ok_and(|round| Round(round).in_range());
        if !in_range || enter(kind, replay, row[ROUND], row[VALUE], row[PARENT]).is_err() {
            return false;
        }
        if row[STATUS] == COMMITTED && machine_commit(replay, row[ROUND]).is_err() {
            return false;
        }
    }
    replay == table
}

fn check_table(kind: TreeKind, table: &[u64]) -> Result<(), Refusal> {
    check_length(table)?;
    if is_tree(kind, table) {
        Ok(())
    } else {
        Err(Refusal::NotATree)
    }
}

fn check_round(round: Round) -> Result<(), Refusal> {
    if round.in_range() {
        Ok(())
    } else {
        Err(Refusal::RoundRange)
    }
}

/// The machine's add on a table that is a tree of the kind, with the round in range: the number of rounds made GHOST. For
/// commands v is any value.
///
/// # Panics
/// May, where the table's length isn't one of a tree.
pub fn machine_add(kind: TreeKind, table: &mut [u64], r: u64, v: u64, p: u64) -> Result<u32, Refusal> {
    let before = copy_of(table);
    enter(kind, table, r, v, p)?;
    Ok(made_ghost(&before[..table.len()], table))
}

/// The words of a table that is no longer than a tree's can be, zeros after.
fn copy_of(table: &[u64]) -> [u64; TABLE_ROW * TABLE_ROWS] {
    let mut memory = [0; TABLE_ROW * TABLE_ROWS];
    memory[..table.len()].copy_from_slice(table);
    memory
}

/// The number of rounds that are ADDED before an add and GHOST after it. A node keeps its row, and that of the new one is
/// free before.
pub fn made_ghost(before: &[u64], after: &[u64]) -> u32 {
    let rows = before.chunks_exact(TABLE_ROW).zip(after.chunks_exact(TABLE_ROW));
    rows.filter(|(before, after)| before[STATUS] == ADDED && after[STATUS] == GHOST).count() as u32
}

/// What the machine's add does to the table, or why it refuses.
fn enter(kind: TreeKind, table: &mut [u64], r: u64, v: u64, p: u64) -> Result<(), Refusal> {
    let nodes = count(table);
    if find(table, r).is_some() {
        return Err(Refusal::RoundPresent);
    }
    let Some(parent) = find(table, p) else {
        return Err(Refusal::ParentAbsent);
    };
    if p >= r {
        return Err(Refusal::ParentNotBelow);
    }
    if kind == TreeKind::Value && p != 0 && table[parent * TABLE_ROW + VALUE] != v {
        return Err(Refusal::ValueDiffers);
    }
    if used(table, nodes).any(|node| node[STATUS] == COMMITTED && p < node[ROUND] && node[ROUND] < r) {
        return Err(Refusal::CrossesCommitted);
    }
    if nodes * TABLE_ROW == table.len() {
        return Err(Refusal::NoFreeRow);
    }
    let status = if used(table, nodes).any(|node| node[ROUND] > r) { GHOST } else { ADDED };
    strike_out(table, nodes, r, p);
    table[nodes * TABLE_ROW..][..TABLE_ROW].copy_from_slice(&[r, p, v, status]);
    Ok(())
}

/// The machine's commit on a table that is a tree of either kind, with the round in range.
pub fn machine_commit(table: &mut [u64], r: u64) -> Result<(), Refusal> {
    let Some(row) = find(table, r) else {
        return Err(Refusal::RoundAbsent);
    };
    let status = &mut table[row * TABLE_ROW + STATUS];
    match *status {
        COMMITTED => Err(Refusal::IsCommitted),
        GHOST => Err(Refusal::IsGhost),
        _ => {
            *status = COMMITTED;
            Ok(())
        }
    }
}

/// Every ADDED node below r that isn't an ancestor of r becomes GHOST; those that (r, p) crosses are among them. A
/// parent stands before its children, so one way back over the rows meets the ancestors in order.
fn strike_out(table: &mut [u64], nodes: usize, r: u64, p: u64) {
    let mut ancestor = p;
    for node in table[..nodes * TABLE_ROW].chunks_exact_mut(TABLE_ROW).rev() {
        if node[ROUND] == ancestor {
            ancestor = node[PARENT];
        } else if node[STATUS] == ADDED && node[ROUND] < r {
            node[STATUS] = GHOST;
        }
    }
}

/// How many rows aren't free.
fn count(table: &[u64]) -> usize {
    let rows = table.chunks_exact(TABLE_ROW);
    rows.take_while(|row| row[STATUS] != FREE).count()
}

fn used(table: &[u64], nodes: usize) -> impl Iterator<Item = &[u64]> {
    table.chunks_exact(TABLE_ROW).take(nodes)
}

/// The row of a round that is present.
fn find(table: &[u64], round: u64) -> Option<usize> {
    let mut rows = table.chunks_exact(TABLE_ROW).take_while(|row| row[STATUS] != FREE);
    rows.position(|row| row[ROUND] == round)
}

/// The parent of a round that is present and isn't the root.
fn parent_of(table: &[u64], round: u64) -> u64 {
    let row = find(table, round).expect("a tree has each node's parent");
    table[row * TABLE_ROW + PARENT]
}

fn path_length(table: &[u64], round: u64) -> usize {
    match round {
        0 => 1,
        _ => path_length(table, parent_of(table, round)) + 1,
    }
}

/// Fills `out` with the path: that of the parent with the round put after it.
fn write_path(table: &[u64], round: u64, out: &mut [u64]) {
    let (last, before) = out.split_last_mut().expect("a path has at least the root");
    *last = round;
    if round != 0 {
        write_path(table, parent_of(table, round), before);
    }
}
