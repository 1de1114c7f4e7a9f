//! The proved core, as a set of calls.

use crate::Calls;
use kalebasin::{play, read_message, CommandTree, ValueTree};
use kalebasin::{Member, MemberFields, MemberRecord, Message, Refusal, Report, Round, Slot, TreeKind};

/// The proved core, as a set of calls.
pub const CALLS: Calls = Calls {
    name: "the proved core",
    play,
    read_message,
    write_message: Message::write,
    member_fresh,
    member_start,
    member_deliver,
    tree_fresh,
    tree_add,
    tree_preview,
    tree_commit,
    tree_path,
};

fn member_fresh(slot: Slot, number: Member, members: u32) -> Result<MemberFields, Refusal> {
    MemberRecord::fresh(slot, number, members).map(|record| record.fields())
}

fn member_start(fields: &mut MemberFields, round: Round, offer: u64, reply: &mut [u8]) -> Result<Report, Refusal> {
    on_record(fields, |record| record.start(round, offer, reply))
}

fn member_deliver(fields: &mut MemberFields, bytes: &[u8], reply: &mut [u8]) -> Result<Report, Refusal> {
    on_record(fields, |record| record.deliver(bytes, reply))
}

/// Makes a call on the record of these fields, which are then those of the record after it.
fn on_record(
    fields: &mut MemberFields,
    call: impl FnOnce(&mut MemberRecord) -> Result<Report, Refusal>,
) -> Result<Report, Refusal> {
    let mut record = MemberRecord::from_fields(*fields);
    let answer = call(&mut record);
    *fields = record.fields();
    answer
}

fn tree_fresh(table: &mut [u64]) -> Result<(), Refusal> {
    ValueTree::fresh(table).map(|_| ())
}

fn tree_add(kind: TreeKind, table: &mut [u64], round: Round, value: u64, parent: Round) -> Result<u32, Refusal> {
    match kind {
        TreeKind::Value => ValueTree::from_table(table).add(round, value, parent),
        TreeKind::Command => CommandTree::from_table(table).add(round, value, parent),
    }
}

fn tree_preview(
    kind: TreeKind,
    table: &[u64],
    second: &mut [u64],
    round: Round,
    value: u64,
    parent: Round,
) -> Result<u32, Refusal> {
    match kind {
        TreeKind::Value => ValueTree::from_table(table).preview(second, round, value, parent),
        TreeKind::Command => CommandTree::from_table(table).preview(second, round, value, parent),
    }
}

fn tree_commit(kind: TreeKind, table: &mut [u64], round: Round) -> Result<(), Refusal> {
    match kind {
        TreeKind::Value => ValueTree::from_table(table).commit(round),
        TreeKind::Command => CommandTree::from_table(table).commit(round),
    }
}

fn tree_path(kind: TreeKind, table: &[u64], round: Round, out: &mut [u64]) -> Result<usize, Refusal> {
    match kind {
        TreeKind::Value => ValueTree::from_table(table).path(round, out),
        TreeKind::Command => CommandTree::from_table(table).path(round, out),
    }
}
