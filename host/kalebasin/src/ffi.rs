//! The C functions of the archives `libexports.a` and `libexports_member.a`, as `include/kalebasin.h` declares them.
//! `number` is 0 for OK, else the number of a [`Refusal`](crate::Refusal).
//!
//! The functions at the front of the crate are safe and do the same.
//!
//! # Safety
//! A slice passes as a pointer and a count of elements, and the pointer stands at so many of them. Where the count is 0 it
//! isn't followed and may be null. Words (`u64`) start at a multiple of 8, bytes anywhere. What a `*mut` stands at may be
//! written, and overlaps nothing else that is passed.

use crate::SLOTS;

/// What [`kalebasin_play`] returns, counted over all slots: on a refusal all but `number` is 0. Later versions count more.
#[repr(C)]
#[derive(Clone, Copy, Debug, Default, PartialEq, Eq, Hash)]
#[non_exhaustive]
pub struct PlayResult {
    /// 0, or why the list is refused.
    pub number: u32,
    /// Events with the answer 0.
    pub accepted: u32,
    /// Rows of the store that hold a message.
    pub messages: u32,
    /// Nodes of the trees beside their roots.
    pub proposals: u32,
    /// COMMITTED nodes beside the roots.
    pub decisions: u32,
    /// Rounds that were made GHOST, each by a later proposal of its slot; a node that was GHOST from the first isn't among them.
    /// [`Played`](crate::Played) says how to tell them in the tables left.
    pub ghosts: u32,
}

/// What [`kalebasin_read_message`] returns: a field that the kind doesn't have is 0, on a refusal all but `number`.
/// Later versions have more fields.
#[repr(C)]
#[derive(Clone, Copy, Debug, Default, PartialEq, Eq, Hash)]
#[non_exhaustive]
pub struct MessageResult {
    /// 0, or why the message is refused.
    pub number: u32,
    /// The slot it is of.
    pub slot: u32,
    /// 1 START, 2 JOIN, 3 PROPOSE, 4 VOTE.
    pub kind: u32,
    /// The round it is of.
    pub round: u32,
    /// The member that sent it.
    pub sender: u32,
    /// 1 for a JOIN with a vote.
    pub present: u32,
    /// The round of that vote.
    pub voted: u32,
    /// The value of a PROPOSE, or of that vote.
    pub value: u64,
}

/// What [`kalebasin_tree_add`] and [`kalebasin_command_add`] return, and [`kalebasin_tree_preview`] and
/// [`kalebasin_command_preview`] of the add that they show: on a refusal `ghosts` is 0.
#[repr(C)]
#[derive(Clone, Copy, Debug, Default, PartialEq, Eq, Hash)]
pub struct AddResult {
    /// 0, or why the call is refused.
    pub number: u32,
    /// The rounds that are ADDED before the add and GHOST after it; the new node isn't among them.
    pub ghosts: u32,
}

/// What [`kalebasin_tree_path`] and [`kalebasin_command_path`] return: on a refusal `count` is 0.
#[repr(C)]
#[derive(Clone, Copy, Debug, Default, PartialEq, Eq, Hash)]
pub struct PathResult {
    /// 0, or why the call is refused.
    pub number: u32,
    /// The rounds written.
    pub count: u32,
}

/// A member record as numbers, which [`kalebasin_member_start`] and [`kalebasin_member_deliver`] take and give back. Any
/// numbers may stand here: what is no sound record is refused with 17. Later versions have more fields.
#[repr(C)]
#[derive(Clone, Copy, Debug, Default, PartialEq, Eq, Hash)]
#[non_exhaustive]
pub struct MemberRecord {
    /// The member's own number.
    pub me: u32,
    /// N.
    pub n: u32,
    /// J.
    pub joined: u32,
    /// V.
    pub voted: u32,
    /// W.
    pub vote: u64,
    /// L.
    pub led: u32,
    /// 0 to 3.
    pub phase: u32,
    /// X.
    pub value: u64,
    /// B.
    pub source: u32,
    /// Bit s is the flag of member s.
    pub flags: u32,
    /// The slot that it takes messages of.
    pub slot: u32,
}

/// What the calls of a member return: on a refusal the record is as it came, and all else but `number` is 0.
#[repr(C)]
#[derive(Clone, Copy, Debug, Default, PartialEq, Eq, Hash)]
#[non_exhaustive]
pub struct MemberResult {
    /// 0, or why the call is refused.
    pub number: u32,
    /// The length of the message at the front of the reply, 0 if none is sent.
    pub sent: u32,
    /// The round of the proposal that is sent, or of the decision where nothing is sent, else 0.
    pub round: u32,
    /// The parent of the proposal.
    pub parent: u32,
    /// The value proposed or decided.
    pub value: u64,
    /// The record after the call; zeros where a fresh one is refused.
    pub record: MemberRecord,
}

/// What [`kalebasin_write_message`] returns: on a refusal `length` is 0.
#[repr(C)]
#[derive(Clone, Copy, Debug, Default, PartialEq, Eq, Hash)]
pub struct WriteResult {
    /// 0, or why nothing is written.
    pub number: u32,
    /// The bytes written.
    pub length: u32,
}

/// The version of the C functions that this crate is written for. A call of the front of this crate panics
/// where an archive's version ([`kalebasin_version`], [`kalebasin_member_version`]) is another.
pub const API_VERSION: u32 = 6;

extern "C" {
    /// The version of these functions that `libexports.a` has.
    ///
    /// # Safety
    /// It asks for nothing.
    pub fn kalebasin_version() -> u32;

    /// The version of these functions that `libexports_member.a` has.
    ///
    /// # Safety
    /// It asks for nothing.
    pub fn kalebasin_member_version() -> u32;

    /// [`play`](crate::play).
    ///
    /// # Safety
    /// What [the module](self) says of slices; `lengths` stands at eight numbers.
    pub fn kalebasin_play(
        list: *const u8,
        list_len: usize,
        store: *mut u8,
        store_len: usize,
        words: *mut u64,
        words_len: usize,
        lengths: *const [usize; SLOTS],
        answers: *mut u8,
        answers_len: usize,
    ) -> PlayResult;

    /// [`read_message`](crate::read_message).
    ///
    /// # Safety
    /// What [the module](self) says of slices.
    pub fn kalebasin_read_message(bytes: *const u8, len: usize) -> MessageResult;

    /// [`Tree::fresh`](crate::tree::Tree::fresh).
    ///
    /// # Safety
    /// What [the module](self) says of slices.
    pub fn kalebasin_tree_fresh(table: *mut u64, len: usize) -> u32;

    /// [`Tree::add`](crate::tree::Tree::add) of a [`ValueTree`](crate::ValueTree).
    ///
    /// # Safety
    /// What [the module](self) says of slices.
    pub fn kalebasin_tree_add(table: *mut u64, len: usize, round: u32, value: u64, parent: u32) -> AddResult;

    /// [`Tree::preview`](crate::tree::Tree::preview) of a [`ValueTree`](crate::ValueTree).
    ///
    /// # Safety
    /// What [the module](self) says of slices.
    pub fn kalebasin_tree_preview(
        table: *const u64,
        len: usize,
        second: *mut u64,
        second_len: usize,
        round: u32,
        value: u64,
        parent: u32,
    ) -> AddResult;

    /// [`Tree::commit`](crate::tree::Tree::commit) of a [`ValueTree`](crate::ValueTree).
    ///
    /// # Safety
    /// What [the module](self) says of slices.
    pub fn kalebasin_tree_commit(table: *mut u64, len: usize, round: u32) -> u32;

    /// [`Tree::path`](crate::tree::Tree::path) of a [`ValueTree`](crate::ValueTree).
    ///
    /// # Safety
    /// What [the module](self) says of slices.
    pub fn kalebasin_tree_path(table: *const u64, len: usize, round: u32, out: *mut u64, out_len: usize) -> PathResult;

    /// [`Tree::add`](crate::tree::Tree::add) of a [`CommandTree`](crate::CommandTree).
    ///
    /// # Safety
    /// What [the module](self) says of slices.
    pub fn kalebasin_command_add(table: *mut u64, len: usize, round: u32, value: u64, parent: u32) -> AddResult;

    /// [`Tree::preview`](crate::tree::Tree::preview) of a [`CommandTree`](crate::CommandTree).
    ///
    /// # Safety
    /// What [the module](self) says of slices.
    pub fn kalebasin_command_preview(
        table: *const u64,
        len: usize,
        second: *mut u64,
        second_len: usize,
        round: u32,
        value: u64,
        parent: u32,
    ) -> AddResult;

    /// [`Tree::commit`](crate::tree::Tree::commit) of a [`CommandTree`](crate::CommandTree).
    ///
    /// # Safety
    /// What [the module](self) says of slices.
    pub fn kalebasin_command_commit(table: *mut u64, len: usize, round: u32) -> u32;

    /// [`Tree::path`](crate::tree::Tree::path) of a [`CommandTree`](crate::CommandTree).
    ///
    /// # Safety
    /// What [the module](self) says of slices.
    pub fn kalebasin_command_path(
        table: *const u64,
        len: usize,
        round: u32,
        out: *mut u64,
        out_len: usize,
    ) -> PathResult;

    /// [`Message::write`](crate::Message::write). A field that the kind doesn't have is 0.
    ///
    /// # Safety
    /// What [the module](self) says of slices.
    pub fn kalebasin_write_message(
        slot: u32,
        kind: u32,
        round: u32,
        sender: u32,
        present: u32,
        voted: u32,
        value: u64,
        buffer: *mut u8,
        len: usize,
    ) -> WriteResult;

    /// [`MemberRecord::fresh`](crate::MemberRecord::fresh).
    ///
    /// # Safety
    /// It asks for nothing.
    pub fn kalebasin_member_fresh(slot: u32, number: u32, members: u32) -> MemberResult;

    /// [`MemberRecord::start`](crate::MemberRecord::start).
    ///
    /// # Safety
    /// What [the module](self) says of slices.
    pub fn kalebasin_member_start(
        record: MemberRecord,
        round: u32,
        offer: u64,
        reply: *mut u8,
        len: usize,
    ) -> MemberResult;

    /// [`MemberRecord::deliver`](crate::MemberRecord::deliver).
    ///
    /// # Safety
    /// What [the module](self) says of slices.
    pub fn kalebasin_member_deliver(
        record: MemberRecord,
        bytes: *const u8,
        bytes_len: usize,
        reply: *mut u8,
        len: usize,
    ) -> MemberResult;
}
