//! The second implementation: document 01, and Tickets 1 to 6 of document 02, in plain Rust, written from the
//! documents alone.
//!
//! It is the reference for tests: the proved core is compared with it call for call, lent memory included. It has no
//! proofs and knows nothing of how the core is made. The office's host program calls the core, not this.
//!
//! - [`tree`]: the node table and its calls, for trees of values and of commands
//! - [`message`]: the bytes of the four messages
//! - [`member`]: the member record and its steps
//! - [`play`](mod@play): a list of events over a whole office, slot by slot
//! - [`model`]: the model and the third demand for each slot, as a check of a run

pub mod member;
pub mod message;
pub mod model;
pub mod play;
pub mod tree;

use crate::Calls;

/// The second implementation, as a set of calls.
pub const CALLS: Calls = Calls {
    name: "the second implementation",
    play: play::play,
    read_message: message::read,
    write_message: message::write,
    member_fresh: member::fresh_fields,
    member_start: member::start_fields,
    member_deliver: member::deliver_fields,
    tree_fresh: tree::fresh,
    tree_add: tree::add,
    tree_preview: tree::preview,
    tree_commit: tree::commit,
    tree_path: tree::path,
};
