//! The host side of Kalebasin, the proved core of an office vault that keeps shared passwords on three, five or seven
//! machines.
//!
//! The core runs a list of events over a whole office: members start rounds, and messages reach members in any order,
//! any number of times or never. It answers each event, keeps the messages sent, and leaves a quorum tree of what was
//! proposed and decided. An office has eight slots, each with its own members and its own tree. That the decided values of a slot
//! are all equal is proved.
//!
//! # Calling the core
//!
//! Build an [`EventList`], lend [`play`] the memory it works in, or let [`Tables::play`] bring the tables along, and read what it
//! left: the answers by [`Refusal::from_number`], the messages by [`sent`] and [`read_message`], a slot's tree by [`nodes`].
//! `examples/office.rs` is a program to start from.
//!
//! A machine that runs one member keeps a [`MemberRecord`] for each slot: [`MemberRecord::start`] begins a round that it leads,
//! [`MemberRecord::deliver`] takes the bytes that come in, and what each of them leaves in its reply goes out. A leader that
//! misses answers sends its START or PROPOSE again, from the bytes that it has kept (a second [`MemberRecord::start`] of the
//! round gets 20), and it is answered again. What is proved of the values decided is proved of play, for members that never
//! forget.
//!
//! A [`ValueTree`] takes the calls that play makes of proposals and decisions. A [`CommandTree`] is for commands that each follow
//! a named earlier one: the same tree, in which a node has any value. Each is a type of its own, so that neither is handed to
//! the other's calls. An add returns how many rounds it made GHOST; with a copy of the table from before it, [`made_ghost`] tells
//! which. [`Tree::would_make_ghost`](tree::Tree::would_make_ghost) tells which rounds an add would make GHOST, and
//! [`Tree::preview`](tree::Tree::preview) makes the table that it would leave, in a second one.
//!
//! The functions of the core need the feature `core` (on by default) and its two archives; without the
//! feature the rest of this crate is still there.
//!
//! # Beside the core
//!
//! - [`notation`]: lists of events and of tree calls as people write them
//! - `ffi`: the C functions, as the archives have them
//!
//! "Document 01" is the product's scope document, and "document 02" its change requests; their numbers and terms are used
//! throughout.

#![deny(missing_docs)]
#![cfg_attr(not(feature = "core"), allow(rustdoc::broken_intra_doc_links))]

mod event;
#[cfg(feature = "core")]
pub mod ffi;
mod ids;
mod member;
mod message;
mod node;
pub mod notation;
mod played;
#[cfg(feature = "core")]
mod proved;
mod refusal;
mod store;
mod tables;
#[cfg(feature = "core")]
pub mod tree;
mod tree_call;

pub use event::{Event, EventList};
pub use ids::{Member, MessageNumber, Round, Slot, SLOTS};
pub use member::{Made, MemberFields, Report};
pub use message::{Message, Vote};
pub use node::{made_ghost, nodes, Node, Status};
pub use played::{Played, STORE_ROW, STORE_ROWS, TABLE_ROW, TABLE_ROWS};
#[cfg(feature = "core")]
pub use proved::{play, read_message, MemberRecord};
pub use refusal::{number_of, NoRefusal, Refusal};
pub use store::sent;
pub use tables::Tables;
#[cfg(feature = "core")]
#[doc(inline)]
pub use tree::{CommandTree, ValueTree};
pub use tree_call::{TreeCall, TreeCallList, TreeKind};
