//! The rig of Kalebasin: what compares the proved core with a second implementation, and what the program `kalebasin` and
//! the tests are made of. A vault needs none of it; it depends on the crate `kalebasin` alone.
//!
//! - [`second`]: document 01, and Tickets 1 to 6 of document 02, in plain Rust, written from the documents alone, the
//!   reference for tests
//! - [`quick`]: play in plain Rust, written for speed, and the plain Rust with one walk that play's time is measured by
//! - [`Calls`]: the calls of one implementation as a set; `proved::CALLS` are those of the core
//! - [`explain`]: a run in words, event by event
//! - [`explain_tree`]: a list of tree calls in words, call by call
//! - [`draw`]: a tree as text, DOT and SVG
//! - [`trace`], [`json`]: a run as values and as JSON, event by event
//! - [`timeline`], [`page`]: a run as a picture, and as a page with its records and trees
//! - [`random`], [`generate`]: random lists that reach something
//! - [`compare`], [`shrink`]: two implementations side by side, and the shortest list that tells them apart
//! - [`shape`]: where the bytes of a list go wrong
//! - [`rehearsal`]: what the rehearsal program prints
//! - [`suite`]: the whole comparison, part by part
//! - [`search`]: random lists, random orders of one list, or all lists of a few events, for a property that fails

#![deny(missing_docs)]

mod calls;
pub mod compare;
pub mod draw;
pub mod explain;
pub mod explain_tree;
pub mod generate;
pub mod json;
pub mod page;
#[cfg(feature = "core")]
pub mod proved;
pub mod quick;
pub mod random;
pub mod rehearsal;
pub mod search;
pub mod second;
pub mod shape;
pub mod shrink;
pub mod suite;
pub mod timeline;
pub mod trace;

pub use calls::Calls;
