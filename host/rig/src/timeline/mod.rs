//! A run as a picture: a lifeline for each member of each slot shown, time downward, a row for each event, and an arrow from the
//! event that sent a message to each of its deliveries.
//!
//! A delivery that is refused is dashed and ends in a cross; one to a member that got the message before is thin; a message
//! that is never delivered is a dotted stub. Rounds have colours of their own, and each label names its round, so that the
//! picture reads in black and white too.

mod colour;
mod layout;
mod svg;

pub use colour::Colours;
pub use svg::{Picture, STYLE};

use crate::trace::Trace;

/// The run as an SVG picture.
///
/// ```
/// use kalebasin_rig::{second, timeline::timeline, trace::trace};
///
/// let list = kalebasin::notation::parse("s(1,1,70) d(0,2)", None).unwrap();
/// let svg = timeline(&trace(&second::CALLS, &list, &[0, 0], 10, [10; 8])?);
/// assert!(svg.starts_with("<svg ") && svg.contains(">0 START r1</text>"));
/// # Ok::<(), kalebasin::Refusal>(())
/// ```
pub fn timeline(trace: &Trace) -> String {
    Picture::new(trace).svg()
}
