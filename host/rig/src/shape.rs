//! Where the bytes of a list go wrong that is refused with 26.

use kalebasin::EventList;
use std::fmt;

/// What is wrong with the bytes of a list, and where. Bytes and events count from 0.
#[derive(Clone, Debug, PartialEq, Eq, Hash)]
pub struct Misshape {
    /// The first byte that is wrong, or the length where bytes are missing.
    pub byte: usize,
    /// The event that it belongs to or stands right behind; none in front of the events.
    pub event: Option<usize>,
    /// What is wrong.
    pub what: String,
}

impl fmt::Display for Misshape {
    fn fmt(&self, f: &mut fmt::Formatter) -> fmt::Result {
        write!(f, "byte {}", self.byte)?;
        if let Some(event) = self.event {
            write!(f, ", event {event}")?;
        }
        write!(f, ": {}", self.what)
    }
}

const HEAD: usize = 8;

/// What makes play refuse these bytes with 26, if it does.
///
/// ```
/// use kalebasin_rig::shape::misshape;
///
/// let mut bytes = kalebasin::notation::parse("s(1,1,70) d(0,2)", None).unwrap().to_bytes();
/// assert_eq!(misshape(&bytes), None);
/// bytes[35] = 7;
/// assert_eq!(misshape(&bytes).unwrap().to_string(), "byte 32, event 1: the kind is 7, not 1 or 2");
/// ```
pub fn misshape(list: &[u8]) -> Option<Misshape> {
    let wrong = |byte, event, what: String| Some(Misshape { byte, event, what });
    let Some(count) = word(list, 4) else {
        return wrong(list.len(), None, format!("the list ends within its first {HEAD} bytes"));
    };
    if count as usize > EventList::MOST {
        return wrong(4, None, format!("the count is {count}, above 1,000"));
    }
    let mut at = HEAD;
    for event in 0..count as usize {
        let (name, length) = match word(list, at) {
            Some(1) => ("start", 24),
            Some(2) => ("delivery", 16),
            Some(kind) => return wrong(at, Some(event), format!("the kind is {kind}, not 1 or 2")),
            None if at == list.len() => {
                return wrong(at, Some(event), format!("the list ends here, and the count is {count}"));
            }
            None => return wrong(list.len(), Some(event), "the list ends within the kind".into()),
        };
        if list.len() - at < length {
            return wrong(list.len(), Some(event), format!("the list ends within a {name} of {length} bytes"));
        }
        at += length;
    }
    if at == list.len() {
        return None;
    }
    wrong(at, (count as usize).checked_sub(1), format!("the list should end here, not at byte {}", list.len()))
}

/// The word that starts at a byte, if all of it is there.
fn word(bytes: &[u8], at: usize) -> Option<u32> {
    bytes.get(at..)?.first_chunk().map(|word| u32::from_be_bytes(*word))
}
