//! Event lists: what play takes.

use crate::notation::{self, Mistake};
use crate::{Member, MessageNumber, Refusal, Round, Slot};
use std::fmt;
use std::str::FromStr;

/// One event of a list.
///
/// Later versions have more kinds, and more fields in each, so a match has a last arm for others, a pattern ends in `..`,
/// and an event is made by the function of its kind. That makes it one of slot 0; [`Event::in_slot`] makes of it one of another
/// slot.
#[derive(Clone, Copy, Debug, PartialEq, Eq, Hash)]
#[non_exhaustive]
pub enum Event {
    /// A member starts a round that it leads and offers a value.
    #[non_exhaustive]
    Start {
        /// The slot that it is of.
        slot: Slot,
        /// The member that starts.
        member: Member,
        /// The round that it starts.
        round: Round,
        /// The value that it offers.
        offer: u64,
    },
    /// A message sent earlier reaches a member.
    #[non_exhaustive]
    Deliver {
        /// The slot that it is of.
        slot: Slot,
        /// The message's place among those sent, in whatever slot.
        message: MessageNumber,
        /// The member that it reaches.
        member: Member,
    },
}

impl Event {
    /// A member starts a round and offers a value.
    pub fn start(member: Member, round: Round, offer: u64) -> Event {
        Event::Start { slot: Slot(0), member, round, offer }
    }

    /// A message reaches a member.
    pub fn deliver(message: MessageNumber, member: Member) -> Event {
        Event::Deliver { slot: Slot(0), message, member }
    }

    /// The same event in another slot.
    #[must_use]
    pub fn in_slot(mut self, other: Slot) -> Event {
        match &mut self {
            Event::Start { slot, .. } | Event::Deliver { slot, .. } => *slot = other,
        }
        self
    }

    /// The slot that it is of.
    pub fn slot(&self) -> Slot {
        match *self {
            Event::Start { slot, .. } | Event::Deliver { slot, .. } => slot,
        }
    }

    /// The member that takes the event.
    pub fn member(&self) -> Member {
        match *self {
            Event::Start { member, .. } | Event::Deliver { member, .. } => member,
        }
    }

    fn write(&self, bytes: &mut Vec<u8>) {
        match *self {
            Event::Start { slot, member, round, offer } => {
                put_words(bytes, &[1, slot.0, member.0, round.0]);
                bytes.extend(offer.to_be_bytes());
            }
            Event::Deliver { slot, message, member } => put_words(bytes, &[2, slot.0, message.0, member.0]),
        }
    }

    fn read(rest: &mut Words) -> Option<Event> {
        let (kind, slot) = (rest.word()?, Slot(rest.word()?));
        let event = match kind {
            1 => Event::start(Member(rest.word()?), Round(rest.word()?), rest.double()?),
            2 => Event::deliver(MessageNumber(rest.word()?), Member(rest.word()?)),
            _ => return None,
        };
        Some(event.in_slot(slot))
    }
}

impl fmt::Display for Event {
    /// The rig's notation: `s(1,1,70)` or `d(0,2)`, and in a slot other than 0 `3:s(1,1,70)` or `3:d(0,2)`.
    fn fmt(&self, f: &mut fmt::Formatter) -> fmt::Result {
        if self.slot() != Slot(0) {
            write!(f, "{}:", self.slot())?;
        }
        match self {
            Event::Start { member, round, offer, .. } => write!(f, "s({member},{round},{offer})"),
            Event::Deliver { message, member, .. } => write!(f, "d({message},{member})"),
        }
    }
}

/// A list of events for an office of `n` members, and its bytes.
///
/// ```
/// use kalebasin::{EventList, Member, MessageNumber, Round};
///
/// let mut list = EventList::new(3);
/// list.start(Member(1), Round(1), 70).deliver(MessageNumber(0), Member(2));
/// assert_eq!(list.to_string(), "n=3 s(1,1,70) d(0,2)");
/// assert_eq!("s(1,1,70) d(0,2)".parse().as_ref(), Ok(&list));
/// assert_eq!(EventList::from_bytes(&list.to_bytes()), Ok(list));
/// ```
///
/// [`EventList::start`] and [`EventList::deliver`] put events of slot 0 in the list. Those of other slots are made apart:
///
/// ```
/// use kalebasin::{Event, EventList, Member, Round, Slot};
///
/// let mut list = EventList::new(3);
/// list.events.push(Event::start(Member(1), Round(1), 70).in_slot(Slot(3)));
/// assert_eq!(list.to_string(), "n=3 3:s(1,1,70)");
/// ```
///
/// A round number can't be given for a member number, nor the other way round:
///
/// ```compile_fail
/// use kalebasin::{EventList, Member, Round};
/// EventList::new(3).start(Round(1), Member(1), 70);
/// ```
///
/// Later versions have more in front of the events, so a list is made by [`EventList::new`], from notation, from bytes, or by
/// collecting events.
#[derive(Clone, Debug, PartialEq, Eq, Hash)]
#[non_exhaustive]
pub struct EventList {
    /// The number of members. Play takes 3, 5 and 7 and refuses any other with 27.
    pub n: u32,
    /// The events in order. Play takes up to 1,000 and refuses more with 26.
    pub events: Vec<Event>,
}

impl EventList {
    /// The most events that play takes.
    pub const MOST: usize = 1_000;

    /// A list with no events.
    pub fn new(n: u32) -> EventList {
        EventList { n, events: Vec::new() }
    }

    /// Puts a start in slot 0 behind the other events.
    pub fn start(&mut self, member: Member, round: Round, offer: u64) -> &mut EventList {
        self.events.push(Event::start(member, round, offer));
        self
    }

    /// Puts a delivery in slot 0 behind the other events.
    pub fn deliver(&mut self, message: MessageNumber, member: Member) -> &mut EventList {
        self.events.push(Event::deliver(message, member));
        self
    }

    /// The bytes that play takes: N, the count, the events.
    pub fn to_bytes(&self) -> Vec<u8> {
        let mut bytes = Vec::with_capacity(8 + 24 * self.events.len());
        put_words(&mut bytes, &[self.n, u32::try_from(self.events.len()).unwrap_or(u32::MAX)]);
        self.events.iter().for_each(|event| event.write(&mut bytes));
        bytes
    }

    /// The list that these bytes say; [`Refusal::ListShape`] as play would give it. N isn't judged here.
    pub fn from_bytes(bytes: &[u8]) -> Result<EventList, Refusal> {
        EventList::read(&mut Words(bytes)).ok_or(Refusal::ListShape)
    }

    fn read(rest: &mut Words) -> Option<EventList> {
        let mut list = EventList::new(rest.word()?);
        let count = rest.word()? as usize;
        if count > EventList::MOST {
            return None;
        }
        for _ in 0..count {
            list.events.push(Event::read(rest)?);
        }
        rest.0.is_empty().then_some(list)
    }
}

impl fmt::Display for EventList {
    /// The rig's notation: `n=3 s(1,1,70) d(0,2)`.
    fn fmt(&self, f: &mut fmt::Formatter) -> fmt::Result {
        write!(f, "n={}", self.n)?;
        self.events.iter().try_for_each(|event| write!(f, " {event}"))
    }
}

impl FromStr for EventList {
    type Err = Mistake;

    /// The list that the rig's [`notation`] says, for three members where it has no `n=`.
    fn from_str(text: &str) -> Result<EventList, Mistake> {
        notation::parse(text, None)
    }
}

impl FromIterator<Event> for EventList {
    /// A list of these events for three members, as notation without `n=` is. For another office, extend a new list.
    ///
    /// ```
    /// use kalebasin::{Event, EventList, Member, Round};
    ///
    /// let starts = || (1..=2).map(|round| Event::start(Member(round), Round(round), 70));
    /// assert_eq!(starts().collect::<EventList>().to_string(), "n=3 s(1,1,70) s(2,2,70)");
    /// let mut five = EventList::new(5);
    /// five.extend(starts());
    /// assert_eq!(five.to_string(), "n=5 s(1,1,70) s(2,2,70)");
    /// ```
    fn from_iter<I: IntoIterator<Item = Event>>(events: I) -> EventList {
        let mut list = EventList::new(notation::MEMBERS);
        list.extend(events);
        list
    }
}

impl Extend<Event> for EventList {
    /// Puts these behind the other events.
    fn extend<I: IntoIterator<Item = Event>>(&mut self, events: I) {
        self.events.extend(events);
    }
}

fn put_words(bytes: &mut Vec<u8>, words: &[u32]) {
    bytes.extend(words.iter().flat_map(|word| word.to_be_bytes()));
}

/// What is left of the bytes.
struct Words<'a>(&'a [u8]);

impl Words<'_> {
    fn word(&mut self) -> Option<u32> {
        let (word, rest) = self.0.split_first_chunk()?;
        self.0 = rest;
        Some(u32::from_be_bytes(*word))
    }

    fn double(&mut self) -> Option<u64> {
        let (double, rest) = self.0.split_first_chunk()?;
        self.0 = rest;
        Some(u64::from_be_bytes(*double))
    }
}
