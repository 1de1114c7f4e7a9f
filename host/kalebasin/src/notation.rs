//! The rig's notation: events `s(member,round,offer)` and `d(message,member)`, each with its slot in front as `3:d(0,2)`, or of
//! slot 0 where that is left out, and the number of members in front of all as `n=5`, or 3 members where that is left out; and
//! calls of a tree, `add(round,value,parent)`, `preview(round,value,parent)`, `commit(round)`, `path(round)` and `fresh`, with
//! the kind of tree in front as `kind=command`, or a tree of values where that is left out.
//! Blanks and line feeds may stand between any two parts; `#` starts a comment that runs to the end of its line.
//!
//! ```
//! use kalebasin::notation::parse;
//!
//! let list = parse("n=5 s(1,1,70)\n# to member 0\nd(0, 0)", None).unwrap();
//! assert_eq!(list.to_string(), "n=5 s(1,1,70) d(0,0)");
//! assert_eq!(parse("s(1,1,70) d(0,0)", None).unwrap().to_string(), "n=3 s(1,1,70) d(0,0)");
//! assert_eq!(parse("0:s(1,1,70) 3:s(1,1,80)", None).unwrap().to_string(), "n=3 s(1,1,70) 3:s(1,1,80)");
//! let mistake = parse("n=3\ns(1,x,70)", None).unwrap_err();
//! assert_eq!(mistake.to_string(), "line 2, column 5: a round number is missing here");
//! ```
//!
//! ```
//! use kalebasin::notation::parse_tree;
//!
//! let list = parse_tree("kind=command add(1,70,0)\nadd(2, 80, 1) # after the first\ncommit(2)", None).unwrap();
//! assert_eq!(list.to_string(), "kind=command add(1,70,0) add(2,80,1) commit(2)");
//! assert_eq!(parse_tree("path(0) fresh", None).unwrap().to_string(), "kind=value path(0) fresh");
//! let mistake = parse_tree("add(1,70)", None).unwrap_err();
//! assert_eq!(mistake.to_string(), "line 1, column 9: , is missing after the value");
//! ```

use crate::{Event, EventList, Member, MessageNumber, Round, Slot, TreeCall, TreeCallList, TreeKind};
use std::fmt;
use std::str::FromStr;

/// Where notation goes wrong, and how. Lines and columns count from 1.
#[derive(Clone, Debug, PartialEq, Eq, Hash)]
pub struct Mistake {
    /// The line.
    pub line: usize,
    /// The column, in characters.
    pub column: usize,
    /// What is wrong there.
    pub what: String,
}

impl fmt::Display for Mistake {
    fn fmt(&self, f: &mut fmt::Formatter) -> fmt::Result {
        write!(f, "line {}, column {}: {}", self.line, self.column, self.what)
    }
}

impl std::error::Error for Mistake {}

/// The members of a list of which nothing says how many: those of document 01's rehearsal.
pub const MEMBERS: u32 = 3;

/// The list that some notation says. `members` stands in for a missing `n=`, and has to agree with one that is there;
/// where there is neither, the list is for [`MEMBERS`].
pub fn parse(text: &str, members: Option<u32>) -> Result<EventList, Mistake> {
    let mut reader = Reader::new(text);
    let mut list = EventList::new(head(&mut reader, members)?);
    while let Some(event) = event(&mut reader)? {
        list.events.push(event);
    }
    Ok(list)
}

/// `n=5`, or the number of members from elsewhere.
fn head(reader: &mut Reader, members: Option<u32>) -> Result<u32, Mistake> {
    reader.skip_blanks();
    let before = reader.clone();
    if !reader.take('n') {
        return Ok(members.unwrap_or(MEMBERS));
    }
    reader.expect('=', "after n")?;
    let n = reader.number("number of members")?;
    match members {
        Some(other) if other != n => Err(before.mistake(&format!("n={n}, but {other} members were asked for"))),
        _ => Ok(n),
    }
}

fn event(reader: &mut Reader) -> Result<Option<Event>, Mistake> {
    reader.skip_blanks();
    match reader.rest.chars().next() {
        None => Ok(None),
        Some('s' | 'd') => event_in(reader, Slot(0)).map(Some),
        Some('0'..='9') => {
            let slot = slot(reader)?;
            event_in(reader, slot).map(Some)
        }
        Some('n') => Err(reader.mistake("n= stands once, in front of the events")),
        Some(other) => {
            let starts = "an event starts with s( or d(, or with its slot as in 3:d(";
            Err(reader.mistake(&format!("{starts}, not with {other:?}")))
        }
    }
}

/// `3:`. What has no colon behind its digits may be no slot at all, so that is told before a number that is too large.
fn slot(reader: &mut Reader) -> Result<Slot, Mistake> {
    let mut behind = reader.clone();
    behind.take_all(char::is_ascii_digit);
    behind.expect(':', "after the slot number")?;
    let slot = Slot(reader.number("slot number")?);
    *reader = behind;
    Ok(slot)
}

/// `s(1,1,70)` or `d(0,2)`, in this slot.
fn event_in(reader: &mut Reader, slot: Slot) -> Result<Event, Mistake> {
    reader.skip_blanks();
    match reader.rest.chars().next() {
        Some('s') => {
            reader.take('s');
            reader.expect('(', "after s")?;
            let member = Member(reader.number("member number")?);
            reader.expect(',', "after the member number")?;
            let round = Round(reader.number("round number")?);
            reader.expect(',', "after the round number")?;
            let offer = reader.number("offer")?;
            reader.expect(')', "after the offer")?;
            Ok(Event::Start { slot, member, round, offer })
        }
        Some('d') => {
            reader.take('d');
            reader.expect('(', "after d")?;
            let message = MessageNumber(reader.number("message number")?);
            reader.expect(',', "after the message number")?;
            let member = Member(reader.number("member number")?);
            reader.expect(')', "after the member number")?;
            Ok(Event::Deliver { slot, message, member })
        }
        _ => Err(reader.mistake(&format!("s( or d( is missing after {slot}:"))),
    }
}

/// The kind of a tree of which nothing says it: that of play's tree.
pub const KIND: TreeKind = TreeKind::Value;

/// The calls of a tree that some notation says. `kind` stands in for a missing `kind=`, and has to agree with one that is
/// there; where there is neither, they are for [`KIND`].
pub fn parse_tree(text: &str, kind: Option<TreeKind>) -> Result<TreeCallList, Mistake> {
    let mut reader = Reader::new(text);
    let mut list = TreeCallList::new(tree_head(&mut reader, kind)?);
    while let Some(call) = tree_call(&mut reader)? {
        list.calls.push(call);
    }
    Ok(list)
}

/// `kind=command`, or the kind from elsewhere.
fn tree_head(reader: &mut Reader, kind: Option<TreeKind>) -> Result<TreeKind, Mistake> {
    reader.skip_blanks();
    let before = reader.clone();
    if reader.word() != "kind" {
        *reader = before;
        return Ok(kind.unwrap_or(KIND));
    }
    reader.expect('=', "after kind")?;
    reader.skip_blanks();
    let place = reader.clone();
    let named = TreeKind::from_name(reader.word()).ok_or_else(|| place.mistake("the kind is value or command"))?;
    match kind {
        Some(other) if other != named => {
            Err(before.mistake(&format!("kind={named}, but a {other} tree was asked for")))
        }
        _ => Ok(named),
    }
}

fn tree_call(reader: &mut Reader) -> Result<Option<TreeCall>, Mistake> {
    reader.skip_blanks();
    let before = reader.clone();
    match reader.word() {
        "add" => {
            let (round, value, parent) = add_arguments(reader, "after add")?;
            Ok(Some(TreeCall::Add { round, value, parent }))
        }
        "preview" => {
            let (round, value, parent) = add_arguments(reader, "after preview")?;
            Ok(Some(TreeCall::Preview { round, value, parent }))
        }
        "commit" => Ok(Some(TreeCall::Commit(round_alone(reader, "after commit")?))),
        "path" => Ok(Some(TreeCall::Path(round_alone(reader, "after path")?))),
        "fresh" => Ok(Some(TreeCall::Fresh)),
        "kind" => Err(before.mistake("kind= stands once, in front of the calls")),
        word => match before.rest.chars().next() {
            None => Ok(None),
            Some(first) => {
                let other = &before.rest[..word.len().max(first.len_utf8())];
                Err(before.mistake(&format!(
                    "a call starts with add(, preview(, commit(, path( or fresh, not with {other:?}"
                )))
            }
        },
    }
}

/// `(2,80,1)`.
fn add_arguments(reader: &mut Reader, place: &str) -> Result<(Round, u64, Round), Mistake> {
    reader.expect('(', place)?;
    let round = Round(reader.number("round number")?);
    reader.expect(',', "after the round number")?;
    let value = reader.number("value")?;
    reader.expect(',', "after the value")?;
    let parent = Round(reader.number("parent")?);
    reader.expect(')', "after the parent")?;
    Ok((round, value, parent))
}

/// `(2)`.
fn round_alone(reader: &mut Reader, place: &str) -> Result<Round, Mistake> {
    reader.expect('(', place)?;
    let round = Round(reader.number("round number")?);
    reader.expect(')', "after the round number")?;
    Ok(round)
}

/// What is left to read, and where that is.
#[derive(Clone)]
struct Reader<'a> {
    rest: &'a str,
    line: usize,
    column: usize,
}

impl<'a> Reader<'a> {
    fn new(text: &'a str) -> Reader<'a> {
        Reader { rest: text, line: 1, column: 1 }
    }

    fn mistake(&self, what: &str) -> Mistake {
        Mistake { line: self.line, column: self.column, what: what.to_string() }
    }

    fn step(&mut self) {
        let mut chars = self.rest.chars();
        match chars.next() {
            Some('\n') => {
                self.line += 1;
                self.column = 1;
            }
            Some(_) => self.column += 1,
            None => {}
        }
        self.rest = chars.as_str();
    }

    fn skip_blanks(&mut self) {
        let mut in_comment = false;
        while let Some(next) = self.rest.chars().next() {
            in_comment = next != '\n' && (in_comment || next == '#');
            if !in_comment && !next.is_whitespace() {
                break;
            }
            self.step();
        }
    }

    fn take(&mut self, wanted: char) -> bool {
        let there = self.rest.starts_with(wanted);
        if there {
            self.step();
        }
        there
    }

    fn expect(&mut self, wanted: char, place: &str) -> Result<(), Mistake> {
        self.skip_blanks();
        if self.take(wanted) {
            Ok(())
        } else {
            Err(self.mistake(&format!("{wanted} is missing {place}")))
        }
    }

    /// All characters of this sort that stand here.
    fn take_all(&mut self, sort: fn(&char) -> bool) -> &'a str {
        let before = self.rest;
        while self.rest.starts_with(|next: char| sort(&next)) {
            self.step();
        }
        &before[..before.len() - self.rest.len()]
    }

    /// The letters that stand here, or nothing.
    fn word(&mut self) -> &'a str {
        self.take_all(char::is_ascii_alphabetic)
    }

    fn number<T: FromStr>(&mut self, what: &str) -> Result<T, Mistake> {
        self.skip_blanks();
        let before = self.clone();
        let digits = self.take_all(char::is_ascii_digit);
        if digits.is_empty() {
            let article = if what.starts_with('o') { "an" } else { "a" };
            return Err(before.mistake(&format!("{article} {what} is missing here")));
        }
        let bits = 8 * size_of::<T>();
        digits.parse().map_err(|_| before.mistake(&format!("the {what} {digits} doesn't fit into {bits} bits")))
    }
}
