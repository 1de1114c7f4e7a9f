//! Safe functions over the proved core. A refused call changes nothing that is lent to it. The first call of a program
//! compares the archives' versions with this crate's.

use crate::ffi;
use crate::{Made, Member, MemberFields, Message, Played, Refusal, Report, Round, Slot, Tables, Vote, SLOTS};
use std::sync::Once;

/// Panics where an archive is of another version, before a result of it is read wrongly; so does each later call.
pub(crate) fn compare_versions() {
    static COMPARED: Once = Once::new();
    COMPARED.call_once(|| {
        // SAFETY: the functions take nothing.
        let archives = unsafe {
            [("libexports.a", ffi::kalebasin_version()), ("libexports_member.a", ffi::kalebasin_member_version())]
        };
        let own = ffi::API_VERSION;
        for (archive, version) in archives {
            assert!(
                version == own,
                "{archive} has the calls of version {version}, the crate kalebasin those of version {own}"
            );
        }
    });
}

/// Runs a list of events over a whole office, in tables that are lent. [`Tables::play`] does the same in tables that hold their
/// own words.
///
/// - `list`: the bytes of an [`EventList`](crate::EventList).
/// - `store`: 1 to 2,000 rows of [`STORE_ROW`](crate::STORE_ROW) bytes, which all slots share. It is cleared; message k
///   stands at the front of row k.
/// - `words`: the tables of the eight slots, one after another in slot order, each of 1 to 256 rows of
///   [`TABLE_ROW`](crate::TABLE_ROW) words. They are made fresh; [`nodes`](crate::nodes) of a slot's words reads the tree
///   that is left in it.
/// - `lengths`: how many of the words each table has. They may differ, and together they are all the words; else 1.
/// - `answers`: at least a byte for each event. Each gets 0 or the number of a [`Refusal`]; bytes behind them stay.
///
/// What store, words and answers held before doesn't matter.
///
/// ```
/// use kalebasin::{nodes, play, EventList, Refusal};
///
/// let list: EventList = "s(1,1,70) 3:s(1,1,80) 3:d(0,1)".parse().unwrap();
/// let (mut store, mut words, mut answers) = ([0; 32 * 10], [0; 4 * 15], [0; 3]);
/// let lengths = [32, 4, 4, 4, 4, 4, 4, 4]; // eight rows in slot 0, one in each other
/// let played = play(&list.to_bytes(), &mut store, &mut words, &lengths, &mut answers)?;
/// assert_eq!((played.accepted, played.messages, played.ghosts), (2, 2, 0));
/// assert_eq!(answers, [0, 0, 32]); // message 0 is of slot 0
/// assert_eq!(nodes(&words[32..36]).count(), 1); // slot 1 has its root
/// let refused = play(&list.to_bytes(), &mut store, &mut words[..56], &lengths, &mut answers);
/// assert_eq!(refused, Err(Refusal::TableLength));
/// # Ok::<(), Refusal>(())
/// ```
///
/// # Errors
/// 26, 27, 28 or 1, checked in that order.
pub fn play(
    list: &[u8],
    store: &mut [u8],
    words: &mut [u64],
    lengths: &[usize; SLOTS],
    answers: &mut [u8],
) -> Result<Played, Refusal> {
    compare_versions();
    // SAFETY: each pointer and length come from one slice; the mutable ones are exclusive; there are as many lengths as
    // slots.
    let result = unsafe {
        ffi::kalebasin_play(
            list.as_ptr(),
            list.len(),
            store.as_mut_ptr(),
            store.len(),
            words.as_mut_ptr(),
            words.len(),
            lengths,
            answers.as_mut_ptr(),
            answers.len(),
        )
    };
    accepted(result.number)?;
    Ok(Played {
        accepted: result.accepted,
        messages: result.messages,
        proposals: result.proposals,
        decisions: result.decisions,
        ghosts: result.ghosts,
    })
}

impl Tables {
    /// Runs a list of events over a whole office, in these tables: [`play`] with their words.
    ///
    /// ```
    /// use kalebasin::{nodes, EventList, Member, Refusal, Round, Slot, Tables};
    ///
    /// let mut list = EventList::new(3);
    /// list.start(Member(1), Round(1), 70).start(Member(0), Round(1), 80);
    /// let (mut store, mut tables, mut answers) = ([0; 32 * 10], Tables::new([8; 8]), [0; 2]);
    /// let played = tables.play(&list.to_bytes(), &mut store, &mut answers)?;
    /// assert_eq!((played.accepted, played.messages), (1, 1));
    /// assert_eq!(answers, [0, 19]);
    /// assert_eq!(nodes(tables.slot(Slot(7))).count(), 1); // its root
    /// # Ok::<(), Refusal>(())
    /// ```
    ///
    /// # Errors
    /// 26, 27, 28 or 1, checked in that order.
    pub fn play(&mut self, list: &[u8], store: &mut [u8], answers: &mut [u8]) -> Result<Played, Refusal> {
        let (words, lengths) = self.lent();
        play(list, store, words, lengths, answers)
    }
}

/// Reads the bytes of one message, neither more nor fewer.
///
/// ```
/// use kalebasin::{read_message, Member, Message, Refusal, Round, Slot};
///
/// let bytes = [0, 0, 0, 3, 0, 0, 0, 4, 0, 0, 0, 9, 0, 0, 0, 2];
/// assert_eq!(read_message(&bytes), Ok(Message::vote(Round(9), Member(2)).in_slot(Slot(3))));
/// assert_eq!(read_message(&bytes[..12]), Err(Refusal::MessageLength));
/// ```
///
/// # Errors
/// 14, 32, 15 or 16, as documents 01 and 02 order them. 32 is for a slot above 7.
pub fn read_message(bytes: &[u8]) -> Result<Message, Refusal> {
    compare_versions();
    // SAFETY: pointer and length come from one slice.
    let result = unsafe { ffi::kalebasin_read_message(bytes.as_ptr(), bytes.len()) };
    accepted(result.number)?;
    let (round, sender) = (Round(result.round), Member(result.sender));
    let message = match result.kind {
        1 => Message::start(round, sender),
        2 => {
            let vote = Vote { round: Round(result.voted), value: result.value };
            Message::join(round, sender, (result.present == 1).then_some(vote))
        }
        3 => Message::propose(round, sender, result.value),
        4 => Message::vote(round, sender),
        kind => unreachable!("the core read a message of kind {kind}"),
    };
    Ok(message.in_slot(Slot(result.slot)))
}

impl Message {
    /// Writes this message to the front of `buffer` and returns its length; bytes behind it stay. [`read_message`] reads it
    /// back.
    ///
    /// ```
    /// use kalebasin::{read_message, Member, Message, Refusal, Round};
    ///
    /// let message = Message::propose(Round(4), Member(1), 70);
    /// let mut buffer = [0; Message::LONGEST];
    /// let length = message.write(&mut buffer)?;
    /// assert_eq!(read_message(&buffer[..length]), Ok(message));
    /// assert_eq!(message.write(&mut buffer[..length]), Err(Refusal::ReplyTooShort));
    /// # Ok::<(), Refusal>(())
    /// ```
    ///
    /// # Errors
    /// 32 for a slot above 7, then 18 if the buffer has no room for the longest message, then 16.
    pub fn write(&self, buffer: &mut [u8]) -> Result<usize, Refusal> {
        compare_versions();
        let (kind, vote, value) = match *self {
            Message::Start { .. } => (1, None, 0),
            Message::Join { vote, .. } => (2, vote, vote.map_or(0, |vote| vote.value)),
            Message::Propose { value, .. } => (3, None, value),
            Message::Vote { .. } => (4, None, 0),
        };
        // SAFETY: pointer and length come from one exclusive slice.
        let result = unsafe {
            ffi::kalebasin_write_message(
                self.slot().0,
                kind,
                self.round().0,
                self.sender().0,
                u32::from(vote.is_some()),
                vote.map_or(0, |vote| vote.round.0),
                value,
                buffer.as_mut_ptr(),
                buffer.len(),
            )
        };
        accepted(result.number)?;
        Ok(result.length as usize)
    }
}

/// One member of an office in one slot: the record that a machine keeps, and the proved steps on it. A machine that takes part
/// in several slots keeps a record for each.
///
/// A step takes the record from one sound state to the next and tells what to send; a refused one leaves it. Keep one
/// record for each member and no copies that act: a member that goes on from an older record has forgotten what it
/// promised, and nothing is proved of an office with such a member. So the fields of [`MemberRecord::fields`] are on disk
/// before what a step sends leaves the machine. A START or PROPOSE that comes again leaves them as they are: where they are
/// on disk already, nothing more is written before the answer goes out. Where the first write failed or isn't done yet, it
/// comes first here too: a step that changes nothing doesn't say that what came before it is on disk.
///
/// ```
/// use kalebasin::{Made, Member, MemberRecord, Message, Refusal, Round, Slot};
///
/// let mut reply = [0; Message::LONGEST];
/// let mut leader = MemberRecord::fresh(Slot(3), Member(1), 3)?;
/// let sent = leader.start(Round(1), 70, &mut reply)?.sent;
/// let start = reply[..sent].to_vec();
/// let mut made = None;
/// for member in [0, 2] {
///     let mut member = MemberRecord::fresh(Slot(3), Member(member), 3)?;
///     let sent = member.deliver(&start, &mut reply)?.sent;
///     made = leader.deliver(&reply[..sent].to_vec(), &mut reply)?.made;
/// }
/// assert_eq!(made, Some(Made::Proposal { round: Round(1), value: 70, parent: Round(0) }));
/// # Ok::<(), Refusal>(())
/// ```
#[derive(Clone, Debug, PartialEq, Eq, Hash)]
pub struct MemberRecord(ffi::MemberRecord);

impl MemberRecord {
    /// The record of a member that has done nothing yet in this slot, in an office of 3, 5 or 7 members.
    ///
    /// # Errors
    /// 17, for a slot above 7 too.
    pub fn fresh(slot: Slot, number: Member, members: u32) -> Result<MemberRecord, Refusal> {
        compare_versions();
        // SAFETY: the function takes numbers alone.
        let result = unsafe { ffi::kalebasin_member_fresh(slot.0, number.0, members) };
        accepted(result.number)?;
        Ok(MemberRecord(result.record))
    }

    /// Starts a round that this member leads, with a value to offer. What is to be sent to all members stands at the front
    /// of `reply` then; bytes behind it stay.
    ///
    /// # Errors
    /// 17, 18, 3, 19 or 20, checked in that order.
    pub fn start(&mut self, round: Round, offer: u64, reply: &mut [u8]) -> Result<Report, Refusal> {
        compare_versions();
        // SAFETY: pointer and length come from one exclusive slice.
        let result = unsafe { ffi::kalebasin_member_start(self.0, round.0, offer, reply.as_mut_ptr(), reply.len()) };
        self.take(&result)
    }

    /// Delivers the bytes of one message to this member. What it sends stands at the front of `reply` then; bytes behind it
    /// stay.
    ///
    /// A START or PROPOSE that comes again, as where its answer was lost, leaves the record as it is and sends the same JOIN
    /// or VOTE. It gets 22 once the member has joined or voted in a higher round, a START also once the member has voted in
    /// its own.
    ///
    /// ```
    /// use kalebasin::{Member, MemberRecord, Message, Refusal, Round, Slot};
    ///
    /// let mut reply = [0; Message::LONGEST];
    /// let sent = MemberRecord::fresh(Slot(3), Member(1), 3)?.start(Round(1), 70, &mut reply)?.sent;
    /// let start = reply[..sent].to_vec();
    /// let mut other = MemberRecord::fresh(Slot(4), Member(0), 3)?;
    /// assert_eq!(other.deliver(&start, &mut reply), Err(Refusal::WrongSlot));
    /// let mut member = MemberRecord::fresh(Slot(3), Member(0), 3)?;
    /// let sent = member.deliver(&start, &mut reply)?.sent;
    /// let (join, joined) = (reply[..sent].to_vec(), member.clone());
    /// let sent = member.deliver(&start, &mut reply)?.sent; // the JOIN was lost, and the START comes again
    /// assert_eq!((&reply[..sent], member), (&join[..], joined));
    /// # Ok::<(), Refusal>(())
    /// ```
    ///
    /// # Errors
    /// 17, 18, those of [`read_message`] with 32 for every slot but the record's own, then 21 to 25 by the message's kind.
    pub fn deliver(&mut self, bytes: &[u8], reply: &mut [u8]) -> Result<Report, Refusal> {
        compare_versions();
        // SAFETY: each pointer and length come from one slice; the mutable one is exclusive.
        let result = unsafe {
            ffi::kalebasin_member_deliver(self.0, bytes.as_ptr(), bytes.len(), reply.as_mut_ptr(), reply.len())
        };
        self.take(&result)
    }

    /// The fields, as a host keeps them on disk.
    pub fn fields(&self) -> MemberFields {
        let ffi::MemberRecord { me, n, joined, voted, vote, led, phase, value, source, flags, slot } = self.0;
        MemberFields {
            slot: Slot(slot),
            number: Member(me),
            members: n,
            joined: Round(joined),
            voted: Round(voted),
            vote,
            led: Round(led),
            phase,
            value,
            source: Round(source),
            flags,
        }
    }

    /// The record of these fields, whatever they are. Calls on one that isn't sound get 17.
    ///
    /// ```
    /// use kalebasin::{Member, MemberFields, MemberRecord, Message, Refusal, Round, Slot};
    ///
    /// let mut record = MemberRecord::from_fields(MemberFields::default());
    /// let refused = record.start(Round(1), 70, &mut [0; Message::LONGEST]);
    /// assert_eq!(refused, Err(Refusal::RecordUnsound));
    /// let fresh = MemberRecord::fresh(Slot(3), Member(1), 3)?;
    /// assert_eq!(MemberRecord::from_fields(fresh.fields()), fresh);
    /// # Ok::<(), Refusal>(())
    /// ```
    pub fn from_fields(fields: MemberFields) -> MemberRecord {
        MemberRecord(ffi::MemberRecord {
            me: fields.number.0,
            n: fields.members,
            joined: fields.joined.0,
            voted: fields.voted.0,
            vote: fields.vote,
            led: fields.led.0,
            phase: fields.phase,
            value: fields.value,
            source: fields.source.0,
            flags: fields.flags,
            slot: fields.slot.0,
        })
    }

    /// Takes over the record of an accepted call, and tells what the call came to.
    fn take(&mut self, result: &ffi::MemberResult) -> Result<Report, Refusal> {
        accepted(result.number)?;
        self.0 = result.record;
        let (round, value) = (Round(result.round), result.value);
        let made = match (round, result.sent) {
            (Round(0), _) => None,
            (_, 0) => Some(Made::Decision { round, value }),
            _ => Some(Made::Proposal { round, value, parent: Round(result.parent) }),
        };
        Ok(Report::new(result.sent as usize, made))
    }
}

/// The result that a number stands for.
pub(crate) fn accepted(number: u32) -> Result<(), Refusal> {
    match number {
        0 => Ok(()),
        _ => Err(Refusal::from_number(number).unwrap_or_else(|| unreachable!("the core gave the number {number}"))),
    }
}
