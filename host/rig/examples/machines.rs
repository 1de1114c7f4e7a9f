//! An office whose members run each on its own: a thread and a UDP socket on 127.0.0.1 for each, and a record for each of two
//! slots, which are agreed on side by side over the same sockets. A shim in front of each socket loses, repeats and holds back
//! datagrams. In each slot a member sends its last message to all and its last answer to a leader again and again, and starts the
//! next round that it leads where no message that it can use comes in for a while.
//!
//!     machines [MEMBERS [SEED [LOST]]]     3, 5 or 7 members; a seed; so many of a hundred datagrams are lost, at most 90
//!
//! Decisions are made by leaders. How the others learn of one is no part of the protocol: a member that knows one tells the
//! sender of each message that comes in, and a leader that decides tells all, by a datagram of this program's own (`KNOWN`, a
//! slot, a round and a value), which is believed. The run ends when all know in both slots, or at a limit of time and of datagrams.
//! It prints who decided what and how each member came to know, and fails with status 1 where not all know, or where two values of
//! a slot differ; a mistake in the arguments, a socket that fails and output that can't be written have a line and status 2.
//!
//! The seed fixes what becomes of the k-th datagram of each member, and not the order in which threads run.

use kalebasin::{read_message, Made, Member, MemberRecord, Message, Refusal, Round, Slot};
use kalebasin_rig::random::Random;
use std::collections::BTreeSet;
use std::ffi::OsString;
use std::io::{stderr, stdout, Error, ErrorKind, Write};
use std::net::{SocketAddr, UdpSocket};
use std::process::ExitCode;
use std::sync::atomic::{AtomicUsize, Ordering};
use std::time::{Duration, Instant};

/// A run ends after this time at the latest, and after so many datagrams.
pub const LONGEST_RUN: Duration = Duration::from_secs(20);
pub const MOST_DATAGRAMS: usize = 100_000;

/// The slots that are agreed on; every member has a record for each.
const OPEN: [Slot; 2] = [Slot(0), Slot(5)];

/// The first word of a datagram that tells a decision; no message of the protocol has this slot.
const KNOWN: [u8; 4] = *b"KNOW";

/// A decided round and its value.
type Decision = (Round, u64);

/// What all members share: addresses, and counts by which they know when to end.
struct Office {
    addresses: Vec<SocketAddr>,
    seed: u64,
    lost: usize,
    until: Instant,
    most: usize,
    datagrams: AtomicUsize,
    knowing: AtomicUsize,
}

impl Office {
    fn members(&self) -> u32 {
        self.addresses.len() as u32
    }

    fn is_over(&self) -> bool {
        let all_know = self.knowing.load(Ordering::SeqCst) == self.addresses.len() * OPEN.len();
        all_know || Instant::now() > self.until || self.datagrams.load(Ordering::SeqCst) >= self.most
    }
}

/// What the shim did to datagrams.
#[derive(Clone, Copy, Default)]
struct Weather {
    sent: usize,
    lost: usize,
    repeated: usize,
    held_back: usize,
}

/// A socket, and what is held back in front of it with the time it leaves.
struct Shim<'a> {
    office: &'a Office,
    socket: UdpSocket,
    random: Random,
    held: Vec<(Instant, Member, Vec<u8>)>,
    weather: Weather,
}

impl Shim<'_> {
    fn send(&mut self, to: Member, bytes: &[u8]) -> Result<(), Error> {
        let copies = if self.random.chance(15) { 2 } else { 1 };
        self.weather.repeated += copies - 1;
        for _ in 0..copies {
            if self.random.chance(self.office.lost) {
                self.weather.lost += 1;
            } else if self.random.chance(30) {
                self.weather.held_back += 1;
                let wait = Duration::from_millis(self.random.between(1, 40) as u64);
                self.held.push((Instant::now() + wait, to, bytes.to_vec()));
            } else {
                self.put(to, bytes)?;
            }
        }
        Ok(())
    }

    fn send_to_all(&mut self, bytes: &[u8]) -> Result<(), Error> {
        (0..self.office.members()).try_for_each(|to| self.send(Member(to), bytes))
    }

    /// Sends what has been held back long enough.
    fn release(&mut self) -> Result<(), Error> {
        let now = Instant::now();
        let (due, held) = std::mem::take(&mut self.held).into_iter().partition(|(leaves, ..)| *leaves <= now);
        self.held = held;
        let due: Vec<_> = due;
        due.iter().try_for_each(|(_, to, bytes)| self.put(*to, bytes))
    }

    fn put(&mut self, to: Member, bytes: &[u8]) -> Result<(), Error> {
        if self.office.datagrams.fetch_add(1, Ordering::SeqCst) < self.office.most {
            self.weather.sent += 1;
            self.socket.send_to(bytes, self.office.addresses[to.0 as usize])?;
        }
        Ok(())
    }
}

/// One member's machine.
struct Machine<'a> {
    number: Member,
    shim: Shim<'a>,
    waits: Random,
    /// One for each open slot.
    seats: Vec<Seat>,
    refused: usize,
}

/// A member in one slot.
struct Seat {
    slot: Slot,
    record: MemberRecord,
    /// What it sent last, to all and to a leader, and when it sends that again.
    to_all: Vec<u8>,
    to_leader: Option<(Member, Vec<u8>)>,
    again_at: Instant,
    /// When it starts a round of its own, if no message that it can use comes in before.
    start_at: Instant,
    decided: Vec<Decision>,
    known: Option<(Decision, Member)>,
}

impl Seat {
    fn new(slot: Slot, number: Member, members: u32) -> Result<Seat, Refusal> {
        let (record, now) = (MemberRecord::fresh(slot, number, members)?, Instant::now());
        let (to_all, to_leader) = (Vec::new(), None);
        Ok(Seat { slot, record, to_all, to_leader, again_at: now, start_at: now, decided: Vec::new(), known: None })
    }

    /// Puts the next start off, seldom for as long as another member does.
    fn wait(&mut self, waits: &mut Random) {
        self.start_at = Instant::now() + Duration::from_millis(waits.between(30, 300) as u64);
    }

    fn say_again(&mut self, shim: &mut Shim) -> Result<(), Error> {
        self.again_at = Instant::now() + Duration::from_millis(10);
        if !self.to_all.is_empty() {
            shim.send_to_all(&self.to_all)?;
        }
        match &self.to_leader {
            Some((leader, bytes)) => shim.send(*leader, bytes),
            None => Ok(()),
        }
    }

    /// JOIN and VOTE go to the leader of their round, the leader's messages to all. The last of each is kept.
    fn pass_on(&mut self, bytes: &[u8], shim: &mut Shim) -> Result<(), Error> {
        match read_message(bytes) {
            Ok(Message::Join { round, .. } | Message::Vote { round, .. }) => {
                self.to_leader = round.leader(shim.office.members()).map(|leader| (leader, bytes.to_vec()));
                self.to_leader.iter().try_for_each(|(leader, bytes)| shim.send(*leader, bytes))
            }
            Ok(_) => {
                self.to_all = bytes.to_vec();
                shim.send_to_all(bytes)
            }
            Err(refusal) => Err(Error::other(format!("a member sent what can't be read: {refusal}"))),
        }
    }

    fn learn(&mut self, decision: Decision, from: Member, office: &Office) {
        if self.known.is_none() {
            self.known = Some((decision, from));
            office.knowing.fetch_add(1, Ordering::SeqCst);
        }
    }
}

impl<'a> Machine<'a> {
    fn new(office: &'a Office, number: Member, socket: UdpSocket) -> Result<Machine<'a>, Refusal> {
        let random = Random::of(office.seed, u64::from(number.0));
        let mut waits = Random::of(office.seed, u64::from(office.members() + number.0));
        let shim = Shim { office, socket, random, held: Vec::new(), weather: Weather::default() };
        let seat = |slot| Seat::new(slot, number, office.members());
        let mut seats = OPEN.into_iter().map(seat).collect::<Result<Vec<_>, _>>()?;
        seats.iter_mut().for_each(|seat| seat.wait(&mut waits));
        Ok(Machine { number, shim, waits, seats, refused: 0 })
    }

    fn run(&mut self) -> Result<(), Error> {
        self.shim.socket.set_read_timeout(Some(Duration::from_millis(2)))?;
        let mut datagram = [0; 64];
        while !self.shim.office.is_over() {
            match self.shim.socket.recv_from(&mut datagram) {
                Ok((length, from)) => self.hear(&datagram[..length], from)?,
                Err(error) if matches!(error.kind(), ErrorKind::WouldBlock | ErrorKind::TimedOut) => (),
                Err(error) => return Err(error),
            }
            self.shim.release()?;
            let now = Instant::now();
            for at in 0..self.seats.len() {
                let seat = &mut self.seats[at];
                if seat.known.is_none() && now >= seat.start_at {
                    self.start(at)?;
                } else if seat.known.is_none() && now >= seat.again_at {
                    seat.say_again(&mut self.shim)?;
                }
            }
        }
        Ok(())
    }

    /// Starts the first round that it leads above all that it has joined or led in this slot, and offers a value of its own.
    fn start(&mut self, at: usize) -> Result<(), Error> {
        let (seat, members) = (&mut self.seats[at], self.shim.office.members());
        let fields = seat.record.fields();
        let above = fields.joined.max(fields.led).0 + 1;
        let round = (above..).map(Round).find(|round| round.leader(members) == Some(self.number));
        let mut reply = [0; Message::LONGEST];
        let offered = offer(seat.slot, self.number);
        let started = seat.record.start(round.unwrap_or(Round::ROOT), offered, &mut reply);
        seat.wait(&mut self.waits);
        match started {
            Ok(report) => seat.pass_on(&reply[..report.sent], &mut self.shim),
            Err(refusal) => Err(Error::other(format!("member {} can't start: {refusal}", self.number))),
        }
    }

    /// A message goes to the member of its slot.
    fn hear(&mut self, datagram: &[u8], from: SocketAddr) -> Result<(), Error> {
        let Some(sender) = self.shim.office.addresses.iter().position(|address| *address == from) else {
            return Ok(());
        };
        let (sender, told) = (Member(sender as u32), told(datagram));
        let slot = told.map(|(slot, _)| slot).or_else(|| read_message(datagram).ok().map(|message| message.slot()));
        let Some(seat) = self.seats.iter_mut().find(|seat| Some(seat.slot) == slot) else {
            self.refused += 1;
            return Ok(());
        };
        if let Some((_, decision)) = told {
            seat.learn(decision, sender, self.shim.office);
            return Ok(());
        }
        let mut reply = [0; Message::LONGEST];
        match seat.record.deliver(datagram, &mut reply) {
            Ok(report) => {
                seat.wait(&mut self.waits);
                if report.sent > 0 {
                    seat.pass_on(&reply[..report.sent], &mut self.shim)?;
                }
                if let Some(Made::Decision { round, value }) = report.made {
                    seat.decided.push((round, value));
                    seat.learn((round, value), self.number, self.shim.office);
                    self.shim.send_to_all(&telling(seat.slot, (round, value)))?;
                }
            }
            Err(_) => self.refused += 1,
        }
        match seat.known {
            Some((decision, _)) if sender != self.number => self.shim.send(sender, &telling(seat.slot, decision)),
            _ => Ok(()),
        }
    }
}

/// What a member offers in a slot: no other does, and none in another slot.
fn offer(slot: Slot, member: Member) -> u64 {
    70 + 100 * u64::from(slot.0) + u64::from(member.0)
}

/// The datagram that tells a decision.
fn telling(slot: Slot, (round, value): Decision) -> Vec<u8> {
    [&KNOWN[..], &slot.0.to_be_bytes(), &round.0.to_be_bytes(), &value.to_be_bytes()].concat()
}

/// The slot and the decision that a datagram tells.
fn told(datagram: &[u8]) -> Option<(Slot, Decision)> {
    let (slot, rest) = datagram.strip_prefix(&KNOWN)?.split_first_chunk()?;
    let (round, value) = rest.split_first_chunk()?;
    let decision = (Round(u32::from_be_bytes(*round)), u64::from_be_bytes(value.try_into().ok()?));
    Some((Slot(u32::from_be_bytes(*slot)), decision))
}

/// The arguments, of digits alone: members, seed, loss.
pub fn asked(arguments: impl Iterator<Item = OsString>) -> Option<(u32, u64, usize)> {
    let digits = |word: &&str| word.bytes().all(|digit| digit.is_ascii_digit());
    let number = |word: OsString| word.to_str().filter(digits).and_then(|word| word.parse().ok());
    let words: Vec<u64> = arguments.map(number).collect::<Option<_>>()?;
    let word = |at: usize, otherwise: u64| words.get(at).copied().unwrap_or(otherwise);
    let (members, seed, lost) = (word(0, 5), word(1, 1), word(2, 20));
    (words.len() <= 3 && matches!(members, 3 | 5 | 7) && lost <= 90).then_some((members as u32, seed, lost as usize))
}

/// Runs the office; what it prints, and whether all know the same value in each slot.
pub fn run(members: u32, seed: u64, lost: usize, longest: Duration, most: usize) -> Result<(String, bool), Error> {
    let sockets = (0..members).map(|_| UdpSocket::bind("127.0.0.1:0")).collect::<Result<Vec<_>, _>>()?;
    let addresses = sockets.iter().map(UdpSocket::local_addr).collect::<Result<Vec<_>, _>>()?;
    let until = Instant::now() + longest;
    let (datagrams, knowing) = (AtomicUsize::new(0), AtomicUsize::new(0));
    let office = Office { addresses, seed, lost, until, most, datagrams, knowing };
    let machines = sockets.into_iter().zip(0..).map(|(socket, number)| Machine::new(&office, Member(number), socket));
    let mut machines = machines.collect::<Result<Vec<_>, _>>().map_err(|refusal| Error::other(refusal.to_string()))?;
    std::thread::scope(|scope| {
        let running: Vec<_> = machines.iter_mut().map(|machine| scope.spawn(|| machine.run())).collect();
        running
            .into_iter()
            .try_for_each(|thread| thread.join().unwrap_or_else(|_| Err(Error::other("a member fell over"))))
    })?;
    Ok(told_of(&machines))
}

fn told_of(machines: &[Machine]) -> (String, bool) {
    let (mut text, mut agreed) = (String::new(), true);
    for (at, slot) in OPEN.into_iter().enumerate() {
        let mut values = BTreeSet::new();
        for Machine { number, seats, .. } in machines {
            let Seat { decided, known, .. } = &seats[at];
            for (round, value) in decided {
                text += &format!("slot {slot}: member {number} decided {value} in round {round}\n");
                values.insert(*value);
            }
            text += &match known {
                Some(((_, value), from)) if from == number => format!("slot {slot}: member {number} knows {value}\n"),
                Some(((_, value), from)) => {
                    format!("slot {slot}: member {number} knows {value}: member {from} told it\n")
                }
                None => format!("slot {slot}: member {number} knows of no decision\n"),
            };
            values.extend(known.map(|((_, value), _)| value));
            agreed &= known.is_some();
        }
        let offered = |value| machines.iter().any(|machine| offer(slot, machine.number) == value);
        agreed &= values.len() == 1 && values.into_iter().all(offered);
    }
    let of = |count: fn(&Weather) -> usize| machines.iter().map(|machine| count(&machine.shim.weather)).sum::<usize>();
    let (sent, lost) = (of(|weather| weather.sent), of(|weather| weather.lost));
    let (repeated, held_back) = (of(|weather| weather.repeated), of(|weather| weather.held_back));
    let refused: usize = machines.iter().map(|machine| machine.refused).sum();
    text += &format!("{sent} datagrams: {lost} more were lost, {repeated} repeated, {held_back} held back; {refused} messages refused\n");
    text +=
        if agreed { "all know the same value in each slot\n" } else { "NOT all know the same value in each slot\n" };
    (text, agreed)
}

/// A line on standard error, and the status of a mistake. What can't be told is lost.
fn mistake(line: &str) -> ExitCode {
    let _ = writeln!(stderr(), "{line}");
    ExitCode::from(2)
}

fn main() -> ExitCode {
    let Some((members, seed, lost)) = asked(std::env::args_os().skip(1)) else {
        return mistake(
            "machines [MEMBERS [SEED [LOST]]]: 3, 5 or 7 members, a seed, 0 to 90 of a hundred datagrams lost",
        );
    };
    let told = run(members, seed, lost, LONGEST_RUN, MOST_DATAGRAMS)
        .and_then(|(text, agreed)| stdout().write_all(text.as_bytes()).map(|()| agreed));
    match told {
        Ok(true) => ExitCode::SUCCESS,
        Ok(false) => ExitCode::FAILURE,
        Err(error) => mistake(&format!("machines: {error}")),
    }
}
