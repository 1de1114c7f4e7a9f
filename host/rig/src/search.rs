//! Searches random lists, random orders of one list, or all lists of a few events for a property that fails.

use crate::compare::{self, Left, Lent};
use crate::explain::in_slot;
use crate::generate::{self, Case};
use crate::random::Random;
use crate::second::member::{size_allowed, Decision, Proposal};
use crate::second::model::{Made, Model};
use crate::second::{self, message};
use crate::shrink::{shortest, shrink};
use crate::trace::model_ghosts;
use crate::Calls;
use kalebasin::{
    nodes, number_of, sent, Event, EventList, Member, Message, MessageNumber, Node, Refusal, Round, Slot, Status,
    SLOTS, STORE_ROW, STORE_ROWS, TABLE_ROW, TABLE_ROWS,
};
use std::collections::{HashMap, HashSet};
use std::sync::atomic::{AtomicU64, Ordering};
use std::sync::mpsc::{self, RecvTimeoutError};
use std::sync::{Mutex, MutexGuard, PoisonError};
use std::thread;
use std::time::Duration;

/// A run of a list: what the model keeps, the answers it gives, and what play left.
pub struct Run {
    /// The list and the memory.
    pub case: Case,
    /// The model after the list.
    pub model: Model,
    /// The model's answers.
    pub answers: Vec<u32>,
    /// What play left.
    pub left: Left,
}

impl Run {
    /// Runs a case.
    ///
    /// # Errors
    /// 26, 27, 28 or 1, as play gives them.
    pub fn new(calls: &Calls, case: &Case) -> Result<Run, Refusal> {
        let Lent { store, tables, misfit, answers, .. } = case.lent;
        let events = case.list.events.len();
        let whole = |length: usize, row: usize, most: usize| length % row == 0 && (1..=most).contains(&(length / row));
        let causes = [
            (events > EventList::MOST, Refusal::ListShape),
            (!size_allowed(case.list.n), Refusal::OfficeSize),
            (!whole(store, STORE_ROW, STORE_ROWS) || answers < events, Refusal::StoreOrAnswers),
            (misfit != 0 || tables.iter().any(|table| !whole(*table, TABLE_ROW, TABLE_ROWS)), Refusal::TableLength),
        ];
        if let Some((_, refusal)) = causes.into_iter().find(|(holds, _)| *holds) {
            return Err(refusal);
        }
        let (store_rows, table_rows) = case.lent.whole_rows();
        let (model, steps) = Model::run(&case.list, store_rows, table_rows)?;
        let answers = steps.iter().map(number_of).collect();
        Ok(Run { case: case.clone(), model, answers, left: compare::play(calls, &case.list.to_bytes(), &case.lent) })
    }

    /// The model's proposals with their slots, in the order made.
    pub fn proposals(&self) -> impl Iterator<Item = (Slot, Proposal)> {
        self.model.made().into_iter().filter_map(|(slot, at)| match at.made {
            Made::Proposal(made) => Some((slot, made)),
            Made::Decision(_) => None,
        })
    }

    /// The model's decisions with their slots, in the order made.
    pub fn decisions(&self) -> impl Iterator<Item = (Slot, Decision)> {
        self.model.made().into_iter().filter_map(|(slot, at)| match at.made {
            Made::Proposal(_) => None,
            Made::Decision(made) => Some((slot, made)),
        })
    }

    /// The nodes that play left beside the roots, with their slots.
    pub fn nodes(&self) -> impl Iterator<Item = (Slot, Node)> + '_ {
        Slot::ALL.into_iter().flat_map(|slot| nodes(self.left.table(slot)).skip(1).map(move |node| (slot, node)))
    }
}

/// Something that can hold of a run or fail.
pub struct Property {
    /// What it is called on the command line.
    pub name: &'static str,
    /// What holds of a run.
    pub about: &'static str,
    /// How it fails, in words, or none.
    pub fails: fn(&Calls, &Run) -> Option<String>,
}

/// What documents 01 and 02 say of every run.
pub const ALWAYS: &[Property] = &[
    Property {
        name: "third-demand",
        about:
            "in each slot proposals and decisions get OK in a fresh tree, the one left; decided values are equal and \
                offered",
        fails: third_demand,
    },
    Property { name: "model", about: "answers and store are those of the model", fails: model },
    Property {
        name: "counts",
        about: "the result counts what answers, store and trees hold, and the rounds that adds made GHOST",
        fails: counts,
    },
    Property {
        name: "joins",
        about: "the JOINs of one member for one round of a slot are equal, byte for byte",
        fails: joins,
    },
    Property { name: "answers", about: "answers are only 0, 3, 9, 19, 20, 22, 24, 25, 29, 30 and 32", fails: answers },
    Property { name: "same", about: "the second implementation leaves the same", fails: same },
];

/// What holds of some runs: a search finds a short one of which it doesn't.
pub const SOMETIMES: &[Property] = &[
    Property {
        name: "no-proposal",
        about: "nothing is proposed",
        fails: |_, run| {
            let (slot, made) = run.proposals().next()?;
            Some(format!("round {} proposes {}{}", made.round, made.value, in_slot(slot)))
        },
    },
    Property {
        name: "no-decision",
        about: "nothing is decided",
        fails: |_, run| {
            let (slot, made) = run.decisions().next()?;
            Some(format!("round {} decides {}{}", made.round, made.value, in_slot(slot)))
        },
    },
    Property {
        name: "one-decision",
        about: "at most one round of a slot is decided",
        fails: |_, run| {
            let mut decided = HashSet::new();
            let (slot, made) = run.decisions().find(|(slot, _)| !decided.insert(*slot))?;
            Some(format!("round {} decides {} too{}", made.round, made.value, in_slot(slot)))
        },
    },
    Property {
        name: "one-slot",
        about: "rounds of at most one slot are decided",
        fails: |_, run| {
            let first = run.decisions().next()?.0;
            let (slot, made) = run.decisions().find(|(slot, _)| *slot != first)?;
            Some(format!("slot {first} has a decision, and round {} of slot {slot} decides {}", made.round, made.value))
        },
    },
    Property {
        name: "no-takeover",
        about: "no proposal has its value from an earlier round",
        fails: |_, run| {
            let (slot, taken) = run.proposals().find(|(_, made)| made.parent.0 > 0)?;
            Some(format!("round {} takes {} from round {}{}", taken.round, taken.value, taken.parent, in_slot(slot)))
        },
    },
    Property {
        name: "no-late-decision",
        about: "no round is decided after a higher one of its slot was proposed",
        fails: late_decision,
    },
    Property { name: "no-join-again", about: "no member sends the JOIN of a round again", fails: join_again },
    Property {
        name: "no-ghost",
        about: "no node is GHOST",
        fails: |_, run| {
            let (slot, ghost) = run.nodes().find(|(_, node)| node.status == Status::Ghost)?;
            Some(format!("round {} is GHOST{}", ghost.round, in_slot(slot)))
        },
    },
    Property {
        name: "no-full-store",
        about: "no event is refused with 30",
        fails: |_, run| refused(run, Refusal::StoreFull),
    },
    Property {
        name: "no-full-table",
        about: "no event is refused with 9",
        fails: |_, run| refused(run, Refusal::NoFreeRow),
    },
    Property {
        name: "no-wrong-slot",
        about: "no event is refused with 32",
        fails: |_, run| refused(run, Refusal::WrongSlot),
    },
];

fn third_demand(_: &Calls, run: &Run) -> Option<String> {
    match run.model.third_demand() {
        Err(breach) => Some(breach.to_string()),
        Ok(trees) if trees != run.left.words() => {
            Some("the trees left aren't those of the proposals and decisions".into())
        }
        Ok(_) => None,
    }
}

fn model(_: &Calls, run: &Run) -> Option<String> {
    let given = &run.left.answers()[..run.answers.len()];
    if let Some(at) = (0..given.len()).find(|at| u32::from(given[*at]) != run.answers[*at]) {
        return Some(format!("event {at} is answered {}, in the model {}", given[at], run.answers[at]));
    }
    let mut store = vec![0; run.left.store().len()];
    for (row, sent) in store.chunks_mut(STORE_ROW).zip(&run.model.sent) {
        message::write(sent, row).expect("members send messages with fields in range");
    }
    (store != run.left.store()).then(|| "the store doesn't hold the messages sent".into())
}

fn counts(_: &Calls, run: &Run) -> Option<String> {
    let Ok(played) = run.left.result else { return Some("the list is refused".into()) };
    let accepted = run.left.answers()[..run.answers.len()].iter().filter(|answer| **answer == 0).count();
    let rows = run.left.store().chunks(STORE_ROW).filter(|row| row.iter().any(|byte| *byte != 0)).count();
    let (added, committed) =
        (run.nodes().count(), run.nodes().filter(|(_, node)| node.status == Status::Committed).count());
    let ghosts = match model_ghosts(&run.model) {
        Ok(of_adds) => of_adds.iter().map(|(_, ghosts)| ghosts).sum(),
        Err(breach) => return Some(breach.to_string()),
    };
    let [accepted, rows, added, committed] = [accepted, rows, added, committed].map(|count| count as u32);
    let held = [accepted, rows, added, committed, ghosts];
    let said = [played.accepted, played.messages, played.proposals, played.decisions, played.ghosts];
    (held != said).then(|| format!("{held:?} are held and {said:?} are said"))
}

fn answers(_: &Calls, run: &Run) -> Option<String> {
    let given = &run.left.answers()[..run.answers.len()];
    let other = given.iter().find(|answer| !matches!(answer, 0 | 3 | 9 | 19 | 20 | 22 | 24 | 25 | 29 | 30 | 32))?;
    Some(format!("an event is answered {other}"))
}

/// Compares the JOINs in the store that play left, by what stands in front of their presence: slot, kind, round and sender.
fn joins(_: &Calls, run: &Run) -> Option<String> {
    let Ok(played) = run.left.result else { return None };
    let messages = sent(run.left.store(), played.messages).enumerate();
    let mut first = HashMap::new();
    for (number, join) in messages.filter(|(_, bytes)| bytes[4..].starts_with(&[0, 0, 0, 2])) {
        let (before, other) = *first.entry(&join[..16]).or_insert((number, join));
        if other != join {
            return Some(format!("messages {before} and {number} are JOINs of one member for one round, and differ"));
        }
    }
    None
}

fn same(calls: &Calls, run: &Run) -> Option<String> {
    let second = compare::play(&second::CALLS, &run.case.list.to_bytes(), &run.case.lent);
    compare::difference([calls.name, second::CALLS.name], [&run.left, &second])
}

fn late_decision(_: &Calls, run: &Run) -> Option<String> {
    let mut highest = [Round::ROOT; SLOTS];
    for (slot, at) in run.model.made() {
        let highest = &mut highest[slot.0 as usize];
        match at.made {
            Made::Proposal(proposal) => *highest = (*highest).max(proposal.round),
            Made::Decision(decision) if decision.round < *highest => {
                let decided = format!("round {} is decided after round {highest} was proposed", decision.round);
                return Some(decided + &in_slot(slot));
            }
            Made::Decision(_) => {}
        }
    }
    None
}

fn join_again(_: &Calls, run: &Run) -> Option<String> {
    let mut before = HashSet::new();
    let mut joins = run.model.sent.iter().filter(|message| matches!(message, Message::Join { .. }));
    let again = joins.find(|join| !before.insert((join.slot(), join.round(), join.sender())))?;
    let slot = in_slot(again.slot());
    Some(format!("member {} sends the JOIN of round {} again{slot}", again.sender(), again.round()))
}

fn refused(run: &Run, refusal: Refusal) -> Option<String> {
    let at = run.answers.iter().position(|answer| *answer == refusal.number())?;
    Some(format!("event {at} is refused with {refusal}"))
}

/// The lists that a search tries.
pub enum Source {
    /// Random lists.
    Random {
        /// How many.
        lists: u64,
        /// Only lists for 3, 5 or 7 members; for any of these if none, or another number.
        members: Option<u32>,
    },
    /// Random orders of a list.
    Orders {
        /// How many.
        lists: u64,
        /// The list, and the memory lent with each order.
        of: Case,
    },
    /// All lists of up to so many events, shorter ones first.
    All {
        /// The events that they are made of, and the memory lent with each list.
        of: Case,
        /// The most events.
        longest: usize,
    },
}

impl Source {
    /// How many lists there are; none if more than can be counted.
    pub fn lists(&self) -> Option<u64> {
        match self {
            Source::Random { lists, .. } | Source::Orders { lists, .. } => Some(*lists),
            Source::All { of, longest } => {
                let mut of_length = (0..=*longest).map(|length| power(of.list.events.len() as u64, length));
                of_length.try_fold(0u64, |sum, lists| sum.checked_add(lists?))
            }
        }
    }

    /// The list of this number. A seed and a number give the same list again, whichever lists were made before.
    ///
    /// # Panics
    /// Of all lists, where `number` isn't below [`Source::lists`].
    pub fn case(&self, seed: u64, number: u64) -> Case {
        let mut random = Random::of(seed, number);
        match self {
            Source::Random { members, .. } => loop {
                let case = generate::case(&mut random);
                if members.is_none_or(|n| n == case.list.n || !size_allowed(n)) {
                    return case;
                }
            },
            Source::Orders { of, .. } => {
                let mut case = of.clone();
                random.shuffle(&mut case.list.events);
                case
            }
            Source::All { of, .. } => {
                assert!(self.lists().is_none_or(|lists| number < lists), "there is no list of number {number}");
                let mut case = of.clone();
                case.list.events = nth_list(&of.list.events, number);
                case.lent.answers = case.list.events.len();
                case
            }
        }
    }

    /// The case as it is or the shortest found from it that fails too. Of all lists, the first that fails is the shortest.
    fn shortest(&self, case: Case, fails: &mut dyn FnMut(&Case) -> bool) -> Case {
        match self {
            Source::Random { members: None, .. } => shortest(case, fails),
            Source::Random { .. } | Source::Orders { .. } => shrink(case, fails),
            Source::All { .. } => case,
        }
    }
}

fn power(base: u64, exponent: usize) -> Option<u64> {
    base.checked_pow(u32::try_from(exponent).ok()?)
}

/// The list of this number among all that some events make, by length and then by the events' order.
fn nth_list(events: &[Event], number: u64) -> Vec<Event> {
    let (mut rest, mut length) = (number, 0);
    while let Some(lists) = power(events.len() as u64, length).filter(|lists| *lists <= rest) {
        rest -= lists;
        length += 1;
    }
    let mut list = Vec::with_capacity(length);
    for _ in 0..length {
        list.push(events[(rest % events.len() as u64) as usize]);
        rest /= events.len() as u64;
    }
    list.reverse();
    list
}

/// The events that [`Source::All`] makes lists of where none are given: rounds 1 and 2 started by their leaders, and
/// messages 0 to 3 delivered to each member.
///
/// # Errors
/// 27 where `n` isn't 3, 5 or 7.
pub fn few_events(n: u32) -> Result<EventList, Refusal> {
    if !size_allowed(n) {
        return Err(Refusal::OfficeSize);
    }
    let mut list = EventList::new(n);
    for round in [1, 2].map(Round) {
        round.leader(n).into_iter().for_each(|leader| _ = list.start(leader, round, 10 * u64::from(round.0)));
    }
    for message in (0..4).map(MessageNumber) {
        (0..n).map(Member).for_each(|member| _ = list.deliver(message, member));
    }
    Ok(list)
}

/// What is searched.
pub struct Search<'a> {
    /// The implementation to run.
    pub calls: &'a Calls,
    /// What to look for.
    pub properties: Vec<&'static Property>,
    /// Another seed gives other random lists.
    pub seed: u64,
    /// The lists to try.
    pub source: Source,
}

/// How far a search has got.
#[derive(Clone, Copy, Debug, Default, PartialEq, Eq, Hash)]
pub struct Progress {
    /// Lists tried.
    pub lists: u64,
    /// Their events.
    pub events: u64,
    /// Lists with a proposal.
    pub proposed: u64,
    /// Lists with a decision.
    pub decided: u64,
}

/// A property that failed.
pub struct Found {
    /// The property.
    pub property: &'static Property,
    /// The shortest list found that shows it.
    pub case: Case,
    /// How it fails on that list.
    pub how: String,
}

/// How many lists a thread takes at a time.
const STRETCH: u64 = 32;
/// How often it is told how far a search is.
const TELLING: Duration = Duration::from_millis(100);

/// What the threads of a search share.
#[derive(Default)]
struct Shared {
    /// The first list that no thread has taken.
    next: AtomicU64,
    lists: AtomicU64,
    events: AtomicU64,
    proposed: AtomicU64,
    decided: AtomicU64,
    /// The first list found of which a property fails.
    first: Mutex<Option<(u64, &'static Property)>>,
}

impl Shared {
    fn progress(&self) -> Progress {
        let [lists, events, proposed, decided] =
            [&self.lists, &self.events, &self.proposed, &self.decided].map(|count| count.load(Ordering::Relaxed));
        Progress { lists, events, proposed, decided }
    }

    fn count(&self, run: &Run) {
        let add = |count: &AtomicU64, more: u64| _ = count.fetch_add(more, Ordering::Relaxed);
        add(&self.lists, 1);
        add(&self.events, run.case.list.events.len() as u64);
        add(&self.proposed, u64::from(run.proposals().next().is_some()));
        add(&self.decided, u64::from(run.decisions().next().is_some()));
    }

    fn first(&self) -> MutexGuard<'_, Option<(u64, &'static Property)>> {
        self.first.lock().unwrap_or_else(PoisonError::into_inner)
    }

    /// Whether a list before this one was found.
    fn found_before(&self, number: u64) -> bool {
        self.first().is_some_and(|(first, _)| first < number)
    }

    fn found(&self, number: u64, property: &'static Property) {
        let mut first = self.first();
        if first.is_none_or(|(before, _)| number < before) {
            *first = Some((number, property));
        }
    }
}

impl Search<'_> {
    /// Tries the lists on so many threads and tells now and then how far it is. The list found is the first of all that
    /// fail, however many threads there are. One that play refuses is passed over.
    ///
    /// # Panics
    /// Where the system has no more threads.
    pub fn run(&self, threads: usize, tell: &mut dyn FnMut(&Progress)) -> Option<Found> {
        let shared = Shared::default();
        thread::scope(|scope| {
            let (working, over) = mpsc::channel::<()>();
            for _ in 0..threads.max(1) {
                let (shared, working) = (&shared, working.clone());
                scope.spawn(move || {
                    let _until_over = working;
                    self.work(shared);
                });
            }
            drop(working);
            while over.recv_timeout(TELLING) == Err(RecvTimeoutError::Timeout) {
                tell(&shared.progress());
            }
        });
        tell(&shared.progress());
        let (number, property) = (*shared.first())?;
        Some(self.smallest(property, self.source.case(self.seed, number)))
    }

    /// Takes stretches of lists until there are none, or one before them was found.
    fn work(&self, shared: &Shared) {
        let lists = self.source.lists().unwrap_or(u64::MAX);
        loop {
            let from = shared.next.fetch_add(STRETCH, Ordering::Relaxed);
            for number in from..lists.min(from.saturating_add(STRETCH)) {
                if shared.found_before(number) {
                    return;
                }
                self.try_list(number, shared);
            }
            if from >= lists {
                return;
            }
        }
    }

    fn try_list(&self, number: u64, shared: &Shared) {
        let Ok(run) = Run::new(self.calls, &self.source.case(self.seed, number)) else { return };
        shared.count(&run);
        if let Some(property) = self.properties.iter().find(|property| (property.fails)(self.calls, &run).is_some()) {
            shared.found(number, property);
        }
    }

    fn smallest(&self, property: &'static Property, case: Case) -> Found {
        let how = |case: &Case| (property.fails)(self.calls, &Run::new(self.calls, case).ok()?);
        let case = self.source.shortest(case, &mut |case| how(case).is_some());
        Found { property, how: how(&case).unwrap_or_default(), case }
    }
}

/// A case with clean memory of so many rows, of each slot's table.
pub fn clean_case(list: EventList, store_rows: usize, table_rows: usize) -> Case {
    let lent = Lent::rows(store_rows, table_rows, list.events.len());
    Case { list, lent }
}
