//! How far a search is, on standard error: a bar on a terminal, elsewhere a line once a second.

use kalebasin_rig::search::Progress;
use std::io::{self, IsTerminal, Write};
use std::time::{Duration, Instant};

/// Tells of so many lists.
pub struct Reporter {
    lists: u64,
    began: Instant,
    told: Instant,
    terminal: bool,
    last: Progress,
}

/// Goes to the start of the line and clears it.
const CLEAR: &str = "\r\x1b[K";
const BAR: usize = 30;

impl Reporter {
    pub fn new(lists: u64) -> Reporter {
        let now = Instant::now();
        Reporter { lists, began: now, told: now, terminal: io::stderr().is_terminal(), last: Progress::default() }
    }

    pub fn tell(&mut self, progress: &Progress) {
        self.last = *progress;
        let pause = Duration::from_millis(if self.terminal { 100 } else { 1_000 });
        if self.told.elapsed() >= pause {
            self.told = Instant::now();
            say(&if self.terminal { self.bar() } else { self.line() });
        }
    }

    pub fn end(&self) {
        say(&format!("{}{}", if self.terminal { CLEAR } else { "" }, self.line()));
    }

    fn line(&self) -> String {
        let Progress { lists, events, proposed, decided } = self.last;
        let reached = match events {
            0 => String::new(),
            _ => format!(", {events} events, {proposed} lists with a proposal, {decided} with a decision"),
        };
        format!("{lists} of {} lists{reached}, {:.1} s\n", self.lists, self.began.elapsed().as_secs_f32())
    }

    fn bar(&self) -> String {
        let part = self.last.lists as f64 / self.lists.max(1) as f64;
        let filled = (part * BAR as f64) as usize;
        let bar = "#".repeat(filled) + &".".repeat(BAR - filled.min(BAR));
        let left = match self.last.lists {
            0 => String::new(),
            _ => time_left(self.began.elapsed().as_secs_f64() * (1.0 - part) / part),
        };
        format!("{CLEAR}[{bar}] {:.0}% of {} lists{left}", (100.0 * part).floor(), self.lists)
    }
}

/// Seconds in words.
fn time_left(seconds: f64) -> String {
    match seconds {
        less if less < 60.0 => format!(", {less:.0} s left"),
        less if less < 3_600.0 => format!(", {:.0} min left", less / 60.0),
        less if less < 86_400.0 => format!(", {:.0} h left", less / 3_600.0),
        less if less < 31_536_000.0 => format!(", {:.0} days left", less / 86_400.0),
        _ => ", more than a year left".into(),
    }
}

/// What can't be told is lost.
fn say(text: &str) {
    let _ = io::stderr().lock().write_all(text.as_bytes());
}
