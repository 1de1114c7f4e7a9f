//! Why the tool ends before its work is done.

use crate::options::Command;
use kalebasin::Refusal;
use std::fmt::Display;
use std::io;

/// A line for standard error, a command whose help goes with it, and the exit status.
pub struct Stop {
    pub words: String,
    pub help: Option<&'static Command>,
    pub status: u8,
}

/// The status of a refusal, of a property that fails, and of what isn't as the model or the second implementation has it.
pub const REFUSED: u8 = 1;
/// The status of a mistake, and of what can't be read or written.
pub const MISTAKE: u8 = 2;

impl Stop {
    /// A mistake on the command line that the command's own help clears up.
    pub fn with_help(words: String, command: &'static Command) -> Stop {
        Stop { words, help: Some(command), status: MISTAKE }
    }

    /// Something is refused, as each command tells it, with the place where it goes wrong.
    pub fn refused(what: &str, refusal: Refusal, place: Option<impl Display>) -> Stop {
        let place = place.map_or(String::new(), |place| format!(" ({place})"));
        Stop { words: format!("the {what} is refused with {refusal}{place}"), help: None, status: REFUSED }
    }

    /// A file or stream that can't be read or written.
    pub fn file(name: impl Display, error: &io::Error) -> Stop {
        format!("{name}: {error}").into()
    }
}

impl From<String> for Stop {
    fn from(words: String) -> Stop {
        Stop { words, help: None, status: MISTAKE }
    }
}

impl From<&str> for Stop {
    fn from(words: &str) -> Stop {
        words.to_string().into()
    }
}

/// What isn't told otherwise is refused of a list.
impl From<Refusal> for Stop {
    fn from(refusal: Refusal) -> Stop {
        Stop::refused("list", refusal, None::<&str>)
    }
}

/// What isn't a file of its own is standard output.
impl From<io::Error> for Stop {
    fn from(error: io::Error) -> Stop {
        Stop::file("standard output", &error)
    }
}
