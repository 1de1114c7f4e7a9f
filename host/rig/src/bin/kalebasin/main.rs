//! The rig's tool: `kalebasin --help`.

mod commands;
mod input;
mod options;
mod progress;
mod search;
mod stop;
mod tree;

use options::Asked;
use std::io::{self, Write};
use std::process::ExitCode;
use stop::Stop;

fn main() -> ExitCode {
    let mut out = io::stdout().lock();
    let ended = work(&mut out);
    let written = out.flush().map_err(Stop::from);
    written.and(ended).unwrap_or_else(|stop| {
        // What can't be told on standard error either is lost.
        let mut error = io::stderr().lock();
        let _ = writeln!(error, "kalebasin: {}", one_line(&stop.words));
        if let Some(command) = stop.help {
            let _ = write!(error, "\n{}", command.help());
        }
        ExitCode::from(stop.status)
    })
}

/// The text with its control characters written out, whatever a file or an argument is called.
fn one_line(text: &str) -> String {
    let mut line = String::new();
    for letter in text.chars() {
        if letter.is_control() {
            line.extend(letter.escape_default());
        } else {
            line.push(letter);
        }
    }
    line
}

fn work(out: &mut dyn Write) -> commands::Outcome {
    match options::parse(std::env::args_os().skip(1))? {
        Asked::Work(options) => return commands::run(&options, out),
        Asked::Help(None) => write!(out, "{}", options::help())?,
        Asked::Help(Some(command)) => write!(out, "{}", command.help())?,
        Asked::Version => {
            let core = if cfg!(feature = "core") { "with" } else { "without" };
            writeln!(out, "kalebasin {}, {core} the proved core", env!("CARGO_PKG_VERSION"))?;
        }
    }
    Ok(ExitCode::SUCCESS)
}
