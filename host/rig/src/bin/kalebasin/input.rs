//! What a command reads: lists in notation, in bytes and in hexadecimal digits, and tree calls in notation.

use crate::options::Options;
use crate::stop::Stop;
use kalebasin::notation::{self, Mistake};
use kalebasin::{EventList, Refusal, TreeCallList};
use kalebasin_rig::second::member::size_allowed;
use kalebasin_rig::shape::misshape;
use std::ffi::OsStr;
use std::fs;
use std::io::{self, Read};
use std::path::Path;

/// The list that the command line gives, in notation, in bytes or in digits.
pub fn list(options: &Options) -> Result<EventList, Stop> {
    if options.bytes || options.hex {
        return list_of(&list_bytes(options)?, options);
    }
    list_in_notation(options)
}

/// The list that the command line gives in notation.
pub fn list_in_notation(options: &Options) -> Result<EventList, Stop> {
    in_notation(options, |text| notation::parse(text, options.members))
}

/// The tree calls that the command line gives.
pub fn tree_calls(options: &Options) -> Result<TreeCallList, Stop> {
    in_notation(options, |text| notation::parse_tree(text, options.kind))
}

/// What the notation says that the command line gives. Digits where notation is due get a hint.
fn in_notation<L>(options: &Options, parse: impl Fn(&str) -> Result<L, Mistake>) -> Result<L, Stop> {
    let (name, text) = notation_given(options)?;
    parse(&text).map_err(|mistake| {
        let hint = if are_digits(&text) { hint("--hex", options) } else { String::new() };
        format!("{name}: {mistake}{hint}").into()
    })
}

/// The notation that the command line gives, behind what it is called in a mistake.
fn notation_given(options: &Options) -> Result<(String, String), Stop> {
    if let Some(text) = &options.text {
        return Ok(("-e".into(), text.clone()));
    }
    let bytes = file_or_input(options.file.as_deref())?;
    let name = name(options.file.as_deref());
    match String::from_utf8(bytes) {
        Ok(text) if !text.contains(is_no_text) => Ok((name, text)),
        _ => Err(format!("{name}: these are bytes, not notation{}", hint("--bytes", options)).into()),
    }
}

/// A letter that notation never has, but that the bytes of a list are full of.
fn is_no_text(letter: char) -> bool {
    letter.is_control() && !letter.is_whitespace()
}

/// Some bytes in hexadecimal digits.
fn are_digits(text: &str) -> bool {
    from_hex(text).is_ok_and(|bytes| !bytes.is_empty())
}

/// What takes bytes, or with `--hex` digits, that were given where notation is due; nothing where tree calls are.
fn hint(option: &str, options: &Options) -> String {
    match (options.command.takes("--bytes"), option) {
        _ if options.command.takes("--kind") => String::new(),
        (true, _) if options.text.is_some() => format!("; {option} FILE is for the bytes of a list"),
        (true, _) => format!("; {option} is for the bytes of a list"),
        (false, "--hex") => "; decode --hex takes the bytes of a list".into(),
        (false, _) => "; decode takes the bytes of a list".into(),
    }
}

/// A hint for text that was given where the bytes of a list are due. No list is text: its count has bytes that are 0.
fn text_hint(bytes: &[u8], options: &Options) -> Option<&'static str> {
    let text = std::str::from_utf8(bytes).ok().filter(|text| !text.contains(is_no_text) && !text.trim().is_empty())?;
    match options.command.takes("--bytes") {
        _ if options.hex => None,
        _ if are_digits(text) => Some("these are hexadecimal digits, which --hex is for"),
        true => Some("this is text; without --bytes it is read as notation"),
        false => Some("this is text; encode turns notation into bytes"),
    }
}

/// The bytes of a list, from bytes or hexadecimal digits.
pub fn list_bytes(options: &Options) -> Result<Vec<u8>, Stop> {
    match options.file.as_deref() {
        file if options.hex => digits_of(file),
        file => file_or_input(file),
    }
}

/// The bytes whose digits stand in FILE, or on standard input.
fn digits_of(file: Option<&OsStr>) -> Result<Vec<u8>, Stop> {
    let digits = file_or_input(file)?;
    from_hex(&String::from_utf8_lossy(&digits)).map_err(|what| format!("{}: {what}", name(file)).into())
}

/// The list that these bytes say.
pub fn list_of(bytes: &[u8], options: &Options) -> Result<EventList, Stop> {
    EventList::from_bytes(bytes).map_err(|refusal| list_refused(refusal, bytes, options))
}

/// Whether play would take the list at all: neither too many events nor another number of members.
pub fn judge(list: &EventList, options: &Options) -> Result<(), Stop> {
    list_of(&list.to_bytes(), options)?;
    if !size_allowed(list.n) {
        return Err(Refusal::OfficeSize.into());
    }
    Ok(())
}

/// A list with these bytes is refused: with 26, where it goes wrong, and with a hint where it is text.
pub fn list_refused(refusal: Refusal, bytes: &[u8], options: &Options) -> Stop {
    let mut stop = Stop::refused("list", refusal, misshape(bytes).filter(|_| refusal == Refusal::ListShape));
    if let Some(hint) = text_hint(bytes, options) {
        stop.words += &format!("; {hint}");
    }
    stop
}

/// The bytes of a message in hexadecimal digits, or of standard input where they are `-`.
pub fn message_bytes(options: &Options) -> Result<Vec<u8>, Stop> {
    let digits = options.file.as_deref().ok_or("message needs hexadecimal digits, or - to read them")?;
    if digits == "-" {
        return digits_of(None);
    }
    from_hex(&digits.to_string_lossy()).map_err(Stop::from)
}

/// What FILE is called in a mistake.
fn name(file: Option<&OsStr>) -> String {
    match file {
        None => "standard input".into(),
        Some(file) if file == "-" => "standard input".into(),
        Some(file) => Path::new(file).display().to_string(),
    }
}

/// The bytes of FILE, or of standard input.
fn file_or_input(file: Option<&OsStr>) -> Result<Vec<u8>, Stop> {
    let read = match file.filter(|file| *file != "-") {
        Some(file) => fs::read(file),
        None => {
            let mut bytes = Vec::new();
            io::stdin().read_to_end(&mut bytes).map(|_| bytes)
        }
    };
    read.map_err(|error| Stop::file(name(file), &error))
}

/// Bytes in hexadecimal digits. Blanks and colons may stand between bytes, and 0x before them.
fn from_hex(text: &str) -> Result<Vec<u8>, String> {
    let mut bytes = Vec::new();
    for group in text.split(|letter: char| letter.is_whitespace() || letter == ':').filter(|group| !group.is_empty()) {
        let digits = group.strip_prefix("0x").or(group.strip_prefix("0X")).unwrap_or(group);
        if let Some(other) = digits.chars().find(|digit| !digit.is_ascii_hexdigit()) {
            return Err(format!("{other:?} is no hexadecimal digit"));
        }
        if digits.is_empty() || digits.len() % 2 == 1 {
            return Err(format!("{group} has an odd number of hexadecimal digits, and a byte has two"));
        }
        let byte = |at: usize| u8::from_str_radix(&digits[at..at + 2], 16).map_err(|error| error.to_string());
        for at in (0..digits.len()).step_by(2) {
            bytes.push(byte(at)?);
        }
    }
    Ok(bytes)
}
