//! The command line: which commands there are, which options each takes, and what a given line asks for.

use crate::stop::Stop;
use kalebasin::{EventList, Slot, TreeKind, SLOTS, STORE_ROWS, TABLE_ROWS};
use std::ffi::OsString;
use std::fmt::Write;
use std::str::FromStr;

/// A command.
#[derive(Debug, PartialEq, Eq)]
pub struct Command {
    pub name: &'static str,
    /// What stands behind the options, if anything.
    operand: Option<&'static str>,
    about: &'static str,
    /// What its own help says beside the options.
    more: &'static str,
}

const NOTATION: &str = "\
A list is written  s(1,1,70) d(0,0)  : s(member,round,offer) starts a round, and d(message,member) delivers a message
sent earlier, counted from 0. The office has 3 members; n=5 or n=7 in front gives it more. An event is of slot 0;
3:d(0,0) is of slot 3, and slots run from 0 to 7. # starts a comment.
";
const TREE_NOTATION: &str = "\
Tree calls are written  add(1,70,0) commit(1)  : add(round,value,parent), preview(round,value,parent), commit(round),
path(round) and fresh. The tree is one of values; kind=command in front makes it one of commands, in which a node has any
value. # starts a comment.
";
const FILE_OR_INPUT: &str = "Without FILE, or where it is -, standard input is read.\n";

/// The option that may stand any number of times.
const OFTEN: &str = "--property";

const COMMANDS: &[Command] = &[
    Command {
        name: "run",
        operand: Some("[FILE]"),
        about: "runs a list, explains it event by event and draws the tree",
        more: "Without FILE, or where it is -, standard input is read. Standard output has the run itself, so --dot, --svg and --html\n\
               don't take -.\n",
    },
    Command {
        name: "draw",
        operand: Some("[FILE]"),
        about: "runs a list and draws the tree alone, or the run as a timeline",
        more: FILE_OR_INPUT,
    },
    Command {
        name: "encode",
        operand: Some("[FILE]"),
        about: "turns notation into the bytes of a list",
        more: "The bytes of a list that play refuses are written too.\nWithout FILE, or where it is -, standard input is read.\n",
    },
    Command {
        name: "decode",
        operand: Some("[FILE]"),
        about: "turns the bytes of a list into notation",
        more: "A list for a number of members that play refuses is shown too.\nWithout FILE, or where it is -, standard input is read.\n",
    },
    Command {
        name: "rehearse",
        operand: Some("[FILE]"),
        about: "runs the bytes of a list and prints what the rehearsal program prints",
        more: FILE_OR_INPUT,
    },
    Command {
        name: "message",
        operand: Some("DIGITS"),
        about: "explains one message, given in hexadecimal digits",
        more: "Blanks and colons may stand between bytes, and 0x before them. Where DIGITS is -, standard input is read.\n",
    },
    Command {
        name: "tree",
        operand: Some("[FILE]"),
        about: "makes tree calls on a fresh table, explains them one by one and draws the tree",
        more: "A preview shows what an add would do, and does nothing: where it is accepted, the trees before and after are drawn\n\
               side by side, in the files of --dot and --svg too where it is the last call.\n\
               Without FILE, or where it is -, standard input is read. Standard output has the calls themselves, so --dot and --svg\n\
               don't take -. A path is lent a word for each row of the table.\n",
    },
    Command {
        name: "search",
        operand: Some("[FILE]"),
        about: "tries lists for a property that fails, and explains the shortest found",
        more: "It tries random lists; with FILE or -e random orders of that list; with --all all lists up to a length. It works on\n\
               all cores, and finds the same however many there are.\n",
    },
    Command {
        name: "compare",
        operand: None,
        about: "compares the proved core with the second implementation, call by call",
        more: "",
    },
    Command { name: "causes", operand: None, about: "prints the numbers of refusals and their causes", more: "" },
];

/// An option.
struct Choice {
    name: &'static str,
    /// What its value is called; none for an option without one.
    value: Option<&'static str>,
    /// Which commands take it, and what it does there.
    uses: &'static [(&'static [&'static str], &'static str)],
    /// Takes its value, which is empty for an option without one.
    set: fn(&mut Options, OsString) -> Result<(), Stop>,
}

const CHOICES: &[Choice] = &[
    Choice {
        name: "-e",
        value: Some("TEXT"),
        uses: &[
            (&["run", "draw", "encode", "search"], "the list's notation, instead of FILE"),
            (&["tree"], "the calls' notation, instead of FILE"),
        ],
        set: |options, value| text("-e", value).map(|text| options.text = Some(text)),
    },
    Choice {
        name: "--members",
        value: Some("N"),
        uses: &[
            (&["run", "draw", "encode"], "the number of members where the notation has no n= (3)"),
            (&["search"], "the number of members where the notation has no n= (3); only random lists for N members"),
        ],
        set: |options, value| number("--members", value, 0, u32::MAX).map(|n| options.members = Some(n)),
    },
    Choice {
        name: "--kind",
        value: Some("K"),
        uses: &[(&["tree"], "the kind of tree where the notation has no kind=: value or command (value)")],
        set: |options, value| kind("--kind", value).map(|kind| options.kind = Some(kind)),
    },
    Choice {
        name: "--bytes",
        value: None,
        uses: &[(&["run", "draw", "search"], "FILE holds the bytes of a list, not notation")],
        set: |options, _| {
            options.bytes = true;
            Ok(())
        },
    },
    Choice {
        name: "--hex",
        value: None,
        uses: &[
            (&["run", "draw", "search"], "FILE holds the bytes of a list in hexadecimal digits"),
            (&["decode", "rehearse"], "the bytes are written in hexadecimal digits"),
            (&["encode"], "writes the bytes in hexadecimal digits"),
        ],
        set: |options, _| {
            options.hex = true;
            Ok(())
        },
    },
    Choice {
        name: "--slot",
        value: Some("K"),
        uses: &[
            (&["run"], "shows the events, lifelines and tree of slot K alone, 0 to 7; all slots are played"),
            (&["draw"], "draws the tree, or the lifelines, of slot K alone, 0 to 7; all slots are played"),
        ],
        set: |options, value| number("--slot", value, 0, SLOTS as u32 - 1).map(|slot| options.slot = Some(Slot(slot))),
    },
    Choice {
        name: "--store-rows",
        value: Some("R"),
        uses: &[
            (&["run", "draw"], "rows of the store, 1 to 2000 (1000)"),
            (&["search"], "with a list or --all: rows of the store, 1 to 2000 (one for each event)"),
        ],
        set: |options, value| number("--store-rows", value, 1, STORE_ROWS).map(|rows| options.store_rows = Some(rows)),
    },
    Choice {
        name: "--table-rows",
        value: Some("R"),
        uses: &[
            (&["run", "draw"], "rows of each slot's table, 1 to 256 (64)"),
            (&["tree"], "rows of the table, 1 to 256 (64)"),
            (&["search"], "with a list or --all: rows of each slot's table, 1 to 256 (64)"),
        ],
        set: |options, value| number("--table-rows", value, 1, TABLE_ROWS).map(|rows| options.table_rows = Some(rows)),
    },
    Choice {
        name: "--format",
        value: Some("F"),
        uses: &[(&["draw"], "text, dot or svg for the tree (text); timeline for the run, as SVG")],
        set: |options, value| text("--format", value).map(|format| options.format = format),
    },
    Choice {
        name: "--dot",
        value: Some("FILE"),
        uses: &[(&["run", "tree"], "writes the tree to FILE in the DOT language")],
        set: |options, value| file("--dot", value).map(|file| options.dot = Some(file)),
    },
    Choice {
        name: "--svg",
        value: Some("FILE"),
        uses: &[(&["run", "tree"], "writes the tree to FILE as a picture")],
        set: |options, value| file("--svg", value).map(|file| options.svg = Some(file)),
    },
    Choice {
        name: "--html",
        value: Some("FILE"),
        uses: &[(&["run"], "writes the run to FILE as a page: the timeline, and records and tree after each event")],
        set: |options, value| file("--html", value).map(|file| options.html = Some(file)),
    },
    Choice {
        name: "--json",
        value: None,
        uses: &[(&["run"], "prints a JSON object for each event, one on each line, instead of words")],
        set: |options, _| {
            options.json = true;
            Ok(())
        },
    },
    Choice {
        name: "--seed",
        value: Some("S"),
        uses: &[(&["search", "compare"], "another seed gives other random lists (1)")],
        set: |options, value| number("--seed", value, 0, u64::MAX).map(|seed| options.seed = seed),
    },
    Choice {
        name: "--lists",
        value: Some("L"),
        uses: &[(&["search", "compare"], "how many random lists to try (100000)")],
        set: |options, value| number("--lists", value, 0, u64::MAX).map(|lists| options.lists = lists),
    },
    Choice {
        name: "--all",
        value: Some("LENGTH"),
        uses: &[(
            &["search"],
            "instead of random lists all of up to LENGTH events, made of the events of FILE or -e, or else of few:\n\
             rounds 1 and 2 started by their leaders, messages 0 to 3 delivered to each member",
        )],
        set: |options, value| number("--all", value, 0, EventList::MOST).map(|longest| options.all = Some(longest)),
    },
    Choice {
        name: "--property",
        value: Some("NAME"),
        uses: &[(&["search"], "a property to try, any number of times; --property list shows them all")],
        set: |options, value| text("--property", value).map(|name| options.properties.push(name)),
    },
    Choice {
        name: "--random",
        value: None,
        uses: &[(&["compare"], "only the random trees, members and lists, for another seed or more of them")],
        set: |options, _| {
            options.random = true;
            Ok(())
        },
    },
    Choice {
        name: "--second",
        value: None,
        uses: &[(
            &["run", "draw", "rehearse", "message", "tree", "search"],
            "works on the second implementation instead of the proved core",
        )],
        set: |options, _| {
            options.second = true;
            Ok(())
        },
    },
];

impl Choice {
    /// What it does for a command; none if the command doesn't take it.
    fn about(&self, command: &Command) -> Option<&'static str> {
        self.uses.iter().find(|(commands, _)| commands.contains(&command.name)).map(|(_, about)| *about)
    }
}

/// The tool's help.
pub fn help() -> String {
    let mut text = format!(
        "kalebasin: tools for the rig\n\nusage: kalebasin COMMAND [OPTIONS] [FILE]\n\n{NOTATION}\n{TREE_NOTATION}\nCommands\n"
    );
    for command in COMMANDS {
        let _ = writeln!(text, "  {:<9} {}", command.name, command.about);
    }
    text += "
  kalebasin COMMAND --help shows what a command takes; --name=value is --name value; behind -- all is FILE;
  --version prints the tool's version.

Exit status: 0 done; 1 the list or message is refused, a property fails, an answer isn't that of the model, or a tree call
doesn't do what the second implementation's does; 2 a mistake in the notation or the command, or something that can't be read
or written. Refusals and mistakes are told on standard error.

Try
  kalebasin run -e 's(1,1,70) d(0,0) d(0,1) d(1,1) d(2,1) d(3,0) d(3,1) d(4,1) d(5,1)'
  kalebasin search --property no-late-decision
  kalebasin tree --kind command -e 'add(1,70,0) add(2,80,1) commit(2) path(2)'
  kalebasin tree -e 'add(1,70,0) add(2,70,1) preview(4,80,0)'
";
    text
}

impl Command {
    /// Its own help.
    pub fn help(&self) -> String {
        let operand = self.operand.map_or(String::new(), |operand| format!(" {operand}"));
        let mut text = format!("usage: kalebasin {} [OPTIONS]{operand}\n\n{}\n{}", self.name, self.about, self.more);
        text += self.notation();
        text += "\nOptions\n";
        for (choice, about) in self.choices() {
            let name = choice.value.map_or(choice.name.into(), |value| format!("{} {value}", choice.name));
            let _ = writeln!(text, "  {name:<17} {}", about.replace('\n', "\n                    "));
        }
        text + "  --help            prints this\n"
    }

    /// The notation that it takes, in words.
    fn notation(&self) -> &'static str {
        match self.takes("-e") {
            true if self.takes("--kind") => TREE_NOTATION,
            true => NOTATION,
            false => "",
        }
    }

    /// The options that it takes, each with what it does.
    fn choices(&self) -> impl Iterator<Item = (&'static Choice, &'static str)> + '_ {
        CHOICES.iter().filter_map(|choice| choice.about(self).map(|about| (choice, about)))
    }

    pub fn takes(&self, name: &str) -> bool {
        self.choices().any(|(choice, _)| choice.name == name)
    }
}

/// What the command line asks for.
pub enum Asked {
    /// The tool's help, or a command's own.
    Help(Option<&'static Command>),
    Version,
    Work(Box<Options>),
}

/// A command with its options.
pub struct Options {
    pub command: &'static Command,
    /// The names of the options that were given.
    given: Vec<&'static str>,
    pub file: Option<OsString>,
    pub text: Option<String>,
    pub members: Option<u32>,
    pub kind: Option<TreeKind>,
    pub bytes: bool,
    pub hex: bool,
    pub slot: Option<Slot>,
    pub store_rows: Option<usize>,
    pub table_rows: Option<usize>,
    pub format: String,
    pub dot: Option<OsString>,
    pub svg: Option<OsString>,
    pub html: Option<OsString>,
    pub json: bool,
    pub seed: u64,
    pub lists: u64,
    pub all: Option<usize>,
    pub properties: Vec<String>,
    pub random: bool,
    pub second: bool,
}

/// What the arguments are, before it is known which command they are for.
#[derive(Default)]
struct Given {
    options: Vec<(String, Option<OsString>)>,
    plain: Vec<OsString>,
}

impl Given {
    fn new(mut args: impl Iterator<Item = OsString>) -> Result<Given, Stop> {
        let mut given = Given::default();
        while let Some(arg) = args.next() {
            if !arg.as_encoded_bytes().starts_with(b"-") || arg == "-" {
                given.plain.push(arg);
            } else if arg == "--" {
                given.plain.extend(args.by_ref());
            } else {
                let option = text("an option", arg)?;
                let (name, value) = match option.split_once('=') {
                    Some((name, value)) if name.starts_with("--") => (name.to_string(), Some(value.into())),
                    _ => (option, None),
                };
                let value = given_value(&name, value, &mut args)?;
                given.options.push((name, value));
            }
        }
        Ok(given)
    }

    fn has(&self, names: &[&str]) -> bool {
        self.options.iter().any(|(name, _)| names.contains(&name.as_str()))
    }
}

/// The value of an option: what stands behind `=`, or the next argument where the option takes one.
fn given_value(
    name: &str,
    value: Option<OsString>,
    args: &mut impl Iterator<Item = OsString>,
) -> Result<Option<OsString>, Stop> {
    match (CHOICES.iter().find(|choice| choice.name == name), value) {
        (Some(Choice { value: Some(what), .. }), None) => match args.next() {
            Some(value) => Ok(Some(value)),
            None => Err(format!("{name} needs a value: {name} {what}").into()),
        },
        (Some(Choice { value: None, .. }), Some(_)) => Err(format!("{name} takes no value").into()),
        (_, value) => Ok(value),
    }
}

/// What the arguments ask for.
pub fn parse(args: impl Iterator<Item = OsString>) -> Result<Asked, Stop> {
    let given = Given::new(args)?;
    let mut plain = given.plain.iter().peekable();
    let help = plain.next_if(|first| *first == "help").is_some() || given.has(&["-h", "--help"]);
    if given.has(&["--version"]) {
        return Ok(Asked::Version);
    }
    let command = match plain.next().filter(|name| !name.is_empty()) {
        Some(name) => command(&name.to_string_lossy())?,
        None if help => return Ok(Asked::Help(None)),
        None => return Err("a command is missing; see kalebasin --help".into()),
    };
    if help {
        return Ok(Asked::Help(Some(command)));
    }
    let mut options = Options::new(command);
    for (name, value) in given.options {
        options.set(&name, value)?;
    }
    options.file = plain.next().cloned();
    if options.file.is_some() && command.operand.is_none() || plain.next().is_some() {
        let last = given.plain.last().map(|last| last.to_string_lossy()).unwrap_or_default();
        return Err(Stop::with_help(format!("{last} is one argument too many for {}", command.name), command));
    }
    options.fit_together()?;
    Ok(Asked::Work(Box::new(options)))
}

fn command(name: &str) -> Result<&'static Command, Stop> {
    COMMANDS.iter().find(|command| command.name == name).ok_or_else(|| {
        let meant = meant(name, COMMANDS.iter().map(|command| command.name));
        format!("there is no command {name}{meant}; see kalebasin --help").into()
    })
}

impl Options {
    fn new(command: &'static Command) -> Options {
        Options {
            command,
            given: Vec::new(),
            file: None,
            text: None,
            members: None,
            kind: None,
            bytes: false,
            hex: false,
            slot: None,
            store_rows: None,
            table_rows: None,
            format: "text".into(),
            dot: None,
            svg: None,
            html: None,
            json: false,
            seed: 1,
            lists: 100_000,
            all: None,
            properties: Vec::new(),
            random: false,
            second: false,
        }
    }

    fn set(&mut self, name: &str, value: Option<OsString>) -> Result<(), Stop> {
        match self.command.choices().find(|(choice, _)| choice.name == name) {
            Some((choice, _)) if choice.name != OFTEN && self.given.contains(&choice.name) => {
                Err(Stop::with_help(format!("{name} stands twice; {} takes it once", self.command.name), self.command))
            }
            Some((choice, _)) => {
                self.given.push(choice.name);
                (choice.set)(self, value.unwrap_or_default())
            }
            None => {
                // The name of another command's option isn't mistyped.
                let mistyped = CHOICES.iter().all(|choice| choice.name != name);
                let names = self.command.choices().map(|(choice, _)| choice.name).filter(|_| mistyped);
                let meant = meant(name, names);
                Err(Stop::with_help(format!("{} doesn't take {name}{meant}", self.command.name), self.command))
            }
        }
    }

    /// Options that leave one another without effect are a mistake.
    fn fit_together(&self) -> Result<(), Stop> {
        let given = |names: &[&str]| self.given.iter().any(|name| names.contains(name));
        let reads_bytes = self.command.takes("--bytes") && (self.bytes || self.hex);
        let searches = self.command.name == "search";
        let mistake = match self {
            Options { text: Some(_), file: Some(_), .. } => "-e stands instead of FILE; give one of them",
            Options { text: Some(_), .. } if reads_bytes => "-e is notation; --bytes and --hex are for FILE",
            Options { bytes: true, hex: true, .. } => "FILE holds bytes or digits; give --bytes or --hex",
            Options { members: Some(_), .. } if reads_bytes => "the bytes say how many members there are",
            Options { properties, .. } if properties.iter().any(|name| name == "list") && !self.asks_one_thing() => {
                "--property list shows the properties and tries nothing; give it alone"
            }
            Options { file: None, .. } if reads_bytes && searches => "--bytes and --hex are for FILE, which may be -",
            Options { all: Some(_), .. } if given(&["--lists", "--seed"]) => {
                "--all tries all lists; --lists and --seed are for random ones"
            }
            Options { all: None, text: None, file: None, .. }
                if searches && given(&["--store-rows", "--table-rows"]) =>
            {
                "random lists have memory of their own; --store-rows and --table-rows are for a list or --all"
            }
            _ => return Ok(()),
        };
        Err(Stop::with_help(mistake.into(), self.command))
    }

    /// Whether one option is all that stands behind the command.
    fn asks_one_thing(&self) -> bool {
        self.given.len() == 1 && self.file.is_none()
    }
}

/// A value that has to be text.
pub fn text(name: &str, value: OsString) -> Result<String, Stop> {
    value.into_string().map_err(|value| format!("{name} isn't UTF-8: {}", value.to_string_lossy()).into())
}

/// The kind of a tree.
fn kind(name: &str, value: OsString) -> Result<TreeKind, Stop> {
    let text = value.to_string_lossy();
    TreeKind::from_name(&text).ok_or_else(|| format!("{name} takes value or command, not {text}").into())
}

/// A file to write; - would be standard output, which is taken.
fn file(name: &str, value: OsString) -> Result<OsString, Stop> {
    if value == "-" {
        return Err(format!("{name} takes a file, not -: standard output is taken").into());
    }
    Ok(value)
}

/// A number in this range, of digits alone.
fn number<T>(name: &str, value: OsString, low: T, high: T) -> Result<T, Stop>
where
    T: FromStr + PartialOrd + std::fmt::Display,
{
    let text = value.to_string_lossy();
    let digits = text.bytes().all(|digit| digit.is_ascii_digit());
    match text.parse() {
        Ok(number) if digits && low <= number && number <= high => Ok(number),
        _ => Err(format!("{name} takes a number from {low} to {high}, not {text}").into()),
    }
}

/// ` (did you mean NAME?)` for the name that a mistyped one begins, or is nearest to if it is near; capitals are no difference.
pub fn meant<'a>(typed: &str, names: impl Iterator<Item = &'a str>) -> String {
    let typed = typed.to_lowercase();
    let begins = |name: &str| typed.len() > 2 && name.starts_with(&typed);
    let far = |name: &str| if begins(name) { 0 } else { distance(&typed, name) };
    let nearest = names.map(|name| (far(name), name)).min();
    let near = nearest.filter(|(far, name)| *far <= 2 && far + 1 < name.trim_start_matches('-').len());
    near.map_or(String::new(), |(_, name)| format!(" (did you mean {name}?)"))
}

/// How many letters are to be put in, left out, changed or exchanged with their neighbour to make one name the other.
fn distance(a: &str, b: &str) -> usize {
    let (a, b): (Vec<char>, Vec<char>) = (a.chars().collect(), b.chars().collect());
    let mut rows = vec![(0..=b.len()).collect::<Vec<_>>()];
    for i in 1..=a.len() {
        let mut row = vec![i];
        for j in 1..=b.len() {
            let changed = rows[i - 1][j - 1] + usize::from(a[i - 1] != b[j - 1]);
            let mut least = changed.min(rows[i - 1][j] + 1).min(row[j - 1] + 1);
            if i > 1 && j > 1 && a[i - 1] == b[j - 2] && a[i - 2] == b[j - 1] {
                least = least.min(rows[i - 2][j - 2] + 1);
            }
            row.push(least);
        }
        rows.push(row);
    }
    rows[a.len()][b.len()]
}
