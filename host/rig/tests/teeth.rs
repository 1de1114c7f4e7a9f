//! The comparison has teeth: copies of the second implementation, each with one fault, are told apart from it, and the
//! report has a short list. A fault is an edit of the source; the copies are compiled beside the crates and compared
//! with the reference by the parts of the comparison.

use std::fs;
use std::path::{Path, PathBuf};
use std::process::{Child, Command, Stdio};

/// A fault: its name, the file, the text there and what stands in its place.
struct Fault(&'static str, &'static str, &'static str, &'static str);

const FAULTS: &[Fault] = &[
    Fault("nothing is changed", "member.rs", "", ""),
    Fault("presence is taken as 0", "member.rs", "if self.v > Round(0) { Some", "if self.v > Round::HIGHEST { Some"),
    Fault("a JOIN is counted twice", "member.rs", "*flag = true;", "*flag = phase == PROPOSED;"),
    // A JOIN tells no vote of its own round, so this one tells none.
    Fault(
        "START is accepted when V = r",
        "member.rs",
        "|| (self.j == round && self.v == round) {
            return Err(Refusal::MovedPast);
        }",
        "{
            return Err(Refusal::MovedPast);
        }
        if self.v == round {
            return Ok(self.sends(Message::join(round, self.number, None)));
        }",
    ),
    Fault("START is accepted when J > r", "member.rs", "if self.j > round || (", "if ("),
    Fault(
        "a repeated START is refused",
        "member.rs",
        "if self.j > round || (self.j == round && self.v == round) {",
        "if self.j >= round {",
    ),
    Fault(
        "a repeated START changes the record",
        "member.rs",
        "self.j = round;
        Ok(self.sends(Message::join(",
        "if self.j == round {
            (self.v, self.w) = (Round(0), 0);
        }
        self.j = round;
        Ok(self.sends(Message::join(",
    ),
    Fault(
        "a repeated START sends a JOIN without its vote",
        "member.rs",
        "if self.v > Round(0) { Some",
        "if self.v > Round(0) && self.j < round { Some",
    ),
    Fault(
        "a repeated START sends nothing",
        "member.rs",
        "self.j = round;
        Ok(self.sends(Message::join(",
        "if self.j == round {
            return Ok(Step::default());
        }
        self.j = round;
        Ok(self.sends(Message::join(",
    ),
    Fault(
        "GHOST over COMMITTED",
        "tree.rs",
        "ancestor = node[PARENT];",
        "ancestor = node[PARENT]; if node[ROUND] > 0 && node[STATUS] == COMMITTED { node[STATUS] = GHOST; }",
    ),
    Fault("the first JOIN's value is taken", "member.rs", "if vote.round > self.b {", "if self.b == Round(0) {"),
    Fault("the last JOIN's value is taken", "member.rs", "if vote.round > self.b {", "if vote.round != self.b {"),
    Fault("flags are kept when proposing", "member.rs", "PROPOSED;\n        self.flags = [false; 7];", "PROPOSED;"),
    Fault("PROPOSE is refused when J = r", "member.rs", "if self.j > round {", "if self.j >= round {"),
    Fault("a vote leaves J", "member.rs", "self.j = round;\n        self.v = round;", "self.v = round;"),
    Fault(
        "9 before 30",
        "play.rs",
        "return Err(Refusal::StoreFull);",
        "let of_slot = &self.slots[record.slot.0 as usize];
         let full = of_slot.nodes * 4 == of_slot.table.len();
         return Err(if full && step.proposal.is_some() { Refusal::NoFreeRow } else { Refusal::StoreFull });",
    ),
    Fault("the table isn't cleared", "tree.rs", "    table.fill(0);\n", ""),
    Fault("the store isn't cleared", "play.rs", "    store.fill(0);\n", ""),
    Fault(
        "only the highest COMMITTED is asked",
        "tree.rs",
        "if used(table, nodes).any(|node| node[STATUS] == COMMITTED &&",
        "let highest = used(table, nodes).filter(|node| node[STATUS] == COMMITTED).max_by_key(|node| node[ROUND]);
         if highest.is_some_and(|node|",
    ),
    Fault(
        "the first crossed round is spared",
        "tree.rs",
        "node[ROUND] < r {",
        "node[ROUND] < r && node[ROUND] > p + 1 {",
    ),
    Fault(
        "a JOIN under 20 bytes is read as one that never voted",
        "message.rs",
        "if bytes.len() < 20 {",
        "if bytes.len() == 16 {
        return Ok(Message::join(round(bytes), sender(bytes), None));
    }
    if bytes.len() < 20 {",
    ),
    Fault(
        "presence after the rest of the length",
        "message.rs",
        "_ => return Err(Refusal::MessageField),",
        "_ => return Err(if bytes.len() == 32 { Refusal::MessageField } else { Refusal::MessageLength }),",
    ),
    Fault("a voted round may be the JOIN's", "message.rs", "vote.round < *round", "vote.round <= *round"),
    Fault(
        "a free row may hold a word",
        "tree.rs",
        "replay == table\n",
        "replay[..table.len() - 1] == table[..table.len() - 1]\n",
    ),
    Fault("the quorum is 3 of 3", "member.rs", "3 => 2,", "3 => 3,"),
    Fault("the quorum is 2 of 5", "member.rs", "5 => 3,", "5 => 2,"),
    Fault("the quorum is 3 of 7", "member.rs", "7 => 4,", "7 => 3,"),
    Fault("a VOTE of no member is counted", "member.rs", "if sender.0 >= self.n {", "if sender.0 >= 7 {"),
    Fault("B may be the round led", "member.rs", "self.b < self.l && flags_fit", "self.b <= self.l && flags_fit"),
    Fault(
        "a flag of no member is left out",
        "member.rs",
        "(fields.flags < 1 << 7).then",
        "(fields.flags < 1 << 8).then",
    ),
    Fault(
        "16 before 18",
        "message.rs",
        "if buffer.len() < Message::LONGEST {",
        "if check_fields(message).is_ok() && buffer.len() < Message::LONGEST {",
    ),
    Fault("a path that just fits is refused", "tree.rs", "if out.len() < count {", "if out.len() <= count {"),
    Fault("a long path is refused", "tree.rs", "if out.len() < count {", "if out.len() < count || count > 12 {"),
    Fault(
        "check 7 is kept in a command tree's add",
        "tree.rs",
        "machine_add(kind, table, round.0",
        "machine_add(TreeKind::Value, table, round.0",
    ),
    Fault(
        "check 7 is dropped in a value tree's add",
        "tree.rs",
        "machine_add(kind, table, round.0",
        "machine_add(TreeKind::Command, table, round.0",
    ),
    Fault(
        "a value tree's call takes a tree that only command calls leave",
        "tree.rs",
        "if is_tree(kind, table) {",
        "if is_tree(TreeKind::Command, table) {",
    ),
    Fault(
        "a command tree's call refuses a tree that only command calls leave",
        "tree.rs",
        "if is_tree(kind, table) {",
        "if is_tree(TreeKind::Value, table) {",
    ),
    Fault(
        "a new node that is GHOST from the first is counted",
        "tree.rs",
        "before[STATUS] == ADDED && after",
        "matches!(before[STATUS], FREE | ADDED) && after",
    ),
    Fault(
        "a round that is GHOST already is counted",
        "tree.rs",
        "before[STATUS] == ADDED && after",
        "matches!(before[STATUS], ADDED | GHOST) && after",
    ),
    Fault("all GHOST rounds are counted", "tree.rs", "before[STATUS] == ADDED && after", "after"),
    Fault(
        "31 after 2",
        "tree.rs",
        "if second.len() != table.len() {",
        "check_table(kind, table)?;
    if second.len() != table.len() {",
    ),
    Fault(
        "31 before 1",
        "tree.rs",
        "check_length(table)?;
    if second.len() != table.len() {
        return Err(Refusal::LengthsDiffer);
    }",
        "if second.len() != table.len() {
        return Err(Refusal::LengthsDiffer);
    }
    check_length(table)?;",
    ),
    Fault(
        "the second's length is tested for 1",
        "tree.rs",
        "if second.len() != table.len() {",
        "check_length(second)?;
    if second.len() != table.len() {",
    ),
    Fault(
        "a refused preview copies",
        "tree.rs",
        "let ghosts = add(kind, copy,",
        "second.copy_from_slice(copy);
    let ghosts = add(kind, copy,",
    ),
    Fault(
        "the second table has to be a tree",
        "tree.rs",
        "let mut memory = copy_of(table);",
        "check_table(kind, second)?;
    let mut memory = copy_of(table);",
    ),
    Fault(
        "free rows of the second table are left",
        "tree.rs",
        "second.copy_from_slice(copy);",
        "let used = count(copy) * TABLE_ROW;
    second[..used].copy_from_slice(&copy[..used]);",
    ),
    Fault(
        "check 7 is kept in a command tree's preview",
        "tree.rs",
        "let ghosts = add(kind, copy, round, value, parent)?;",
        "check_table(kind, copy)?;
    check_round(round)?;
    let ghosts = machine_add(TreeKind::Value, copy, round.0.into(), value, parent.0.into())?;",
    ),
    Fault(
        "check 7 is dropped in a value tree's preview",
        "tree.rs",
        "let ghosts = add(kind, copy, round, value, parent)?;",
        "check_table(kind, copy)?;
    check_round(round)?;
    let ghosts = machine_add(TreeKind::Command, copy, round.0.into(), value, parent.0.into())?;",
    ),
    Fault("a preview counts none", "tree.rs", "Ok(ghosts)", "Ok(0)"),
    // The first add of a play has one node before it.
    Fault(
        "play's sum lacks its last add",
        "play.rs",
        "self.played.ghosts += (self.steps.add)(of_slot.table, of_slot.nodes, proposal)?;",
        "static LAST: std::sync::atomic::AtomicU32 = std::sync::atomic::AtomicU32::new(0);
            let made = (self.steps.add)(of_slot.table, of_slot.nodes, proposal)?;
            let last = LAST.swap(made, std::sync::atomic::Ordering::Relaxed);
            self.played.ghosts += if self.played.proposals > 0 { last } else { 0 };",
    ),
    Fault("slot 8 is read", "message.rs", "read_if(bytes, Slot::in_range)", "read_if(bytes, |slot| slot.0 <= 8)"),
    Fault("slot 7 isn't read", "message.rs", "read_if(bytes, Slot::in_range)", "read_if(bytes, |slot| slot.0 < 7)"),
    Fault("slot 8 is written", "message.rs", "if !message.slot().in_range() {", "if message.slot().0 > 8 {"),
    Fault(
        "the last byte of a message's slot alone is read",
        "message.rs",
        "let slot = Slot(word(bytes, 0));",
        "let slot = Slot(word(bytes, 0) & 0xff);",
    ),
    Fault(
        "16 before 32 by the writer",
        "message.rs",
        "if !message.slot().in_range() {",
        "if buffer.len() >= Message::LONGEST {
        check_fields(message)?;
    }
    if !message.slot().in_range() {",
    ),
    Fault(
        "18 before 32 by the writer",
        "message.rs",
        "if !message.slot().in_range() {",
        "if buffer.len() < Message::LONGEST {
        return Err(Refusal::ReplyTooShort);
    }
    if !message.slot().in_range() {",
    ),
    Fault(
        "32 after the kind",
        "message.rs",
        "if !may_take(slot) {",
        "if !may_take(slot) && (1..=4).contains(&word(bytes, 4)) {",
    ),
    Fault(
        "a message under 8 bytes gets 32",
        "message.rs",
        "if bytes.len() < 8 {",
        "if bytes.len() >= 4 && bytes.len() < 8 && !may_take(Slot(word(bytes, 0))) {
        return Err(Refusal::WrongSlot);
    }
    if bytes.len() < 8 {",
    ),
    Fault(
        "a message of another slot is counted",
        "member.rs",
        "message::read_of(record.slot, bytes)?;",
        "message::read(bytes)?.in_slot(record.slot);",
    ),
    Fault("a member answers in slot 0", "member.rs", "Some(message.in_slot(self.slot))", "Some(message)"),
    Fault("a reply of 28 bytes is enough", "member.rs", "if reply.len() < Message::LONGEST {", "if reply.len() < 28 {"),
    Fault("a record of slot 8 is sound", "member.rs", "self.slot.in_range()\n", "self.slot.0 <= 8\n"),
    Fault("a fresh record of slot 8", "member.rs", "if !slot.in_range() ||", "if slot.0 > 8 ||"),
    Fault(
        "a fresh record is of slot 0",
        "member.rs",
        "        slot,\n        number,",
        "        slot: Slot(0),\n        number,",
    ),
    Fault(
        "an event of slot 8 is one of slot 0",
        "play.rs",
        "let slot = Slot(word(event, 4));",
        "let slot = Slot(word(event, 4) % 8);",
    ),
    Fault(
        "the last byte of an event's slot alone is read",
        "play.rs",
        "let slot = Slot(word(event, 4));",
        "let slot = Slot(word(event, 4) & 0xff);",
    ),
    Fault(
        "29 before 32",
        "play.rs",
        "let of_slot = self.slots.get(slot.0 as usize).ok_or(Refusal::WrongSlot)?;",
        "if number >= self.n {
            return Err(Refusal::NoMemberOrMessage);
        }
        let of_slot = self.slots.get(slot.0 as usize).ok_or(Refusal::WrongSlot)?;",
    ),
    Fault(
        "a message of another slot is none",
        "play.rs",
        "let (sent, step) = member::deliver(&mut record, &mut reply, message)?;",
        "if word(message, 0) != slot.0 {
                    return Err(Refusal::NoMemberOrMessage);
                }
                let (sent, step) = member::deliver(&mut record, &mut reply, message)?;",
    ),
    Fault(
        "a message of another slot before 29",
        "play.rs",
        "let mut record = self.member(slot, word(event, 12))?;
                let message = self.message(word(event, 8))?;",
        "let message = self.message(word(event, 8)).and_then(|bytes| super::message::read_of(slot, bytes));
                if message == Err(Refusal::WrongSlot) {
                    return Err(Refusal::WrongSlot);
                }
                let mut record = self.member(slot, word(event, 12))?;
                let message = self.message(word(event, 8))?;",
    ),
    Fault(
        "a proposal is entered in slot 0's table",
        "play.rs",
        "let of_slot = &mut self.slots[record.slot.0 as usize];
        if let Some(proposal) = step.proposal {
            self.played.ghosts += (self.steps.add)(of_slot.table, of_slot.nodes, proposal)?;
            self.played.proposals += 1;
            of_slot.nodes += 1;
        }",
        "if let Some(proposal) = step.proposal {
            let other = &mut self.slots[0];
            self.played.ghosts += (self.steps.add)(other.table, other.nodes, proposal)?;
            self.played.proposals += 1;
            other.nodes += 1;
        }
        let of_slot = &mut self.slots[record.slot.0 as usize];",
    ),
    Fault(
        "a decision is entered in slot 0's table",
        "play.rs",
        "(self.steps.commit)(of_slot.table, decision.round.0.into())?;
            self.played.decisions += 1;
        }
        of_slot.members",
        "let other = &mut self.slots[0];
            (self.steps.commit)(other.table, decision.round.0.into())?;
            self.played.decisions += 1;
        }
        self.slots[record.slot.0 as usize].members",
    ),
    Fault(
        "one slot's full table refuses another's proposal",
        "play.rs",
        "if let Some(proposal) = step.proposal {",
        "if let Some(proposal) = step.proposal {
            if (self.played.proposals as usize + 1) * 4 >= of_slot.table.len() {
                return Err(Refusal::NoFreeRow);
            }",
    ),
    Fault(
        "all tables are as long as the first",
        "play.rs",
        "split_at_mut_checked(*length)",
        "split_at_mut_checked(lengths[0])",
    ),
    Fault("the tables stand from the last slot on", "play.rs", "tables.next().expect(", "tables.next_back().expect("),
    Fault(
        "a row of the store has 28 bytes",
        "play.rs",
        "SLOTS, STORE_ROW, STORE_ROWS};",
        "SLOTS, STORE_ROWS};
const STORE_ROW: usize = 28;",
    ),
    Fault("words left over are taken", "play.rs", "if words.is_empty() {", "if words.len() < 4 {"),
    Fault(
        "a table is made fresh before the next is checked",
        "play.rs",
        "tables.iter().try_for_each(|table| tree::check_length(table))?;\n",
        "",
    ),
    Fault(
        "the last table isn't made fresh",
        "play.rs",
        "tables.iter_mut().try_for_each(",
        "tables[..SLOTS - 1].iter_mut().try_for_each(",
    ),
];

/// Compares the faulty copy with the number given to the program with the reference, and prints the first report.
const MAIN: &str = r#"
fn main() {
    use kalebasin_rig::suite;
    let number: usize = std::env::args().nth(1).unwrap().parse().unwrap();
    let calls = kalebasin_rig::Calls { name: "the faulty copy", ..FAULTY[number] };
    let pair = [&calls, &kalebasin_rig::second::CALLS];
    let compared = suite::random_lists(pair, 1, 5_000, &mut |_| ())
        .and_then(|_| suite::random_members(pair, 1, 2_000))
        .and_then(|_| suite::written_messages(pair))
        .and_then(|_| suite::random_trees(pair, 1, 2_000))
        .and_then(|_| suite::messages(pair))
        .and_then(|_| suite::small_tables(pair));
    if let Err(report) = compared {
        println!("{report}");
    }
}
"#;

fn rustc(folder: &Path, args: &[&str]) {
    let rustc = std::env::var("RUSTC").unwrap_or("rustc".into());
    let mut command = Command::new(rustc);
    let output =
        command.current_dir(folder).args(["--edition=2021", "-Cdebuginfo=0", "-L."]).args(args).output().unwrap();
    assert!(output.status.success(), "{args:?}\n{}", String::from_utf8_lossy(&output.stderr));
}

const LIBRARY: &str = "--extern=kalebasin=libkalebasin.rlib";
const RIG: &str = "--extern=kalebasin_rig=libkalebasin_rig.rlib";

/// A crate without the core.
fn crate_of(folder: &Path, root: &Path, args: &[&str]) {
    let features = "--check-cfg=cfg(feature, values(\"core\"))";
    let without = ["--crate-type=rlib", "-Copt-level=2", features, root.to_str().unwrap()];
    rustc(folder, &[&without, args].concat());
}

/// Copies the second implementation with a fault into a folder.
fn faulty_copy(fault: &Fault, source: &Path, folder: &Path) {
    let Fault(name, file_to_edit, old, new) = fault;
    fs::create_dir_all(folder).unwrap();
    for entry in fs::read_dir(source.join("second")).unwrap() {
        let entry = entry.unwrap();
        let mut text = fs::read_to_string(entry.path()).unwrap();
        if entry.file_name() == *file_to_edit && !old.is_empty() {
            assert_eq!(text.matches(old).count(), 1, "{name}: the text to edit stands once in {file_to_edit}");
            text = text.replace(old, new);
        }
        fs::write(folder.join(entry.file_name()), text).unwrap();
    }
}

/// A program with all faulty copies, each a module. They take `Calls` from the crate's front, as the original does.
fn build(source: &Path, folder: &Path) -> PathBuf {
    fs::create_dir_all(folder).unwrap();
    let mut main = String::from("#![allow(dead_code, unused)]\npub use kalebasin_rig::Calls;\n");
    let mut faulty = String::new();
    for (at, fault) in FAULTS.iter().enumerate() {
        faulty_copy(fault, source, &folder.join(format!("fault_{at}")));
        main += &format!("mod fault_{at};\n");
        faulty += &format!("fault_{at}::CALLS, ");
    }
    main += &format!("const FAULTY: [kalebasin_rig::Calls; {}] = [{faulty}];\n{MAIN}", FAULTS.len());
    fs::write(folder.join("main.rs"), main).unwrap();
    crate_of(folder, &source.join("../../kalebasin/src/lib.rs"), &["--crate-name=kalebasin"]);
    crate_of(folder, &source.join("lib.rs"), &["--crate-name=kalebasin_rig", LIBRARY]);
    rustc(folder, &["-Copt-level=0", LIBRARY, RIG, "-o", "compare", "main.rs"]);
    folder.join("compare")
}

/// Starts the comparison of a fault.
fn start(program: &Path, number: usize) -> Child {
    let mut command = Command::new(program);
    command.arg(number.to_string()).stdout(Stdio::piped()).stderr(Stdio::piped()).spawn().unwrap()
}

/// What the comparison reports of a fault.
fn report(name: &str, started: Child) -> String {
    let output = started.wait_with_output().unwrap();
    assert!(output.status.success(), "{name}\n{}", String::from_utf8_lossy(&output.stderr));
    String::from_utf8(output.stdout).unwrap()
}

#[test]
fn each_fault_is_found() {
    let source = PathBuf::from(env!("CARGO_MANIFEST_DIR")).join("src");
    let program = build(&source, &PathBuf::from(env!("CARGO_TARGET_TMPDIR")).join("teeth"));
    let started: Vec<Child> = (0..FAULTS.len()).map(|number| start(&program, number)).collect();
    for (started, Fault(name, _, old, _)) in started.into_iter().zip(FAULTS) {
        let report = report(name, started);
        println!("{name}:\n{report}");
        assert_eq!(report.is_empty(), old.is_empty(), "{name}: {report}");
    }
}
