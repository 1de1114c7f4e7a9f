//! The benchmark from the outside.

use std::ffi::OsStr;
use std::os::unix::ffi::OsStrExt;
use std::process::{Command, Stdio};

/// It says that nobody reads what it prints, before it measures anything.
#[test]
fn a_closed_pipe() {
    let mut reader = Command::new("true").stdin(Stdio::piped()).spawn().unwrap();
    let pipe = reader.stdin.take().unwrap();
    assert!(reader.wait().unwrap().success());
    let output = Command::new(env!("CARGO_BIN_EXE_benchmark")).stdout(pipe).output().unwrap();
    let told = String::from_utf8(output.stderr).unwrap();
    assert_eq!((output.status.code(), told.lines().count()), (Some(2), 1), "{told}");
    assert!(told.contains("standard output: Broken pipe"), "{told}");
}

/// Arguments that it doesn't know, not UTF-8 among them, get its usage.
#[test]
fn other_arguments() {
    for word in [&b"--rows"[..], b"\xff"] {
        let output = Command::new(env!("CARGO_BIN_EXE_benchmark")).arg(OsStr::from_bytes(word)).output().unwrap();
        let told = String::from_utf8(output.stderr).unwrap();
        assert_eq!((output.status.code(), output.stdout.len(), told.lines().count()), (Some(2), 0, 1), "{told}");
        assert!(told.starts_with("usage: "), "{told}");
    }
}
