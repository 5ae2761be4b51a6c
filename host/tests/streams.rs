//! What the programs do where their output cannot be written, `hall`, which has statuses, and
//! `hallroots`, whose status is 0; and where the stack is small.
#![cfg(target_os = "linux")]
mod run;

use run::{hallroots, made, said, scratch};
use std::fs::{File, OpenOptions};
use std::io::Read;
use std::os::unix::fs::OpenOptionsExt;
use std::path::PathBuf;
use std::process::{Child, Command, Output, Stdio};

/// A hall file whose listing has 84,910 bytes, more than a pipe holds.
fn long_file(name: &str) -> (PathBuf, usize) {
    let path = scratch(name);
    std::fs::write(&path, made(&"list 2^-30 2 -3 1\n".repeat(1700))).unwrap();
    let line = " PL ok 2 3FF0000000000000 1 c 4000000000000000 1 c\n".len();
    (path, 9 + 2 * 90 + 3 * 900 + 4 * 701 + 1700 * line + "T 1700 3400 3400\n".len())
}

fn hall_list(file: &PathBuf) -> Command {
    let mut command = Command::new(env!("CARGO_BIN_EXE_hall"));
    command.arg("list").arg(file);
    command
}

fn hallroots_of(file: &PathBuf) -> Option<Command> {
    let mut command = Command::new(hallroots()?);
    command.stdin(File::open(file).unwrap());
    Some(command)
}

fn spawned(mut command: Command, out: impl Into<Stdio>) -> Child {
    command.stdout(out).stderr(Stdio::piped()).spawn().unwrap()
}

/// A device that is full: the status says so.
#[test]
fn full() {
    let (path, _) = long_file("full.hall");
    let full = || OpenOptions::new().write(true).open("/dev/full").unwrap();
    let ended = |command| spawned(command, full()).wait_with_output().unwrap();
    for words in [&["list"][..], &["show"], &["text"], &["show", "--csv"]] {
        let mut command = Command::new(env!("CARGO_BIN_EXE_hall"));
        command.args(words).arg(&path);
        let out = ended(command);
        assert_eq!(out.status.code(), Some(1), "{words:?}");
        assert!(said(&out).starts_with("hall: standard output: No space"), "{words:?}");
    }
    let mut help = Command::new(env!("CARGO_BIN_EXE_hall"));
    help.arg("--help");
    assert_eq!(ended(help).status.code(), Some(1));
    if let Some(command) = hallroots_of(&path) {
        let out = ended(command);
        assert_eq!(out.status.code(), Some(0));
        assert!(said(&out).starts_with("writing the listing: No space"));
    }
}

/// Standard output that is closed: for `hall`, as for every program of Rust, it is /dev/null.
#[test]
fn closed() {
    let (path, _) = long_file("closed.hall");
    let by_shell = |program: &str, rest: &str| -> Output {
        let line = format!("exec \"$0\" {rest} < \"$1\" >&-");
        Command::new("sh").args(["-c", &line, program]).arg(&path).output().unwrap()
    };
    let out = by_shell(env!("CARGO_BIN_EXE_hall"), "list");
    assert_eq!((out.status.code(), &out.stderr[..]), (Some(0), &b""[..]));
    if let Some(program) = hallroots() {
        let out = by_shell(program.to_str().unwrap(), "");
        assert_eq!(out.status.code(), Some(0));
        assert!(said(&out).starts_with("writing the listing: Bad file descriptor"));
    }
}

/// A reader that goes away is no failure of `hall`; to `hallroots` it is a write that fails.
#[test]
fn reader_gone() {
    let (path, _) = long_file("gone.hall");
    let gone = |command| {
        let mut child = spawned(command, Stdio::piped());
        let mut first = [0; 10];
        child.stdout.take().unwrap().read_exact(&mut first).unwrap();
        assert_eq!(&first, b"1 PL ok 2 ");
        child.wait_with_output().unwrap()
    };
    let out = gone(hall_list(&path));
    assert_eq!((out.status.code(), &out.stderr[..]), (Some(0), &b""[..]));
    if let Some(command) = hallroots_of(&path) {
        let out = gone(command);
        assert_eq!(out.status.code(), Some(0));
        assert!(said(&out).starts_with("writing the listing: Broken pipe"));
    }
}

/// Both ends of a pipe, which does not block.
fn pipe(name: &str) -> (File, File) {
    const NONBLOCK: i32 = 0o4000;
    let path = scratch(name);
    assert!(Command::new("mkfifo").arg(&path).status().unwrap().success());
    let end = || OpenOptions::new().custom_flags(NONBLOCK).clone();
    let reader = end().read(true).open(&path).unwrap();
    let writer = end().write(true).open(&path).unwrap();
    let blocking = File::open(&path).unwrap();
    drop(reader);
    (blocking, writer)
}

/// `hall` waits for the reader; `hallroots` stops at what a pipe holds, and says so.
#[test]
fn nonblocking_pipe() {
    let (path, length) = long_file("nonblocking.hall");
    let read_late = |command, name| {
        let (mut reader, writer) = pipe(name);
        let child = spawned(command, writer);
        std::thread::sleep(std::time::Duration::from_millis(300));
        let mut all = Vec::new();
        reader.read_to_end(&mut all).unwrap();
        (all.len(), child.wait_with_output().unwrap())
    };
    let (n, out) = read_late(hall_list(&path), "hall.pipe");
    assert_eq!((n, out.status.code(), &out.stderr[..]), (length, Some(0), &b""[..]));
    if let Some(command) = hallroots_of(&path) {
        let (n, out) = read_late(command, "hallroots.pipe");
        assert_eq!((n, out.status.code()), (65_536, Some(0)));
        let line = "writing the listing: Resource temporarily unavailable";
        assert!(said(&out).starts_with(line), "{}", said(&out));
    }
}

/// A stack of 1 MB is enough for the longest file and the deepest brackets: 255 that are opened.
#[test]
fn small_stack() {
    let Some(program) = hallroots() else { return };
    let path = scratch("brackets.hall");
    let text = |text: &str| [b"TX", &[text.len() as u8][..], &[0; 8], text.as_bytes()].concat();
    let closed = format!("{}t{}", "(".repeat(127), ")".repeat(127));
    let mut bytes = [text(&"(".repeat(255)), text(&closed)].concat();
    let count = (65_536 - bytes.len()) / 35;
    bytes.extend(made("list 2^-30 2 -3 1\n").repeat(count));
    std::fs::write(&path, bytes).unwrap();
    let mut shell = Command::new("sh");
    shell.args(["-c", "ulimit -s 1024; exec \"$0\" < \"$1\""]).arg(program).arg(&path);
    let out = shell.output().unwrap();
    assert_eq!((out.status.code(), said(&out)), (Some(0), String::new()));
    let lines = String::from_utf8(out.stdout).unwrap();
    let first = "1 TX refused 13\n2 TX ok 1 0000000000000000 1 c\n3 PL ok 2 ";
    assert!(lines.starts_with(first) && lines.lines().count() > 1800, "{lines:.200}");
    let (records, roots) = (2 + count, 1 + 2 * count);
    assert!(lines.ends_with(&format!("\nT {records} {roots} {roots}\n")), "{lines:.200}");
}
