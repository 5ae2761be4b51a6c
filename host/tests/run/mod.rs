//! The program `hall` as people call it. Not every test needs all of this.
#![allow(dead_code)]
use std::fs;
use std::io::Write;
use std::path::{Path, PathBuf};
use std::process::{Command, Output, Stdio};

/// The program with these words, and what it reads.
pub fn hall(words: &[&str], input: &[u8]) -> Output {
    let mut command = Command::new(env!("CARGO_BIN_EXE_hall"));
    piped(command.args(words), input)
}

/// A program, and what it reads; one that refuses its words does not.
pub fn piped(command: &mut Command, input: &[u8]) -> Output {
    let mut child = command
        .stdin(Stdio::piped())
        .stdout(Stdio::piped())
        .stderr(Stdio::piped())
        .spawn()
        .unwrap();
    let mut stdin = child.stdin.take().unwrap();
    std::thread::scope(|scope| {
        scope.spawn(move || drop(stdin.write_all(input)));
        child.wait_with_output().unwrap()
    })
}

pub fn text(bytes: &[u8]) -> String {
    String::from_utf8(bytes.to_vec()).unwrap()
}

/// What stands on standard error, its wrapped lines joined.
pub fn said(out: &Output) -> String {
    text(&out.stderr).replace("\n    ", " ")
}

/// A place that nothing is at.
pub fn scratch(name: &str) -> PathBuf {
    let path = Path::new(env!("CARGO_TARGET_TMPDIR")).join(name);
    let _ = fs::remove_dir_all(&path);
    let _ = fs::remove_file(&path);
    path
}

/// The hall file of a text.
pub fn made(text: &str) -> Vec<u8> {
    let out = hall(&["make"], text.as_bytes());
    assert_eq!(out.status.code(), Some(0), "{out:?}");
    out.stdout
}

/// The program `hallroots`, where `.ci/run` has put it; where CI is true, it must be there.
pub fn hallroots() -> Option<&'static Path> {
    let path = Path::new(concat!(env!("CARGO_MANIFEST_DIR"), "/../target/bin/hallroots"));
    if path.exists() {
        return Some(path);
    }
    let missing = format!("{} is missing: run `.ci/run`", path.display());
    assert!(std::env::var("CI").as_deref() != Ok("true"), "{missing}");
    host::compare::say(&format!("{missing}; the program is not tried"));
    None
}
