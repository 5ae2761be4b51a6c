//! docs/HALL.md and docs/HALL-FILE.md: what their examples say is what the program prints.
mod run;

use host::truth::listing::lines;
use run::{hall, made, scratch, text};
use std::path::Path;
use std::process::Command;
use std::{env, fs};

/// The commands of a document, each with the lines that follow it.
fn examples(document: &str) -> Vec<(String, String)> {
    let mut all: Vec<(String, String)> = Vec::new();
    for line in document.lines().filter_map(|line| line.strip_prefix("    ")) {
        match (line.strip_prefix("$ "), all.last_mut()) {
            (Some(command), _) => all.push((command.to_string(), String::new())),
            (None, Some((_, said))) => *said += &format!("{line}\n"),
            (None, None) => {}
        }
    }
    all
}

/// What a line of the shell prints, errors too, where `hall` is on the PATH.
fn printed(command: &str, folder: &Path) -> String {
    let program = Path::new(env!("CARGO_BIN_EXE_hall")).parent().unwrap();
    let path = format!("{}:{}", program.display(), env::var("PATH").unwrap_or_default());
    // what stands on standard error comes where it is said
    let script = format!("exec 2>&1; {command}");
    let mut shell = Command::new("sh");
    shell.args(["-c", &script]).env("PATH", path).current_dir(folder);
    text(&shell.output().unwrap().stdout)
}

fn document(name: &str) -> String {
    let document = Path::new(env!("CARGO_MANIFEST_DIR")).join("../docs").join(name);
    fs::read_to_string(document).unwrap()
}

#[test]
fn examples_are_true() {
    let folder = scratch("handbook");
    fs::create_dir_all(&folder).unwrap();
    let all = examples(&document("HALL.md"));
    assert!(all.len() >= 12, "{} examples", all.len());
    for (command, said) in all {
        if cfg!(geomcore) || !command.contains("hall compare") {
            assert_eq!(printed(&command, &folder), said, "docs/HALL.md: {command}");
        }
    }
}

/// The rows of the tables under a heading, each as its cells.
fn rows<'a>(document: &'a str, heading: &str) -> Vec<Vec<&'a str>> {
    let (_, section) = document.split_once(&format!("# {heading}\n")).unwrap();
    let section = section.split_once("\n#").map_or(section, |(section, _)| section);
    let row = |line: &'a str| line.trim_matches('|').split(" | ").map(str::trim).collect();
    section.lines().filter(|line| line.starts_with("| ")).skip(1).map(row).collect()
}

/// What stands in the first quotes of a cell.
fn quoted<'a>(cell: &'a str) -> Option<&'a str> {
    cell.split('`').nth(1)
}

/// The lines of the records; the total behind them is theirs.
fn listed(bytes: &[u8]) -> String {
    let lines = lines(&hall(&["list"], bytes).stdout).unwrap();
    lines.iter().map(|line| format!("{line}\n")).collect()
}

/// Each refusal has its bytes, and its line has its number.
#[test]
fn refusals_are_true() {
    let document = document("HALL-FILE.md");
    let all = rows(&document, "Refusals");
    assert!(all.len() >= 28, "{} refusals", all.len());
    for row in all {
        let [number, _, _, bytes, line] = row[..] else { panic!("{row:?}") };
        let byte = |digits: &str| u8::from_str_radix(digits, 16).expect(bytes);
        let bytes = match quoted(bytes) {
            Some(bytes) => bytes.split(' ').map(byte).collect(),
            None => vec![0; 65_537],
        };
        let line = quoted(line).unwrap();
        assert!(line.ends_with(&format!(" refused {number}")), "{row:?}");
        assert_eq!(listed(&bytes), format!("{line}\n"), "{row:?}");
    }
}

#[test]
fn totals_are_true() {
    let document = document("HALL-FILE.md");
    let all = rows(&document, "The total");
    assert!(all.len() >= 4, "{} totals", all.len());
    for row in all {
        let [typed, total, _] = row[..] else { panic!("{row:?}") };
        let [typed, total] = [typed, total].map(|cell| quoted(cell).unwrap());
        let listing = text(&hall(&["list"], &made(typed)).stdout);
        assert!(listing.ends_with(&format!("\n{total}\n")), "{typed}: {listing}");
    }
}

#[test]
fn formulas_are_true() {
    let document = document("HALL-FILE.md");
    let all = rows(&document, "Formulas");
    assert!(all.len() >= 11, "{} formulas", all.len());
    for row in all {
        let [typed, _, line] = row[..] else { panic!("{row:?}") };
        let [typed, line] = [typed, line].map(|cell| quoted(cell).unwrap());
        assert_eq!(listed(&made(typed)), format!("{line}\n"), "{typed}");
    }
}
