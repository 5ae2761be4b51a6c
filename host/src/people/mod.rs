//! What the program `hall` does for people with hall files.
pub mod architecture;
pub mod bench;
#[cfg(geomcore)]
pub mod differences;
pub mod documents;
pub mod doubt;
pub mod draw;
pub mod explain;
pub mod help;
pub mod marked;
pub mod mistyped;
pub mod number;
pub mod picture;
pub mod progress;
pub mod question;
pub mod show;
pub mod slider;
pub mod svg;
pub mod table;
pub mod text;

use crate::inputs::hall_files::{damage, records};
use crate::inputs::random::Random;
use crate::people::show::{Shown, shown, whole_listing};
use crate::port;
use crate::truth::hall_file::{self, Item, MOST_BYTES, items};
use crate::truth::refusals;
use std::fs::{self, File};
use std::io::{Error, ErrorKind, Read, Write, stdin, stdout};
use std::os::fd::AsFd;
use std::process::ExitCode;
use std::thread::sleep;
use std::time::Duration;

/// The forms of these commands; a word in capitals stands for any word that is no option.
pub const FORMS: [&[&str]; 16] = [
    &["make"],
    &["list", "FILE"],
    &["text", "FILE"],
    &["show", "FILE", "--csv", "--systems"],
    &["show", "FILE", "--systems", "--csv"],
    &["show", "--csv", "FILE", "--systems"],
    &["show", "--systems", "FILE", "--csv"],
    &["show", "--csv", "--systems", "FILE"],
    &["show", "--systems", "--csv", "FILE"],
    &["explain", "FILE", "RECORD"],
    &["draw", "FILE", "RECORD"],
    &["compare", "FILE", "--csv"],
    &["compare", "--csv", "FILE"],
    &["compare", "FILE", "--differences"],
    &["random", "N", "SEED", "--damage"],
    &["stored", "files", "DIR"],
];

/// A message, and the status with which the program ends: 2 where the words are wrong or nothing was
/// compared, else 1.
struct Failure(String, u8);

type Outcome = Result<ExitCode, Failure>;

fn failed<T>(message: impl Into<String>) -> Result<T, Failure> {
    Err(Failure(message.into(), 1))
}

/// Does what the words say; none where they are no command of these.
pub fn run(words: &[&str]) -> Option<ExitCode> {
    const FLAGS: [&str; 2] = ["--csv", "--systems"];
    let [csv, systems] = FLAGS.map(|flag| words.contains(&flag));
    let plain: Vec<&str> = words.iter().copied().filter(|word| !FLAGS.contains(word)).collect();
    let named = |file: &str| !file.starts_with("--");
    let outcome = match plain[..] {
        ["show"] => show("-", csv, systems),
        ["show", file] if named(file) => show(file, csv, systems),
        _ if systems => return None,
        ["compare", file] if named(file) => compare(file, if csv { As::Csv } else { As::Text }),
        _ if csv => return None,
        ["make"] => make(),
        ["list"] => list("-"),
        ["list", file] if named(file) => list(file),
        ["text"] => text_of("-"),
        ["text", file] if named(file) => text_of(file),
        ["explain", file] if named(file) => explain(file, None),
        ["explain", file, record] if named(file) && named(record) => explain(file, Some(record)),
        ["draw", file, record] if named(file) && named(record) => draw(file, record),
        ["compare", file, "--differences"] if named(file) => compare(file, As::Rows),
        ["random", count, seed] => random(count, seed, false),
        ["random", count, seed, "--damage"] => random(count, seed, true),
        ["stored", "files", dir] => store_files(dir),
        _ => return None,
    };
    Some(ended(outcome))
}

/// Writes a text for people.
pub fn tell(text: &str) -> ExitCode {
    ended(emit(text.as_bytes()).map(|()| ExitCode::SUCCESS))
}

fn ended(outcome: Outcome) -> ExitCode {
    outcome.unwrap_or_else(|Failure(message, status)| {
        eprintln!("{}", table::in_columns(&format!("hall: {message}")));
        ExitCode::from(status)
    })
}

/// The bytes of a file, or of standard input where it is named `-`.
fn bytes_of(file: &str) -> Result<Vec<u8>, Failure> {
    let mut bytes = Vec::new();
    let read = match file {
        "-" => stdin().lock().read_to_end(&mut bytes).map(|_| bytes),
        _ => fs::read(file),
    };
    read.or_else(|e| failed(format!("{}: {e}", name(file))))
}

fn name(file: &str) -> &str {
    if file == "-" { "standard input" } else { file }
}

/// How long to wait for a reader that is slow and does not block.
const PAUSE: Duration = Duration::from_millis(1);

/// Writes to standard output. That nobody reads on is no failure.
fn emit(mut bytes: &[u8]) -> Result<(), Failure> {
    let said = |e: Error| Failure(format!("standard output: {e}"), 1);
    let mut out = File::from(stdout().as_fd().try_clone_to_owned().map_err(said)?);
    while !bytes.is_empty() {
        match out.write(bytes) {
            Ok(n) => bytes = &bytes[n..],
            Err(e) => match e.kind() {
                ErrorKind::BrokenPipe => return Ok(()),
                ErrorKind::WouldBlock => sleep(PAUSE),
                ErrorKind::Interrupted => {}
                _ => return Err(said(e)),
            },
        }
    }
    Ok(())
}

fn make() -> Outcome {
    let text = bytes_of("-")?;
    match text::read(&text) {
        Ok(records) => emit(&hall_file::file(&records)).map(|()| ExitCode::SUCCESS),
        Err(e) => failed(e.to_string()),
    }
}

fn show(file: &str, csv: bool, with_systems: bool) -> Outcome {
    let bytes = bytes_of(file)?;
    let (mut all, total) =
        shown(&bytes, port::list_file).or_else(|e| failed(format!("{file}: {e}")))?;
    if with_systems {
        all.iter_mut().for_each(|shown| shown.systems = Some(port::systems::listed(&shown.item)));
    }
    let text = match csv {
        true => table::csv(&all, with_systems),
        false => table::table(&all, total, with_systems),
    };
    emit(text.as_bytes()).map(|()| ExitCode::SUCCESS)
}

/// Of all records that of the number that is typed.
fn of_number<'a>(file: &str, all: &'a [Shown], number: u64) -> Result<&'a Shown, Failure> {
    all.iter().find(|shown| shown.item.number as u64 == number).ok_or_else(|| {
        let last = all.last().map_or(0, |shown| shown.item.number);
        Failure(format!("{}: no record {number}: the file has {last}", name(file)), 2)
    })
}

fn explain(file: &str, record: Option<&str>) -> Outcome {
    let number = record.map(whole).transpose()?;
    let bytes = bytes_of(file)?;
    let (all, _) = shown(&bytes, port::list_file).or_else(|e| failed(format!("{file}: {e}")))?;
    let text = match number {
        None => explain::doubtful(&all),
        Some(n) => explain::named(of_number(file, &all, n)?),
    };
    emit(text.as_bytes()).map(|()| ExitCode::SUCCESS)
}

fn draw(file: &str, record: &str) -> Outcome {
    let number = whole(record)?;
    let bytes = bytes_of(file)?;
    let (all, _) = shown(&bytes, port::list_file).or_else(|e| failed(format!("{file}: {e}")))?;
    let picture = draw::drawn(of_number(file, &all, number)?)
        .or_else(|why| failed(format!("{}: record {number} is not drawn: {why}", name(file))))?;
    emit(picture.as_bytes()).map(|()| ExitCode::SUCCESS)
}

fn list(file: &str) -> Outcome {
    let bytes = bytes_of(file)?;
    emit(&whole_listing(&bytes, port::list_file))?;
    read_to_its_end(file, &bytes)
}

fn text_of(file: &str) -> Outcome {
    let bytes = bytes_of(file)?;
    let records = items(&bytes).into_iter().filter_map(|item| item.record.ok());
    let lines: String = records.map(|record| text::line(&record) + "\n").collect();
    emit(lines.as_bytes())?;
    read_to_its_end(file, &bytes)
}

/// A failure where reading ends with a refusal.
fn read_to_its_end(file: &str, bytes: &[u8]) -> Outcome {
    match items(bytes).last() {
        Some(item @ Item { number, record: Err(refusal), .. }) => {
            let why = refusals::in_words(bytes, item, *refusal);
            failed(format!("{}: reading ends at record {number}: {why}", name(file)))
        }
        _ => Ok(ExitCode::SUCCESS),
    }
}

/// A whole number, or which word is none.
fn whole(word: &str) -> Result<u64, Failure> {
    word.parse().map_err(|_| Failure(format!("`{word}` is no whole number"), 2))
}

fn random(count: &str, seed: &str, damaged: bool) -> Outcome {
    let (n, mut r) = (whole(count)?, Random::new(whole(seed)?));
    // No record has fewer than 11 bytes.
    let mut bytes = hall_file::file(&records(&mut r, n.min(MOST_BYTES as u64 / 11 + 1)));
    if bytes.len() > MOST_BYTES {
        let why = "records are too many: a hall file has at most 65,536 bytes";
        return Err(Failure(format!("`{count}` {why}"), 2));
    }
    if damaged {
        damage(&mut r, &mut bytes);
    }
    emit(&bytes).map(|()| ExitCode::SUCCESS)
}

/// How a comparison is told.
#[derive(Clone, Copy)]
pub enum As {
    Text,
    Csv,
    Rows,
}

#[cfg(geomcore)]
fn compare(file: &str, how: As) -> Outcome {
    let bytes = bytes_of(file)?;
    if !items(&bytes).iter().any(|item| item.record.is_ok()) {
        let why = nothing_in(&bytes);
        return Err(Failure(format!("{}: nothing was compared: {why}", name(file)), 2));
    }
    let found = differences::report(&bytes, differences::PORT, how)
        .or_else(|e| failed(format!("{}: by the port: {e}", name(file))))?;
    match how {
        As::Text => emit(format!("{}{}\n", found.text, found.summary).as_bytes())?,
        As::Csv | As::Rows => {
            eprintln!("{}", found.summary);
            emit(found.text.as_bytes())?;
        }
    }
    Ok(if found.equal() { ExitCode::SUCCESS } else { ExitCode::FAILURE })
}

/// Why a file has no whole record.
#[cfg(geomcore)]
fn nothing_in(bytes: &[u8]) -> String {
    match items(bytes).first() {
        Some(item @ Item { record: Err(refusal), .. }) => refusals::in_words(bytes, item, *refusal),
        _ => "the file is empty".to_string(),
    }
}

#[cfg(geomcore)]
fn store_files(dir: &str) -> Outcome {
    match crate::stored::files::write_files(dir.as_ref()) {
        Ok(n) => emit(format!("{n} files and their listings written below {dir}\n").as_bytes())
            .map(|()| ExitCode::SUCCESS),
        Err(e) => failed(e.to_string()),
    }
}

#[cfg(not(geomcore))]
fn compare(_: &str, _: As) -> Outcome {
    Err(without_geomcore("compare"))
}

#[cfg(not(geomcore))]
fn store_files(_: &str) -> Outcome {
    Err(without_geomcore("stored files"))
}

#[cfg(not(geomcore))]
fn without_geomcore(command: &str) -> Failure {
    Failure(format!("{command}: {}", crate::truth::reference::SKIPPED), 2)
}
