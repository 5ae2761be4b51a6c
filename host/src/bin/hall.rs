//! The test host's program for people.
use host::people::{self, bench, documents, help};
use host::stored::leaves;
use std::io;
use std::path::Path;
use std::process::ExitCode;

/// The long runs, and what their first number says.
const RUNS: [(&str, &str); 13] = [
    ("lists", "COUNT"),
    ("inquiries", "COUNT"),
    ("cranks", "COUNT"),
    ("contacts", "COUNT"),
    ("formulas", "COUNT"),
    ("files", "COUNT"),
    ("damage", "MINUTES"),
    ("quadratics", "COUNT"),
    ("doubts", "COUNT"),
    ("systems", "COUNT"),
    ("coverage", "COUNT"),
    ("mutants", "COUNT"),
    ("causes", "COUNT"),
];

fn main() -> ExitCode {
    let words: Vec<String> = std::env::args().skip(1).collect();
    let words: Vec<&str> = words.iter().map(String::as_str).collect();
    match words[..] {
        ["--help" | "-h" | "help"] => return people::tell(&help::all()),
        ["--version" | "-V"] => {
            return people::tell(concat!("hall ", env!("CARGO_PKG_VERSION"), "\n"));
        }
        ["help", command] | [command, .., "--help" | "-h"]
            if !help::of_command(command).is_empty() =>
        {
            return people::tell(&help::with_topics(command));
        }
        ["bench"] => bench::run(),
        ["documents"] => return written(documents::write()),
        [what, count, seed] if RUNS.iter().any(|run| run.0 == what) => {
            return compare(what, count, seed);
        }
        ["stored", "leaves", dir] => return store_leaves(Path::new(dir)),
        _ => return people::run(&words).unwrap_or_else(|| refuse(&words)),
    }
    ExitCode::SUCCESS
}

/// Status 1 where port and reference build differ, 2 where nothing was compared.
fn compare(what: &str, count: &str, seed: &str) -> ExitCode {
    let numbers = [count, seed].map(|word| (word, word.parse::<u64>()));
    for (word, number) in &numbers {
        if number.is_err() {
            eprintln!("hall: `{word}` is no number");
            return ExitCode::from(2);
        }
    }
    let [count, seed] = numbers.map(|n| n.1.unwrap_or(0));
    let equal = match (what, count) {
        // in no time the stored files are compared still
        ("damage", _) | (_, 1..) => long_run(what, count, seed),
        _ => Err("nothing was compared: COUNT is 0".to_string()),
    };
    match equal {
        Ok(true) => ExitCode::SUCCESS,
        Ok(false) => ExitCode::FAILURE,
        Err(why) => {
            eprintln!("hall: {what}: {why}");
            ExitCode::from(2)
        }
    }
}

/// Whether all that was compared is equal, or why nothing was compared.
#[cfg(geomcore)]
fn long_run(what: &str, count: u64, seed: u64) -> Result<bool, String> {
    match what {
        "lists" => Ok(host::runs::lists::run(count, seed)),
        "inquiries" => Ok(host::runs::inquiries::run(count, seed)),
        "files" => Ok(host::runs::files::run(count, seed)),
        "damage" => Ok(host::runs::damage::run(count, seed)),
        "cranks" => Ok(host::runs::cranks::run(count, seed)),
        "contacts" => Ok(host::runs::contacts::run(count, seed)),
        "formulas" => Ok(host::runs::formulas::run(count, seed)),
        "quadratics" => Ok(host::runs::quadratics::run(count, seed)),
        "doubts" => Ok(host::runs::doubts::run(count, seed)),
        "systems" => Ok(host::runs::systems::run(count, seed)),
        _ => with_feature(what, count, seed),
    }
}

/// A command that a feature of the build brings.
#[cfg(geomcore)]
fn with_feature(what: &str, count: u64, seed: u64) -> Result<bool, String> {
    match what {
        #[cfg(feature = "coverage")]
        "coverage" => Ok(host::runs::coverage::run(count, seed)),
        #[cfg(feature = "mutants")]
        "mutants" => Ok(host::runs::mutants::run(count, seed)),
        #[cfg(feature = "causes")]
        "causes" => Ok(host::runs::causes::run(count, seed)),
        _ => Err(format!("needs a build with `--features {what}`; not run with {count} {seed}")),
    }
}

#[cfg(not(geomcore))]
fn long_run(_: &str, _: u64, _: u64) -> Result<bool, String> {
    Err(host::truth::reference::SKIPPED.to_string())
}

/// Status 1 where a file cannot be read or written.
fn written(outcome: io::Result<()>) -> ExitCode {
    match outcome {
        Ok(()) => ExitCode::SUCCESS,
        Err(e) => {
            eprintln!("hall: {e}");
            ExitCode::FAILURE
        }
    }
}

fn store_leaves(dir: &Path) -> ExitCode {
    match leaves::write_leaves(dir) {
        Ok(n) => {
            people::tell(&format!("{n} records and answers written below {}\n", dir.display()))
        }
        Err(e) => {
            eprintln!("hall: {}: {e}", dir.display());
            ExitCode::FAILURE
        }
    }
}

/// Names the first word that was not understood.
fn refuse(words: &[&str]) -> ExitCode {
    let fits = |form: &[&str]| {
        let same = |(word, wanted): &(&&str, &&str)| {
            let any = ["DIR", "FILE", "COUNT", "MINUTES", "N", "RECORD", "SEED"].contains(wanted);
            word == wanted || (any && !word.starts_with("--"))
        };
        words.iter().zip(form).take_while(same).count()
    };
    let runs = RUNS.map(|(run, number)| [run, number, "SEED"]);
    let forms: [&[&str]; 3] = [&["bench"], &["documents"], &["stored", "leaves", "DIR"]];
    let forms = forms.into_iter().chain(runs.iter().map(|run| &run[..])).chain(people::FORMS);
    let understood = forms.map(fits).max().unwrap_or(0);
    match words.get(understood) {
        Some(word) => eprintln!("hall: unknown word `{word}`"),
        None => {
            eprintln!("hall: a word is missing after `{}`", [&["hall"], words].concat().join(" "))
        }
    }
    let own = help::of_command(words.first().unwrap_or(&""));
    eprintln!("{own}`hall --help` has every command");
    ExitCode::from(2)
}
