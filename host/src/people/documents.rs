//! Documents that are made from the repository's own text: `hall documents` writes them, and
//! tests/documents.rs says where one is no longer true.
pub mod index;
pub mod pieces;

use crate::compare::say;
use crate::people::architecture;
use std::collections::BTreeMap;
use std::fmt::Write;
use std::path::{Path, PathBuf};
use std::{env, fs, io};

/// The repository's root.
pub fn root() -> PathBuf {
    Path::new(env!("CARGO_MANIFEST_DIR")).join("..")
}

/// The folder with geomcore's source, found as build.rs finds it, or a line that says where it was looked for.
pub fn geomcore(root: &Path) -> Result<PathBuf, String> {
    let folder = env::var("GEOMCORE").map_or(root.join("../shared/docs/src"), PathBuf::from);
    match folder.join("src/math/poly.rs").exists() {
        true => Ok(folder),
        false => Err(format!("no geomcore in {}", folder.display())),
    }
}

/// A public function of crates/*/src, with the text of its contract.
pub struct Function {
    /// As its callers name it: crate and name.
    pub name: String,
    /// A C function.
    pub exported: bool,
    pub requires: Vec<String>,
    pub ensures: Vec<String>,
}

/// All files below a folder that end so, in order.
pub fn files(folder: &Path, ending: &str) -> io::Result<Vec<PathBuf>> {
    let mut found = Vec::new();
    let mut entries: Vec<PathBuf> =
        fs::read_dir(folder)?.map(|entry| Ok(entry?.path())).collect::<io::Result<_>>()?;
    entries.sort();
    for path in entries {
        if path.is_dir() {
            found.extend(files(&path, ending)?);
        } else if path.to_string_lossy().ends_with(ending) {
            found.push(path);
        }
    }
    Ok(found)
}

/// The crates, in order.
pub fn crates(root: &Path) -> io::Result<Vec<String>> {
    let list = fs::read_to_string(root.join("crates.txt"))?;
    let names = list.lines().filter(|line| !line.starts_with('#'));
    let mut names: Vec<String> =
        names.filter_map(|line| Some(listed(line)?.0.to_string())).collect();
    names.sort();
    Ok(names)
}

/// A line of crates.txt: the crate, without the words that may stand behind its name, and what it
/// rests on.
pub fn listed(line: &str) -> Option<(&str, &str)> {
    let (name, needs) = line.split_once(':')?;
    Some((name.split_whitespace().next()?, needs))
}

/// The name of the public function that a line begins.
fn public_name(line: &str) -> Option<&str> {
    let rest = line.trim_start().strip_prefix("pub ")?;
    let rest = rest.strip_prefix("extern \"C\" ").unwrap_or(rest).strip_prefix("fn ")?;
    rest.split_once(['(', '<']).map(|(name, _)| name)
}

/// The facts of the clauses of a kind, without their names and braces: `requires NAME { .. }`, or
/// with no name, may stand on several lines.
fn clauses(header: &str, word: &str) -> Vec<String> {
    let begun = |line: &str| {
        let (kind, rest) = line.trim_start().split_once(' ')?;
        let (name, fact) = rest.split_once('{')?;
        let clause = ["requires", "ensures"].contains(&kind) && !name.trim().contains(' ');
        clause.then(|| (kind.to_string(), fact.to_string()))
    };
    let mut all: Vec<(String, String)> = Vec::new();
    for line in header.lines() {
        match (begun(line), all.last_mut()) {
            (Some(clause), _) => all.push(clause),
            (None, Some((_, fact))) => *fact += &format!(" {line}"),
            (None, None) => {}
        }
    }
    let own = all.iter().filter(|(kind, _)| kind == word);
    let facts = own.map(|(_, text)| text.trim().strip_suffix('}').unwrap_or(text));
    facts.map(|text| text.split_whitespace().collect::<Vec<_>>().join(" ")).collect()
}

/// The facts of several clauses, as a document has them.
pub fn facts(clauses: &[String]) -> String {
    clauses.iter().map(|fact| format!("`{fact}`")).collect::<Vec<_>>().join("; ")
}

/// Whether a function's body begins here: behind its contract, or behind its name where it has none.
fn opens_body(line: &str) -> bool {
    let line = line.trim();
    line.starts_with('{') || line.ends_with('{') && !line.starts_with("ensures")
}

/// The modules of a crate that no other crate sees.
fn hidden(root: &str) -> Vec<String> {
    let own = root.lines().filter_map(|line| line.strip_prefix("mod ")?.strip_suffix(';'));
    let own = own.filter(|name| !root.contains(&format!("pub use {name}::")));
    own.map(|name| format!("{name}.rt")).collect()
}

/// The public functions of one file.
fn of_file(name: &str, text: &str) -> Vec<Function> {
    let lines: Vec<&str> = text.lines().collect();
    let mut found = Vec::new();
    for (at, line) in lines.iter().enumerate() {
        let Some(function) = public_name(line) else { continue };
        let length = lines[at..].iter().position(|line| opens_body(line));
        let header = lines[at..at + length.unwrap_or(0).max(1)].join("\n");
        found.push(Function {
            name: format!("{name}::{function}"),
            exported: line.contains("extern \"C\""),
            requires: clauses(&header, "requires"),
            ensures: clauses(&header, "ensures"),
        });
    }
    found
}

/// The public functions of all crates.
pub fn functions(root: &Path) -> io::Result<Vec<Function>> {
    let mut found = Vec::new();
    for name in crates(root)? {
        let folder = root.join("crates").join(&name).join("src");
        let hidden = hidden(&fs::read_to_string(folder.join("lib.rt")).unwrap_or_default());
        for path in files(&folder, ".rt")? {
            if !hidden.iter().any(|file| path.ends_with(file)) {
                found.extend(of_file(&name, &fs::read_to_string(path)?));
            }
        }
    }
    Ok(found)
}

/// What a contract says that is no single equation `result ≡ definition`.
const KINDS: [(&str, &str); 4] = [
    (
        "Stored ",
        "`Stored`: these numbers stand in the lent bytes from their start on, and how many bytes that are is answered; or none does, and 0 is",
    ),
    ("Answered ", "`Answered`: the same, or a refusal's number and nothing stored"),
    (
        "Written ",
        "`Written`: this text is written behind the place of the one that is lent, as far as its buffer reaches",
    ),
    ("sets ", "`sets`: these bytes stand in the lent bytes, which are otherwise unaltered"),
];

const TALLIED: &str = "`Tallied`: its value is the definition of its arguments, and how many systems were solved for it is the one beside";

/// How a contract is told apart: none where it is one equation.
fn kind(f: &Function) -> Option<String> {
    if f.ensures.is_empty() {
        return Some("nothing of the result: a first guess, or a program".to_string());
    }
    let fact = &f.ensures[0];
    for (word, says) in KINDS {
        if fact.starts_with(word)
            || word == "sets " && fact.contains("≡ sets ") && f.ensures.len() == 1
        {
            return Some(says.to_string());
        }
    }
    let equation = |fact: &str| !fact.contains('×') && !fact.contains('→');
    match &f.ensures[..] {
        [fact] if fact.starts_with("result ≡ ") && equation(fact) => None,
        [value, systems] if equation(value) && counted(value, systems) => Some(TALLIED.to_string()),
        _ => Some(facts(&f.ensures)),
    }
}

/// A value, or the answer of a call that may be refused, and its systems.
fn counted(value: &str, systems: &str) -> bool {
    let both = |a, b| value.starts_with(a) && systems.starts_with(b);
    both("result.value ≡ ", "result.systems ≡ ")
        || both("answer_in result ≡ ", "systems_in result ≡ ")
}

/// Names by what they share, the most first.
fn grouped(pairs: impl Iterator<Item = (String, String)>) -> Vec<(String, Vec<String>)> {
    let mut groups: BTreeMap<String, Vec<String>> = BTreeMap::new();
    for (shared, name) in pairs {
        groups.entry(shared).or_default().push(format!("`{name}`"));
    }
    let mut groups: Vec<_> = groups.into_iter().collect();
    groups.sort_by_key(|(_, names)| std::cmp::Reverse(names.len()));
    groups
}

fn table(text: &mut String, head: &str, groups: &[(String, Vec<String>)]) {
    let _ = write!(text, "\n| {head} | functions |\n|---|---|\n");
    for (shared, names) in groups {
        let _ = writeln!(text, "| {} | {} |", shared.replace('|', "\\|"), names.join(", "));
    }
}

/// docs/EXCEPTIONS.md: the public functions whose contract is not `result ≡ definition` alone, and those
/// that require something.
pub fn exceptions(functions: &[Function]) -> String {
    let others = functions.iter().filter_map(|f| Some((kind(f)?, f.name.clone())));
    let others = grouped(others);
    let bound = functions.iter().filter(|f| !f.requires.is_empty());
    let bound = grouped(bound.map(|f| (facts(&f.requires), f.name.clone())));
    let count = |groups: &[(String, Vec<String>)]| groups.iter().map(|g| g.1.len()).sum::<usize>();
    let mut text = format!(
        "# Contracts that say something else, or require something\n\n\
         Made by `hall documents` from crates/*/src; a test says where it is no longer true.\n\n\
         Of {} public functions {} say `result ≡ definition` of their arguments and nothing else, and {} require nothing.\n\n\
         ## What the other {} say\n",
        functions.len(),
        functions.len() - count(&others),
        functions.len() - count(&bound),
        count(&others),
    );
    table(&mut text, "contract", &others);
    let _ = write!(
        text,
        "\n## What {} require\n\n\
         Sizes: a degree, a count within its array, bytes enough in a slice, a number within its type. Nothing of a float's bits. \
         No entry point and no C function is among them.\n",
        count(&bound),
    );
    table(&mut text, "requires", &bound);
    text
}

/// Each made document: its file, and the text that it should have.
pub fn made(root: &Path) -> io::Result<Vec<(&'static str, String)>> {
    let mut all = vec![
        ("docs/EXCEPTIONS.md", exceptions(&functions(root)?)),
        ("docs/INDEX.md", index::index(root)?),
    ];
    all.extend(architecture::made(root)?);
    Ok(all)
}

/// `hall documents`
pub fn write() -> io::Result<()> {
    let root = root();
    for (file, text) in made(&root)? {
        fs::write(root.join(file), text)?;
        say(&format!("{file} written"));
    }
    Ok(())
}
