//! The documents that are made from the repository's own text are what it makes; each function of the
//! Rust and each entry point has two wrong programs.
use host::people::documents::index::{all_crates, rows};
use host::people::documents::{facts, functions, geomcore, made, root};
use std::collections::{BTreeMap, BTreeSet};
use std::fs;
use std::io::{Write, stderr};

const READ: &str = "the repository can be read";

#[test]
fn made_documents() {
    let root = root();
    if let Err(missing) = geomcore(&root) {
        let skipped = "the Rust's functions and lines in docs/INDEX.md are not compared";
        writeln!(stderr(), "skipped, {missing}: {skipped}").expect("standard error takes a line");
    }
    for (file, wanted) in made(&root).expect(READ) {
        let text = fs::read_to_string(root.join(file)).unwrap_or_default();
        let at = text.lines().zip(wanted.lines()).position(|(a, b)| a != b);
        let line = at.unwrap_or(text.lines().count().min(wanted.lines().count())) + 1;
        assert!(text == wanted, "{file}, line {line}, is no longer true: run `hall documents`");
    }
}

/// They refuse, and require nothing.
const ENTRY_POINTS: [&str; 17] = [
    "poly::real_roots",
    "inquiry::start",
    "inquiry::ask",
    "inquiry::reply",
    "equation::quadratic",
    "equation::solve_quadratic",
    "equation::quadratic_centre",
    "solution::shifted",
    "solution::touching_at",
    "crank::start",
    "crank::ask",
    "crank::reply",
    "crank::crank",
    "listing::list_file",
    "contact::pin_contact",
    "formula::expand",
    "formula_roots::formula_roots",
];

#[test]
fn entry_points_require_nothing() {
    let functions = functions(&root()).expect(READ);
    for name in ENTRY_POINTS {
        assert!(functions.iter().any(|f| f.name == name), "there is no {name}");
    }
    for f in functions.iter().filter(|f| f.exported || ENTRY_POINTS.contains(&f.name.as_str())) {
        assert!(f.requires.is_empty(), "{} requires {}", f.name, facts(&f.requires));
        assert!(!f.ensures.is_empty(), "{} says nothing of its result", f.name);
    }
}

/// Of each function of the Rust, each entry point, each crate of C functions and each thing that
/// document 01 adds, in the gate.
#[test]
fn two_wrong_programs() {
    let root = root();
    let all = all_crates(&root).expect(READ);
    let rows = rows(&root, &all).expect(READ);
    let archives = fs::read_to_string(root.join(".ci/archives")).expect(READ);
    let mut programs: BTreeMap<String, BTreeSet<&str>> = BTreeMap::new();
    for row in &rows {
        let own = row.edits.iter().filter(|e| e.program() && e.gate).map(|e| &e.name[..]);
        let entry = row.place.is_some() && ENTRY_POINTS.contains(&row.function().as_str());
        for of in [Some(row.of.clone()), entry.then(|| row.function())].into_iter().flatten() {
            programs.entry(of).or_default().extend(own.clone());
        }
    }
    for owner in all.iter().filter(|c| archives.lines().any(|name| name == c.name)) {
        let own = owner.edits.iter().filter(|e| e.program() && e.gate);
        programs.insert(owner.name.clone(), own.map(|e| &e.name[..]).collect());
    }
    for (of, programs) in programs {
        assert!(programs.len() >= 2, "{of} has {} wrong programs: {programs:?}", programs.len());
    }
    for name in ENTRY_POINTS {
        assert!(rows.iter().any(|row| row.function() == name), "docs/INDEX.md has no {name}");
    }
}

/// An edit changes a program or a statement, never a proof; and docs/CONTRACTS.md names edits that
/// there are, the statements among them as such.
#[test]
fn edits_in_words() {
    let root = root();
    let all = all_crates(&root).expect(READ);
    let text = fs::read_to_string(root.join("docs/CONTRACTS.md")).expect(READ);
    let text = text.split_whitespace().collect::<Vec<_>>().join(" ");
    let (before, statements) = text.split_once(" ### Statements ").expect("a heading Statements");
    for edit in all.iter().flat_map(|c| &c.edits) {
        let known = edit.program() || edit.file.starts_with("specs/");
        assert!(known, "{} changes {}, no program and no statement", edit.name, edit.file);
        for (at, name) in before.match_indices(&format!("`{}`", edit.name)) {
            let marked = before[at + name.len()..].starts_with(" (a statement)");
            assert!(marked != edit.program(), "docs/CONTRACTS.md: is {name} a statement?");
        }
        assert!(!edit.program() || !statements.contains(&format!("`{}`", edit.name)));
    }
    for name in text.split('`').skip(1).step_by(2) {
        let Some((owner, edit)) = name.split_once('/') else { continue };
        let Some(owner) = all.iter().find(|c| c.name == owner) else { continue };
        let found = owner.edits.iter().any(|e| e.name == name);
        assert!(found || edit.contains('/'), "docs/CONTRACTS.md names {name}, which is no edit");
    }
}
