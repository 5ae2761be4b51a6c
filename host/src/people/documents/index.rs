//! docs/INDEX.md: for each function of the Rust its definition, its code and its wrong programs, and
//! for each field of `Demands` where it is proved.
use super::pieces::{Crate, Edit, Piece, begun, methods_of, names, read, used};
use super::{crates, geomcore};
use std::collections::BTreeSet;
use std::fmt::Write;
use std::path::Path;
use std::{fs, io};

/// The files of the Rust that are ported, whole or in part.
const RUST: [&str; 3] = ["src/math/poly.rs", "src/math/equation.rs", "src/math/solve.rs"];

/// Functions here and, where the contract does not begin with it, their definition.
type Parts = &'static [(&'static str, &'static str)];

/// The functions of the Rust whose counterpart has another name, or several.
const OTHERWISE: [(&str, Parts); 6] = [
    (
        "real_roots_touching",
        &[
            ("inquiry::start", ""),
            ("inquiry::Inquiry::ask", ""),
            ("inquiry::Inquiry::reply", ""),
            ("touching::Replies::with", ""),
            ("touching::Walker::pairs", "pair_turn"),
            ("touching::Walker::chained", "item_turn"),
            ("touching::emit", "emitted"),
        ],
    ),
    ("Candidates::push", &[("Roots::keep", "")]),
    ("Scaled::unscaled", &[("poly::unscaled_all", "unscaled_all")]),
    (
        "factorize",
        &[
            ("factorize", ""),
            ("large", ""),
            ("quotient::product", ""),
            ("quotient", ""),
            ("usable", ""),
            ("merged", ""),
        ],
    ),
    ("refine", &[("refine_cubic", ""), ("refine_quartic", ""), ("refine_peel", "")]),
    (
        "solve_trig",
        &[
            ("crank_front", ""),
            ("crank::start", ""),
            ("crank::CrankInquiry::ask", ""),
            ("crank::CrankInquiry::reply", ""),
            ("crank::crank", ""),
        ],
    ),
];

/// What document 01 puts in the place of Rust's library, and what it and document 02 add.
const ADDED: [(&str, Parts); 10] = [
    ("the exponent", &[("exponent", "")]),
    ("the square root", &[("sqrt", "")]),
    ("the cube root", &[("cbrt", "")]),
    ("c and s", &[("third_angle", "")]),
    ("L", &[("log2_grid", "")]),
    ("refusals of a quadratic", &[("quadratic", "")]),
    (
        "methods of f64",
        &[
            ("float::abs", ""),
            ("float::is_finite", ""),
            ("float::is_sign_negative", ""),
            ("float::copysign", ""),
            ("float::min", ""),
            ("float::max", ""),
            ("float::clamp", ""),
            ("float::total_le", ""),
            ("float::powi", ""),
            ("float::floor", ""),
        ],
    ),
    ("the hall file", &[("list_file", ""), ("record_at", "")]),
    ("the pin contact", &[("pin_contact", "")]),
    ("the formula", &[("formula_roots", ""), ("formula::expand", "")]),
];

const REST: &str = "'`polish_root` and the rest of 002 are left out'";

/// Why a function of the Rust is not ported, in document 01's words where they are quoted.
fn left_out(file: &str, name: &str) -> Option<&'static str> {
    match (file, name) {
        ("equation.rs", "roots_with_tangency") => Some(
            "it is `real_roots_touching` with a tolerance's `confusion`, which an inquiry is handed",
        ),
        ("equation.rs", "solve_trig_linear") => {
            Some("'the Rust's sort by t is left out, with `to_t` and `solve_trig_linear`'")
        }
        ("solve.rs", name) if name != "solve_square" => Some(REST),
        _ => None,
    }
}

/// A function of the Rust.
struct Ported {
    file: String,
    line: usize,
    name: String,
}

/// The functions of a file of geomcore, its tests left out.
fn of_rust(file: &str, text: &str) -> Vec<Ported> {
    let text = text.split("\n#[cfg(test)]\n").next().unwrap_or_default();
    let (mut found, mut own) = (Vec::new(), "");
    for (at, line) in text.lines().enumerate() {
        own = methods_of(line).unwrap_or(if line.starts_with('}') { "" } else { own });
        let Some(name) = begun(line).filter(|_| line.contains("fn ")) else { continue };
        let name = if own.is_empty() { name.to_string() } else { format!("{own}::{name}") };
        found.push(Ported { file: file.to_string(), line: at + 1, name });
    }
    found
}

/// The same as the document has them: `NAME`, FILE:LINE.
fn of_document(text: &str) -> Vec<Ported> {
    let mut found: Vec<Ported> = Vec::new();
    for line in text.lines() {
        let mut cells = line.split('|').map(str::trim).skip(1);
        let (Some(name), Some(place)) = (cells.next(), cells.next()) else { continue };
        let Some((file, line)) = place.split_once(".rs:") else { continue };
        let (name, file) = (name.trim_matches('`').to_string(), format!("{file}.rs"));
        let line = line.parse().unwrap_or(0);
        if !found.iter().any(|f| f.file == file && f.name == name) {
            found.push(Ported { file, line, name });
        }
    }
    found.sort_by_key(|f| (RUST.iter().position(|path| path.ends_with(&f.file)), f.line));
    found
}

/// The functions of the Rust: from geomcore, or where it is not at hand as the document has them.
fn ported(root: &Path) -> io::Result<Vec<Ported>> {
    let Ok(folder) = geomcore(root) else {
        return Ok(of_document(&fs::read_to_string(root.join("docs/INDEX.md"))?));
    };
    let mut found = Vec::new();
    for path in RUST {
        let file = path.rsplit('/').next().unwrap_or(path);
        found.extend(of_rust(file, &fs::read_to_string(folder.join(path))?));
    }
    Ok(found)
}

/// A line of a table: a function here, with what it stands for.
pub struct Row<'a> {
    /// The Rust's name, or what document 01 calls it.
    pub of: String,
    /// `FILE:LINE` in the Rust, where it stands there.
    pub place: Option<String>,
    owner: &'a Crate,
    code: &'a Piece,
    definition: String,
    /// Below the repository's root.
    definition_file: String,
    pub edits: Vec<&'a Edit>,
}

impl Row<'_> {
    /// As its callers name it, without its type: crate and name.
    pub fn function(&self) -> String {
        format!("{}::{}", self.owner.name, self.code.last_name())
    }

    /// What others must not reach into: they have a row of their own. A definition may have a
    /// function's name, so their files stand with them.
    fn taken(&self) -> [String; 2] {
        let told_in = self.definition_file.trim_start_matches("crates/");
        [self.owner.place(self.code), format!("{told_in}::{}", self.definition)]
    }
}

fn wrong(what: String) -> io::Error {
    io::Error::other(what)
}

/// The function of that name: `CRATE::NAME`, or the one public function that has it, or else the one
/// public method.
fn function<'a>(all: &'a [Crate], name: &str) -> io::Result<(&'a Crate, &'a Piece)> {
    let code = |p: &Piece| p.file.ends_with(".rt");
    let pieces = || all.iter().flat_map(|c| c.pieces.iter().map(move |p| (c, p)));
    let whole = |c: &Crate, p: &Piece| format!("{}::{}", c.name, p.name) == name;
    let named: Vec<_> =
        pieces().filter(|(c, p)| code(p) && (p.public && p.name == name || whole(c, p))).collect();
    let methods = || pieces().filter(|(_, p)| code(p) && p.public && p.last_name() == name);
    let found = if named.is_empty() { methods().collect() } else { named };
    match found[..] {
        [one] => Ok(one),
        _ => Err(wrong(format!("{} functions are named {name}", found.len()))),
    }
}

/// The counterparts of a function of the Rust: by its name, with or without its type.
fn counterparts(all: &[Crate], name: &str) -> io::Result<Vec<(String, &'static str)>> {
    if let Some((_, parts)) = OTHERWISE.iter().find(|(of, _)| *of == name) {
        return Ok(parts.iter().map(|(part, told)| (part.to_string(), *told)).collect());
    }
    let short = name.rsplit("::").next().unwrap_or(name);
    let own = function(all, name).map(|_| name);
    let own = own.or_else(|_| function(all, short).map(|_| short))?;
    Ok(vec![(own.to_string(), "")])
}

/// The definition that a contract names, and its file: that of the function's own name, or the
/// first.
fn definition(owner: &Crate, code: &Piece, told: &str) -> io::Result<(String, String)> {
    let header = code.text.split("\n{").next().unwrap_or_default();
    let ensures = header.split_once("ensures").map_or("", |(_, text)| text);
    let fact = ensures.split_once('≡').map_or(ensures, |(_, text)| text);
    let own = |name: &str| {
        let at = owner.uses.iter().find(|u| u.0 == code.file && u.1 == name).map(|u| &u.2)?;
        at.contains("/specs/").then(|| (name.to_string(), at.clone()))
    };
    let usual = |name: &&str| name.ends_with("_of") || name.ends_with("_in");
    let same = format!("{}_of", code.last_name());
    let found = match told {
        "" if names(fact).any(|name| name == same) => own(&same),
        "" => names(fact).filter(usual).find_map(own).or_else(|| names(fact).find_map(own)),
        told => own(told),
    };
    found.ok_or_else(|| wrong(format!("{}::{} names no definition", owner.name, code.name)))
}

/// The rows for one thing, without their edits.
fn rows_of<'a>(
    all: &'a [Crate],
    of: &str,
    place: Option<String>,
    parts: &[(String, &'static str)],
) -> io::Result<Vec<Row<'a>>> {
    let row = |(name, told): &(String, &'static str)| {
        let (owner, code) = function(all, name)?;
        let (definition, definition_file) = definition(owner, code, told)?;
        let (of, place) = (of.to_string(), place.clone());
        Ok(Row { of, place, owner, code, definition, definition_file, edits: Vec::new() })
    };
    parts.iter().map(row).collect()
}

/// The edits of a row: those that change its code, its definition, or what these rest on in their
/// crates.
fn edits_of<'a>(all: &'a [Crate], row: &Row<'a>, taken: &BTreeSet<String>) -> Vec<&'a Edit> {
    let mut edits = row.owner.edits_of(&row.owner.reached(row.code, taken));
    for told in all {
        let file = row.definition_file.strip_prefix(&format!("crates/{}/", told.name));
        let own = |p: &&Piece| Some(p.file.as_str()) == file && p.name == row.definition;
        if let Some(piece) = told.pieces.iter().find(own) {
            edits.extend(told.edits_of(&told.reached(piece, taken)));
        }
    }
    edits
}

/// The crates of the repository.
pub fn all_crates(root: &Path) -> io::Result<Vec<Crate>> {
    crates(root)?.iter().map(|name| read(root, name)).collect()
}

/// The rows of both tables: what is ported, and what document 01 adds.
pub fn rows<'a>(root: &Path, all: &'a [Crate]) -> io::Result<Vec<Row<'a>>> {
    let mut rows = Vec::new();
    for f in ported(root)?.iter().filter(|f| left_out(&f.file, &f.name).is_none()) {
        let place = Some(format!("{}:{}", f.file, f.line));
        rows.extend(rows_of(all, &f.name, place, &counterparts(all, &f.name)?)?);
    }
    for (of, parts) in ADDED {
        let parts: Vec<_> = parts.iter().map(|(part, told)| (part.to_string(), *told)).collect();
        rows.extend(rows_of(all, of, None, &parts)?);
    }
    let taken: BTreeSet<String> = rows.iter().flat_map(Row::taken).collect();
    for row in &mut rows {
        row.edits = edits_of(all, row, &taken);
    }
    Ok(rows)
}

fn quoted<'a>(edits: impl Iterator<Item = &'a Edit>) -> Vec<String> {
    edits.map(|e| format!("`{}`", e.name)).collect()
}

/// Their names, programs first.
fn said(edits: &[&Edit]) -> String {
    let (programs, statements): (Vec<&Edit>, Vec<&Edit>) = edits.iter().partition(|e| e.program());
    let statements = quoted(statements.into_iter()).into_iter().map(|s| s + " (a statement)");
    [quoted(programs.into_iter()), statements.collect()].concat().join(", ")
}

fn link(path: &str) -> String {
    format!("[{path}](../{path})")
}

fn table(text: &mut String, head: &[&str], rows: impl Iterator<Item = Vec<String>>) {
    let _ = write!(text, "\n| {} |\n|{}\n", head.join(" | "), "---|".repeat(head.len()));
    for row in rows {
        let _ = writeln!(text, "| {} |", row.join(" | "));
    }
}

/// A row's cells behind its first.
fn cells(row: &Row) -> Vec<String> {
    let code = format!("crates/{}/{}", row.owner.name, row.code.file);
    vec![
        format!("`{}`, {}", row.definition, link(&row.definition_file)),
        format!("`{}`, {}", row.code.name, link(&code)),
        said(&row.edits),
    ]
}

/// The fields of `Demands`: name, record, and the files that its proof in Proved.antt takes laws
/// from.
fn demands(root: &Path) -> io::Result<Vec<Vec<String>>> {
    let stated = fs::read_to_string(root.join("crates/demands/specs/Demands.antt"))?;
    let at = "crates/demands/proofs/Proved.antt";
    let proved = fs::read_to_string(root.join(at))?;
    let whole = |text: &str| wrong(format!("{text} is not found in Demands.antt and Proved.antt"));
    let fields = stated.split_once("pub record Demands ").ok_or_else(|| whole("Demands"))?.1;
    let laws = used(root, &proved);
    let mut rows = Vec::new();
    for line in fields.lines().filter_map(|line| line.strip_prefix("  pub ")) {
        let (field, record) = line.split_once(" : ").ok_or_else(|| whole(line))?;
        let given = proved.rsplit_once("\ndemands = record {").ok_or_else(|| whole("demands"))?.1;
        let given = given.split_once(&format!("\n  {field} = ")).ok_or_else(|| whole(field))?.1;
        let mut proof = given.lines().next().unwrap_or_default().trim_end_matches(';');
        if let Some((_, own)) = proved.split_once(&format!("\n{proof} : {record}\n")) {
            proof = own.split("\n\n").next().unwrap_or(own);
        }
        let mut files: Vec<String> = Vec::new();
        for name in names(proof) {
            let law = laws.iter().find(|(law, at)| law == name && at.contains("/proofs/"));
            let file = law.map(|(_, at)| link(at)).unwrap_or_default();
            if !file.is_empty() && !files.contains(&file) {
                files.push(file);
            }
        }
        let files = if files.is_empty() { link(at) } else { files.join(", ") };
        rows.push(vec![format!("`{field}`"), format!("`{record}`"), files]);
    }
    Ok(rows)
}

const HEAD: &str = "# From claim to proof\n\n\
    Made by `hall documents` from crates/ and geomcore's source; a test says where it is no longer true. \
    A name with a slash is a must-fail edit, `crates/CRATE/must-fail/NAME.edit` or in the folder `must-fail-more/` beside it, which the prover must refuse; \
    [CONTRACTS.md](CONTRACTS.md) says what many of them show.\n";

const FUNCTIONS: &str = "\n## The functions of the Rust\n\n\
    An edit stands with a function where it changes its code, its definition, or what these rest on in their crates and no other row has.\n";

const DEMANDS: &str = "\n## Demands\n\n\
    Each field of `Demands` ([crates/demands/specs/Demands.antt](../crates/demands/specs/Demands.antt)), its record there, and the files whose laws its \
    proof in [Proved](../crates/demands/proofs/Proved.antt) takes.\n";

/// docs/INDEX.md
pub fn index(root: &Path) -> io::Result<String> {
    let all = all_crates(root)?;
    let rows = rows(root, &all)?;
    let (rust, added): (Vec<&Row>, Vec<&Row>) = rows.iter().partition(|row| row.place.is_some());
    let edits: Vec<&Edit> = all.iter().flat_map(|c| &c.edits).collect();
    let programs = edits.iter().filter(|e| e.program()).count();
    let gate = edits.iter().filter(|e| e.gate).count();
    let mut text = HEAD.to_string();
    let _ = writeln!(
        text,
        "\nOf {} edits {programs} are wrong programs: they change src/. The other {} are wrong statements: they change specs/, and no proof. \
         The gate tries {gate}, `.ci/edits` the other {}.",
        edits.len(),
        edits.len() - programs,
        edits.len() - gate,
    );
    text += FUNCTIONS;
    let head = ["function", "Rust", "definition", "code", "wrong programs"];
    let first = |row: &&Row| vec![format!("`{}`", row.of), row.place.clone().unwrap_or_default()];
    table(&mut text, &head, rust.iter().map(|row| [first(row), cells(row)].concat()));
    text += "\n## Not ported\n";
    let left = ported(root)?.into_iter().filter_map(|f| Some((left_out(&f.file, &f.name)?, f)));
    let place = |f: &Ported| format!("{}:{}", f.file, f.line);
    let left = left.map(|(why, f)| vec![format!("`{}`", f.name), place(&f), why.to_string()]);
    table(&mut text, &["function", "Rust", "why"], left);
    text += "\n## What document 01 puts in or adds\n";
    let head = ["what", "definition", "code", "wrong programs"];
    table(&mut text, &head, added.iter().map(|row| [vec![row.of.clone()], cells(row)].concat()));
    text += &others(&all, &rows);
    text += DEMANDS;
    table(&mut text, &["field", "record", "proved in"], demands(root)?.into_iter());
    Ok(text)
}

/// The edits that no row has, by crate.
fn others(all: &[Crate], rows: &[Row]) -> String {
    let named: BTreeSet<&str> = rows.iter().flat_map(|r| &r.edits).map(|e| &e.name[..]).collect();
    let mut text = "\n## The other edits, by crate\n".to_string();
    let line = |c: &Crate| {
        let rest = |program: bool| {
            let own = |e: &&Edit| e.program() == program && !named.contains(&e.name[..]);
            quoted(c.edits.iter().filter(own)).join(", ")
        };
        vec![format!("`{}`", c.name), rest(true), rest(false)]
    };
    let lines = all.iter().map(line).filter(|cells| cells[1..].concat() != "");
    table(&mut text, &["crate", "wrong programs", "wrong statements"], lines);
    text
}
