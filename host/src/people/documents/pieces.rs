//! The crates' text in pieces, each with a name: functions and tables of src/, definitions of
//! specs/; and the must-fail edits, each with the line that it changes.
use super::files;
use std::collections::BTreeSet;
use std::ops::Range;
use std::path::Path;
use std::{fs, io};

/// A function, a table or a definition.
pub struct Piece {
    /// A method has its type's name before it: `Scaled::new`.
    pub name: String,
    /// Below its crate's folder.
    pub file: String,
    lines: Range<usize>,
    pub text: String,
    /// Public, and no C function.
    pub public: bool,
}

impl Piece {
    pub fn last_name(&self) -> &str {
        self.name.rsplit("::").next().unwrap_or(&self.name)
    }

    fn type_name(&self) -> Option<&str> {
        self.name.split_once("::").map(|(own, _)| own)
    }

    fn is_function(&self) -> bool {
        self.file.ends_with(".rt") && self.last_name().chars().any(char::is_lowercase)
    }
}

/// What the index needs of a crate.
pub struct Crate {
    pub name: String,
    pub pieces: Vec<Piece>,
    /// Each name that a file uses, with the file that has it: `(file, name, path)`.
    pub uses: Vec<(String, String, String)>,
    pub edits: Vec<Edit>,
}

/// A must-fail edit.
pub struct Edit {
    /// As documents name it: `CRATE/NAME`.
    pub name: String,
    pub file: String,
    line: usize,
    /// The gate tries it: it does not stand in must-fail-more/.
    pub gate: bool,
}

impl Edit {
    /// A wrong program; a wrong statement if not.
    pub fn program(&self) -> bool {
        self.file.starts_with("src/")
    }
}

/// What a line of Rattle or Rust begins: a function's or a table's name.
pub fn begun(line: &str) -> Option<&str> {
    let mut rest = line.trim_start();
    for word in ["pub ", "pub(crate) ", "extern \"C\" "] {
        rest = rest.strip_prefix(word).unwrap_or(rest);
    }
    let rest = ["fn ", "const ", "static "].iter().find_map(|word| rest.strip_prefix(word))?;
    rest.split(['(', '<', ':']).next()
}

/// The type that a line begins the methods of.
pub fn methods_of(line: &str) -> Option<&str> {
    line.strip_prefix("impl ")?.split([' ', '<']).next()
}

/// The functions and tables of a file in Rattle: each ends with the first bracket as far in as its
/// first line.
fn of_source(file: &str, text: &str) -> Vec<Piece> {
    let lines: Vec<&str> = text.lines().collect();
    let (mut found, mut own) = (Vec::new(), "");
    for (at, line) in lines.iter().enumerate() {
        own = methods_of(line).unwrap_or(if line.starts_with('}') { "" } else { own });
        let Some(name) = begun(line) else { continue };
        let margin = &line[..line.len() - line.trim_start().len()];
        let ends = [format!("{margin}}}"), format!("{margin}];")];
        let length = lines[at..].iter().position(|line| ends.iter().any(|end| line == end));
        let end = at + length.filter(|_| !line.ends_with(';')).map_or(1, |n| n + 1);
        found.push(Piece {
            name: if own.is_empty() { name.to_string() } else { format!("{own}::{name}") },
            file: file.to_string(),
            lines: at..end,
            text: lines[at..end].join("\n"),
            public: line.trim_start().starts_with("pub fn "),
        });
    }
    found
}

/// The definitions of a file: each ends where a line is empty.
fn of_specs(file: &str, text: &str) -> Vec<Piece> {
    let lines: Vec<&str> = text.lines().collect();
    let ends = |line: &str| line.trim().is_empty() || line.starts_with("--");
    let mut found = Vec::new();
    let mut at = 0;
    while at < lines.len() {
        let length = lines[at..].iter().position(|line| ends(line)).unwrap_or(lines.len() - at);
        let mut words = lines[at].split_whitespace();
        let kinds = ["unfoldable", "abbrev", "pub", "record", "data"];
        if let Some(name) = words.find(|word| !kinds.contains(word)).filter(|_| length > 0) {
            found.push(Piece {
                name: name.to_string(),
                file: file.to_string(),
                lines: at..at + length,
                text: lines[at..at + length].join("\n"),
                public: false,
            });
        }
        at += length.max(1);
    }
    found
}

/// `use Rattle.CRATE.FOLDER.FILE.{..}` and `use Rattle.CRATE.FOLDER.FILE as NAME`: the names, and the
/// file that has them. The kit's libraries are left out: they have no folder below crates/.
pub fn used(root: &Path, text: &str) -> Vec<(String, String)> {
    let mut found = Vec::new();
    for line in text.lines() {
        let Some((_, rest)) = line.split_once("use Rattle.") else { continue };
        let rest = rest.trim_end_matches(';');
        let (path, names) = match rest.split_once(".{") {
            Some((path, names)) => (path, names.trim_end_matches('}')),
            None => rest.split_once(" as ").unwrap_or((rest, "")),
        };
        let Some((owner, path)) = path.split_once('.') else { continue };
        if !root.join("crates").join(owner).exists() {
            continue;
        }
        let path = format!("crates/{owner}/{}.antt", path.replace('.', "/"));
        found.extend(names.split(", ").map(|name| (name.to_string(), path.clone())));
    }
    found
}

/// The names that a text is made of.
pub fn names(text: &str) -> impl Iterator<Item = &str> {
    text.split(|c: char| c.is_whitespace() || "(){}[],;.&".contains(c)).filter(|s| !s.is_empty())
}

fn edit(owner: &str, path: &Path, folder: &Path) -> io::Result<Edit> {
    let text = fs::read_to_string(path)?;
    let said = |word: &str| text.lines().find_map(|line| line.strip_prefix(word));
    let (file, old) = (said("file: ").unwrap_or_default(), said("old: ").unwrap_or_default());
    let changed = fs::read_to_string(folder.join(file))?;
    let before = changed.split_once(old).map_or("", |(before, _)| before);
    let name = path.file_stem().unwrap_or_default().to_string_lossy();
    Ok(Edit {
        name: format!("{owner}/{name}"),
        file: file.to_string(),
        line: before.matches('\n').count(),
        gate: path.parent().is_some_and(|folder| folder.ends_with("must-fail")),
    })
}

/// All of a crate.
pub fn read(root: &Path, name: &str) -> io::Result<Crate> {
    let folder = root.join("crates").join(name);
    let mut all =
        Crate { name: name.to_string(), pieces: Vec::new(), uses: Vec::new(), edits: Vec::new() };
    let within = |part: &str, ending: &str| match folder.join(part) {
        path if path.exists() => files(&path, ending),
        _ => Ok(Vec::new()),
    };
    for (part, ending) in [("src", ".rt"), ("specs", ".antt")] {
        for path in within(part, ending)? {
            let text = fs::read_to_string(&path)?;
            let file = path.strip_prefix(&folder).unwrap_or(&path).to_string_lossy().into_owned();
            let pieces = if part == "src" { of_source } else { of_specs };
            all.pieces.extend(pieces(&file, &text));
            all.uses
                .extend(used(root, &text).into_iter().map(|(name, at)| (file.clone(), name, at)));
        }
    }
    for part in ["must-fail", "must-fail-more"] {
        for path in within(part, ".edit")? {
            all.edits.push(edit(name, &path, &folder)?);
        }
    }
    all.edits.sort_by_key(|e| (!e.gate, e.name.clone()));
    Ok(all)
}

impl Crate {
    /// Whether one piece calls or names another one.
    fn calls(&self, from: &Piece, to: &Piece) -> bool {
        if from.file.ends_with(".antt") != to.file.ends_with(".antt") {
            return false;
        }
        if !to.is_function() {
            return names(&from.text).any(|name| name == to.name);
        }
        let twin = |p: &Piece| p.name != to.name && p.last_name() == to.last_name();
        let other = from.type_name() != to.type_name() && self.pieces.iter().any(twin);
        let called = format!("{}(", to.last_name());
        let mut places = from.text.match_indices(&called).map(|(at, _)| &from.text[..at]);
        let module = to.file.trim_start_matches("src/").trim_end_matches(".rt");
        places.any(|before| {
            let mut path = before.rsplit(|c: char| !c.is_alphanumeric() && c != '_' && c != ':');
            let path = path.next().unwrap_or_default();
            let own = path.starts_with(char::is_uppercase) || path == format!("{module}::");
            let method = other && before.ends_with('.');
            (path.is_empty() || own) && !before.ends_with("fn ") && !method
        })
    }

    /// Where a piece stands: `CRATE/FILE::NAME`.
    pub fn place(&self, piece: &Piece) -> String {
        format!("{}/{}::{}", self.name, piece.file, piece.name)
    }

    /// The pieces that one rests on in its crate, itself among them, as far as they are not taken by
    /// others.
    pub fn reached<'a>(&'a self, first: &'a Piece, taken: &BTreeSet<String>) -> Vec<&'a Piece> {
        let mut found = vec![first];
        let mut at = 0;
        while at < found.len() {
            let from = found[at];
            let next = self.pieces.iter().filter(|to| {
                let other = taken.contains(&self.place(to));
                !other && !found.iter().any(|p| std::ptr::eq(*p, *to)) && self.calls(from, to)
            });
            let next: Vec<&Piece> = next.collect();
            found.extend(next);
            at += 1;
        }
        found
    }

    /// The edits that change one of these pieces.
    pub fn edits_of(&self, pieces: &[&Piece]) -> Vec<&Edit> {
        let within = |e: &Edit, p: &Piece| p.file == e.file && p.lines.contains(&e.line);
        self.edits.iter().filter(|e| pieces.iter().any(|p| within(e, p))).collect()
    }
}
