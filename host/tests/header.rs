//! include/pongewaru.h and host/src/port/exported.rs declare the crates' C functions, all of them
//! and no others, each under the one prefix; the header's refusals are those of the crate, and its
//! kinds and structs those that the host reads.
use host::compare::answer::LIST;
use host::people::documents::{crates, files, root};
use host::port::inquiries::{CRANK_SHOWN, SHOWN};
use host::truth::kind::Kind;
use std::collections::HashMap;
use std::fs;

const PREFIX: &str = "pongewaru_";

/// A file of the repository, its blanks and line ends made one blank each.
fn text(file: &str) -> String {
    let text = fs::read_to_string(root().join(file)).unwrap_or_else(|e| panic!("{file}: {e}"));
    text.split_whitespace().collect::<Vec<_>>().join(" ")
}

fn without_comments(text: &str) -> String {
    let mut parts = text.split("/*");
    let first = parts.next().unwrap_or_default().to_string();
    let code = parts.map(|part| part.split_once("*/").expect("a comment ends").1);
    code.fold(first, |all, part| all + part)
}

/// A C function as Rattle has it.
struct Function {
    own: String,
    name: String,
    /// Each argument's name and type.
    arguments: Vec<(String, String)>,
    said: String,
}

impl Function {
    fn read(own: &str, declared: &str) -> Function {
        let (name, rest) = declared.split_once('(').expect("arguments");
        let (arguments, rest) = rest.split_once(") -> ").expect("a result");
        let arguments = arguments.split(',').filter_map(|one| one.trim().split_once(": "));
        Function {
            own: own.to_string(),
            name: name.to_string(),
            arguments: arguments.map(|(x, kind)| (x.to_string(), kind.to_string())).collect(),
            said: rest.split_once(' ').expect("a contract").0.to_string(),
        }
    }

    fn in_c(&self) -> String {
        let number = |kind: &str| match kind {
            "f64" => "double",
            "u64" => "uint64_t",
            "u32" => "uint32_t",
            "i32" => "int32_t",
            "bool" => "bool",
            _ => panic!("{}: no {kind} in C", self.name),
        };
        let argument = |(x, kind): &(String, String)| match kind.as_str() {
            "&[u8]" => format!("const void *{x}, size_t {x}_len"),
            "&mut [u8]" => format!("void *{x}, size_t {x}_len"),
            kind => format!("{} {x}", number(kind)),
        };
        let arguments: Vec<String> = self.arguments.iter().map(argument).collect();
        format!("{} {}({});", number(&self.said), self.name, arguments.join(", "))
    }

    fn in_rust(&self) -> String {
        let argument = |(x, kind): &(String, String)| format!("{x}: {kind}");
        let arguments: Vec<String> = self.arguments.iter().map(argument).collect();
        let name = self.name.strip_prefix(PREFIX).expect("the prefix");
        format!("fn {name}({}) -> {};", arguments.join(", "), self.said)
    }
}

fn functions() -> Vec<Function> {
    let mut found = Vec::new();
    for own in crates(&root()).expect("crates.txt can be read") {
        let sources = files(&root().join("crates").join(&own).join("src"), ".rt");
        for path in sources.expect("a crate can be read") {
            let text = text(path.to_str().expect("a path in UTF-8"));
            let marked = text.split("#[unsafe(no_mangle)]").skip(1);
            let declared = marked.filter_map(|item| item.split_once("pub extern \"C\" fn "));
            found.extend(declared.map(|(_, declared)| Function::read(&own, declared)));
        }
    }
    found
}

#[test]
fn one_prefix() {
    for f in functions() {
        assert!(f.name.starts_with(PREFIX), "{} of {} has no prefix", f.name, f.own);
    }
}

/// The entry points in the first part, the layers in the second.
#[test]
fn header() {
    let header = without_comments(&text("include/pongewaru.h"));
    let (first, second) = header.split_once("#ifdef PONGEWARU_LAYERS").expect("two parts");
    let functions = functions();
    for f in &functions {
        let part = if f.own == "pongewaru" { first } else { second };
        assert!(part.contains(&f.in_c()), "include/pongewaru.h has no `{}`", f.in_c());
    }
    assert_eq!(header.matches(");").count(), functions.len(), "include/pongewaru.h has more");
}

#[test]
fn declared_for_the_host() {
    let exported = text("host/src/port/exported.rs");
    let functions = functions();
    for f in &functions {
        assert!(exported.contains(&f.in_rust()), "exported.rs has no `{}`", f.in_rust());
    }
    let declared = exported.split(" fn ").filter(|part| part.starts_with(char::is_lowercase));
    assert_eq!(declared.count(), functions.len(), "exported.rs has more");
}

/// How many doubles the members of a struct have.
fn doubles(members: &str, known: &HashMap<String, usize>) -> usize {
    let member = |member: &str| {
        let (kind, name) = member.trim().rsplit_once(' ').expect("a kind and a name");
        let count =
            name.split_once('[').map_or(1, |(_, n)| n.trim_end_matches(']').parse().unwrap());
        count * if kind == "double" { 1 } else { known[kind] }
    };
    members.split(';').filter(|one| !one.trim().is_empty()).map(member).sum()
}

/// Each struct has as many doubles as the host reads, and as many bytes as the header says.
#[test]
fn structs() {
    let header = text("include/pongewaru.h");
    let mut known = HashMap::new();
    for (at, _) in header.match_indices("struct ") {
        let Some((name, rest)) =
            header[at..].split_once(" {").filter(|(n, _)| !n.contains([';', ',']))
        else {
            continue;
        };
        let count = doubles(&without_comments(rest.split_once("};").expect("an end").0), &known);
        let comment = header[..at].rsplit_once("/* ").expect("a comment").1;
        assert!(comment.starts_with(&format!("{} bytes: ", 8 * count)), "{name}: {comment}");
        known.insert(name.to_string(), count);
    }
    let wanted = [("list", LIST), ("shown", SHOWN), ("crank_shown", CRANK_SHOWN)];
    for (name, count) in wanted {
        assert_eq!(known[&format!("struct {PREFIX}{name}")], count, "{name}");
    }
    assert!(header.contains("{ double place; double multiplicity; double kind; };"));
    for kind in Kind::ALL {
        let wanted = format!("#define PONGEWARU_{} {} ", kind.word().to_uppercase(), kind.number());
        assert!(header.contains(&wanted), "include/pongewaru.h has no `{wanted}`");
    }
}

/// `NotASum` as `NOT_A_SUM`.
fn shouted(name: &str) -> String {
    let mut out = String::new();
    for (at, c) in name.char_indices() {
        if at > 0 && c.is_uppercase() {
            out.push('_');
        }
        out.extend(c.to_uppercase());
    }
    out
}

#[test]
fn refusals() {
    let (header, source) = (text("include/pongewaru.h"), text("crates/refusals/src/lib.rt"));
    let named = source.split(',').filter_map(|one| one.rsplit_once(" = "));
    let all: Vec<_> = named.filter(|(_, number)| number.parse::<u32>().is_ok()).collect();
    assert_eq!(all.len(), 17);
    for (before, number) in all {
        let name = before.rsplit(' ').next().expect("a name");
        let wanted = format!("#define PONGEWARU_{} {number} ", shouted(name));
        assert!(header.contains(&wanted), "include/pongewaru.h has no `{wanted}`");
    }
}
