//! Counters for the branches of geomcore's functions: each test of an `if`, a `while`, a match
//! guard or a closure that says yes or no (parts joined by `&&` and `||` one by one), each `Option`
//! that a `let` takes apart, each `for` and each arm of a `match`.
use std::fmt::Write;

/// A branch: its text in geomcore's file, and the counter's name in `coverage`.
pub struct Branch {
    pub file: &'static str,
    pub function: String,
    pub line: usize,
    pub text: String,
    pub counter: &'static str,
}

/// Functions that the port leaves out, or that document 01 puts something else in for.
const LEFT_OUT: [&str; 1] = ["solve_trig_linear"];

/// Closures handed to these say yes or no.
const YES_OR_NO: [&str; 6] = ["any", "all", "filter", "take_while", "is_some_and", "is_none_or"];

/// Text to put in, and its place in an order that keeps nested ones nested.
struct Put {
    at: usize,
    opens: bool,
    length: usize,
    text: String,
}

pub struct Counted<'a> {
    file: &'static str,
    text: &'a str,
    /// The same without comments.
    bare: String,
    only: Option<&'static str>,
    puts: Vec<Put>,
    branches: &'a mut Vec<Branch>,
}

/// The text with counters, whose numbers go on from those of `branches`; with `only`, those of that
/// function alone.
pub fn counted(
    file: &'static str,
    text: &str,
    only: Option<&'static str>,
    branches: &mut Vec<Branch>,
) -> String {
    let bare = without_comments(text);
    let mut all = Counted { file, text, bare, only, puts: Vec::new(), branches };
    all.find();
    all.written()
}

/// Comments become spaces, byte for byte.
fn without_comments(text: &str) -> String {
    let bare = text.split_inclusive('\n').map(|line| match line.find("//") {
        Some(at) => line[..at].to_string() + &" ".repeat(line.len() - at - 1) + "\n",
        None => line.to_string(),
    });
    bare.collect()
}

fn is_word(byte: u8) -> bool {
    byte.is_ascii_alphanumeric() || byte == b'_'
}

impl Counted<'_> {
    fn byte(&self, at: usize) -> u8 {
        self.bare.as_bytes().get(at).copied().unwrap_or(b' ')
    }

    /// The first place from `at` on, outside of brackets opened there, where one of these begins.
    fn next(&self, mut at: usize, ends: &[&str]) -> usize {
        let mut depth = 0;
        loop {
            let rest = &self.bare[at..];
            if depth == 0 && ends.iter().any(|end| rest.starts_with(end)) {
                return at;
            }
            match self.byte(at) {
                b'(' | b'[' | b'{' => depth += 1,
                b')' | b']' | b'}' => depth -= 1,
                _ => assert!(!rest.is_empty(), "{}: no {ends:?}", self.file),
            }
            at += rest.chars().next().map_or(1, char::len_utf8);
        }
    }

    fn trimmed(&self, from: usize, to: usize) -> (usize, usize) {
        let part = &self.bare[from..to];
        let start = from + (part.len() - part.trim_start().len());
        (start, start + part.trim().len())
    }

    fn find(&mut self) {
        let bare = self.bare.clone();
        for at in bare.char_indices().map(|(at, _)| at) {
            let rest = &bare[at..];
            let begins = at == 0 || !is_word(self.byte(at - 1));
            if begins && (rest.starts_with("if ") || rest.starts_with("while ")) {
                let from = at + rest.find(' ').unwrap();
                let to = self.next(from, &["{", "=>"]);
                self.asked(from, to);
            } else if begins && rest.starts_with("for ") {
                let from = self.next(at, &[" in "]) + 4;
                let to = self.next(from, &["{"]);
                self.wrap("turns", from, to);
            } else if begins && rest.starts_with("else {") {
                self.let_else(at);
            } else if rest.starts_with("=> ") {
                self.arm(at);
            } else if rest.starts_with(".then(") || rest.starts_with(".then_some(") {
                self.receiver(at);
            } else if rest.starts_with('.') {
                self.closure(at, rest);
            }
        }
    }

    /// The question of an `if` or a `while`.
    fn asked(&mut self, from: usize, to: usize) {
        if self.bare[from..to].trim_start().starts_with("let ") {
            let from = self.next(from, &[" = "]) + 3;
            self.wrap("some", from, to);
        } else {
            self.tests(from, to);
        }
    }

    /// `let PATTERN = VALUE else`, but not the else of an `if`.
    fn let_else(&mut self, at: usize) {
        if !self.bare[..at].trim_end().ends_with('}') {
            let start = self.bare[..at].rfind("let ").expect("let before its else");
            let from = self.next(start, &[" = "]) + 3;
            self.wrap("some", from, at);
        }
    }

    /// A closure that says yes or no.
    fn closure(&mut self, at: usize, rest: &str) {
        let name = YES_OR_NO.iter().find(|name| rest[1..].starts_with(&format!("{name}(|")));
        if let Some(name) = name {
            let open = at + 1 + name.len();
            let pattern_ends = open + 2 + self.bare[open + 2..].find('|').unwrap();
            let to = self.next(open + 1, &[")"]);
            self.tests(pattern_ends + 1, to);
        }
    }

    /// What stands before `.then(`.
    fn receiver(&mut self, at: usize) {
        let (mut from, mut depth) = (at, 0);
        while depth > 0 || !self.byte(from - 1).is_ascii_whitespace() {
            from -= 1;
            match self.byte(from) {
                b')' | b']' => depth += 1,
                b'(' | b'[' => depth -= 1,
                _ => (),
            }
        }
        self.tests(from, at);
    }

    /// The parts of a test.
    fn tests(&mut self, from: usize, to: usize) {
        let (from, to) = self.trimmed(from, to);
        let (mut start, mut parts) = (from, Vec::new());
        let mut at = from;
        let mut depth = 0;
        while at < to {
            match self.byte(at) {
                b'(' | b'[' | b'{' => depth += 1,
                b')' | b']' | b'}' => depth -= 1,
                b'&' | b'|' if depth == 0 && self.byte(at + 1) == self.byte(at) => {
                    parts.push((start, at));
                    start = at + 2;
                    at += 1;
                }
                _ => (),
            }
            at += 1;
        }
        parts.push((start, to));
        let inner = from + self.bare[from..to].starts_with('!') as usize;
        let closed = self.byte(inner) == b'(' && self.next(inner + 1, &[")"]) + 1 == to;
        match parts[..] {
            [_] if closed => self.tests(inner + 1, to - 1),
            [_] => self.wrap("test", from, to),
            _ => parts.into_iter().for_each(|(from, to)| self.tests(from, to)),
        }
    }

    /// The pattern and the answer of a match arm.
    fn arm(&mut self, at: usize) {
        let line = self.bare[..at].rfind('\n').map_or(0, |n| n + 1);
        let Some(id) = self.branch("arm", line, at) else { return };
        let (from, _) = self.trimmed(at + 2, self.bare.len());
        let count = format!("crate::runs::coverage::arm({id});");
        if self.byte(from) == b'{' {
            self.put(from + 1, true, usize::MAX, count);
        } else {
            let to = self.next(from, &[",", "}"]);
            self.put(from, true, to - from, format!("{{ {count} "));
            self.put(to, false, to - from, " }".to_string());
        }
    }

    fn wrap(&mut self, counter: &'static str, from: usize, to: usize) {
        let (from, to) = self.trimmed(from, to);
        if let Some(id) = self.branch(counter, from, to) {
            self.put(from, true, to - from, format!("crate::runs::coverage::{counter}({id}, "));
            self.put(to, false, to - from, ")".to_string());
        }
    }

    /// The number of a new branch; none where its function is left out.
    fn branch(&mut self, counter: &'static str, from: usize, to: usize) -> Option<usize> {
        let name = self.bare[..from].rfind("fn ").map_or("", |at| {
            let name = &self.bare[at + 3..];
            &name[..name.bytes().take_while(|b| is_word(*b)).count()]
        });
        if LEFT_OUT.contains(&name) || self.only.is_some_and(|only| only != name) {
            return None;
        }
        let words: Vec<&str> = self.bare[from..to].split_whitespace().collect();
        let text = words
            .join(" ")
            .replace("crate::truth::methods::", "")
            .replace("crate::truth::exact::", "");
        let line = 1
            + self.text[..from].matches('\n').count()
            + self.bare[from..to].bytes().take_while(|b| *b == b'\n').count();
        let (file, function) = (self.file, name.to_string());
        self.branches.push(Branch { file, function, line, text, counter });
        Some(self.branches.len() - 1)
    }

    fn put(&mut self, at: usize, opens: bool, length: usize, text: String) {
        self.puts.push(Put { at, opens, length, text });
    }

    fn written(&mut self) -> String {
        let order = |put: &Put| match put.opens {
            true => (put.at, true, usize::MAX - put.length),
            false => (put.at, false, put.length),
        };
        self.puts.sort_by_key(order);
        let (mut out, mut at) = (String::new(), 0);
        for put in &self.puts {
            out += &self.text[at..put.at];
            out += &put.text;
            at = put.at;
        }
        out + &self.text[at..]
    }
}

/// The branches as a constant.
pub fn table(branches: &[Branch]) -> String {
    let mut out = format!("pub const BRANCHES: [Branch; {}] = [\n", branches.len());
    for Branch { file, function, line, text, counter } in branches {
        writeln!(
            out,
            "    Branch {{ file: {file:?}, function: {function:?}, line: {line}, text: {text:?}, counter: {counter:?} }},"
        )
        .unwrap();
    }
    out + "];\n"
}
