//! One copy of a file for all mistakes: a function that a mistake changes stands there once more
//! for it, under a name with the mistake's number, and the number at hand chooses when it is called.
use std::ops::Range;

/// The file, and the number of each mistake with the file as it has it. A mistake changes functions
/// alone.
pub fn chosen(text: &str, mistakes: &[(usize, String)]) -> String {
    let places = functions(text);
    let mut found: Vec<Vec<(usize, &str)>> = vec![Vec::new(); places.len()];
    for (number, other) in mistakes {
        let theirs = functions(other);
        assert!(outside(text, &places) == outside(other, &theirs), "mistake {number}: no function");
        for (n, (ours, theirs)) in places.iter().zip(theirs).enumerate() {
            if text[ours.clone()] != other[theirs.clone()] {
                found[n].push((*number, &other[theirs]));
            }
        }
    }
    let mut out = String::new();
    let mut at = 0;
    for (place, others) in places.into_iter().zip(found) {
        out += &text[at..place.start];
        at = place.end;
        let function = &text[place];
        match others.is_empty() {
            true => out += function,
            false => out += &choice(function, &others),
        }
    }
    out + &text[at..]
}

/// Where the functions of a file stand, each from `pub fn` to the brace at its own depth.
fn functions(text: &str) -> Vec<Range<usize>> {
    let mut all = Vec::new();
    let mut at = 0;
    while let Some(n) = text[at..].find("pub fn ") {
        let start = at + n;
        let line = text[..start].rfind('\n').map_or(0, |n| n + 1);
        let end = format!("\n{}}}\n", &text[line..start]);
        let n = text[start..].find(&end).unwrap_or_else(|| panic!("no end: {}", &text[start..]));
        at = start + n + end.len();
        all.push(start..at);
    }
    all
}

/// What stands between them.
fn outside<'a>(text: &'a str, places: &[Range<usize>]) -> Vec<&'a str> {
    let starts = std::iter::once(0).chain(places.iter().map(|p| p.end));
    let ends = places.iter().map(|p| p.start).chain(std::iter::once(text.len()));
    starts.zip(ends).map(|(start, end)| &text[start..end]).collect()
}

/// A function, once for each mistake that changes it, and the choice among them.
fn choice(function: &str, others: &[(usize, &str)]) -> String {
    let name: String = function["pub fn ".len()..]
        .chars()
        .take_while(|c| c.is_alphanumeric() || *c == '_')
        .collect();
    let numbered = |number: usize, text: &str| {
        text.replacen(&format!("pub fn {name}"), &format!("pub fn {name}_{number}"), 1)
    };
    let (head, names) = signature(function);
    let before = match names.first() {
        Some(first) if first == "self" => "self.",
        _ if function.ends_with("\n    }\n") => "Self::",
        _ => "",
    };
    let handed = names.iter().filter(|n| *n != "self").cloned().collect::<Vec<_>>().join(", ");
    let call = |number: usize| format!("{before}{name}_{number}({handed})");
    let mut out = format!("{head} {{\n    match crate::runs::mutants::chosen() {{\n");
    for (number, _) in others {
        out += &format!("        {number} => {},\n", call(*number));
    }
    out += &format!("        _ => {},\n    }}\n}}\n\n{}", call(0), numbered(0, function));
    others.iter().fold(out, |out, (number, text)| out + "\n" + &numbered(*number, text))
}

/// A function up to its body, and the names of what it is handed.
fn signature(function: &str) -> (&str, Vec<String>) {
    let text = function.replace("->", "  ");
    let open = text.find('(').unwrap();
    let (mut depth, mut parts) = (0, vec![String::new()]);
    let mut close = open;
    for (n, c) in text[open..].char_indices() {
        depth += match c {
            '(' | '[' | '<' => 1,
            ')' | ']' | '>' => -1,
            _ => 0,
        };
        if depth == 0 {
            close = open + n;
            break;
        }
        match c {
            ',' if depth == 1 => parts.push(String::new()),
            _ => parts.last_mut().unwrap().push(c),
        }
    }
    let name = |part: &String| {
        let part = part.trim_start_matches('(').split(':').next().unwrap().trim();
        part.trim_start_matches('&').trim_start_matches("mut ").trim().to_string()
    };
    let names = parts.iter().map(name).filter(|n| !n.is_empty()).collect();
    let body = close + function[close..].find(" {\n").unwrap();
    (&function[..body], names)
}
