//! A text in rows, with marks under a part of it.
use crate::people::table::COLUMNS;
use std::ops::Range;

/// The rows behind the first one are so far in.
const INDENT: &str = "    ";

/// A character of a text: the bytes that it has there, and how it is shown.
struct Character {
    bytes: Range<usize>,
    shown: String,
}

/// What is no UTF-8 is a character for each byte.
fn characters(text: &[u8]) -> Vec<Character> {
    let mut all: Vec<Character> = Vec::new();
    let mut add = |size: usize, shown: String| {
        let at = all.last().map_or(0, |last| last.bytes.end);
        all.push(Character { bytes: at..at + size, shown });
    };
    for chunk in text.utf8_chunks() {
        chunk.valid().chars().for_each(|c| add(c.len_utf8(), shown(c)));
        chunk.invalid().iter().for_each(|byte| add(1, format!("\\x{byte:02x}")));
    }
    all
}

/// As it is where it takes one column on every screen, else as an escape.
fn shown(c: char) -> String {
    let narrow = matches!(c, ' '..='\u{10FF}' | '\u{2010}'..='\u{22FF}');
    match c.escape_debug().len() {
        1 if narrow => c.to_string(),
        _ if c == '"' || c == '\'' => c.to_string(),
        1 => c.escape_unicode().to_string(),
        _ => c.escape_debug().to_string(),
    }
}

/// The text as it is shown, in one row.
pub fn row(text: &[u8]) -> String {
    characters(text).into_iter().map(|c| c.shown).collect()
}

/// Rows of at most COLUMNS: the first begins with `front`, the last ends with `behind`. Under the
/// characters of the part, which may be the place behind the text, are marks.
pub fn rows(front: &str, text: &[u8], behind: &str, part: Option<Range<usize>>) -> String {
    let end = text.len()..text.len() + 1;
    let behind = Character { bytes: end, shown: behind.to_string() };
    let part = part.unwrap_or_default();
    let (mut all, mut row) = (String::new(), Row::new(front));
    for character in characters(text).into_iter().chain([behind]) {
        let here = character.bytes.start < part.end && part.start < character.bytes.end;
        // a mark wants a column, even where nothing is shown
        let width = character.shown.chars().count().max(usize::from(here));
        if row.width + width > COLUMNS {
            all += &std::mem::replace(&mut row, Row::new(INDENT)).lines();
        }
        row.shown += &character.shown;
        row.width += width;
        let first = character.bytes.contains(&part.start);
        row.marks += &(0..width).map(|i| mark(here, first && i == 0)).collect::<String>();
    }
    all + &row.lines()
}

fn mark(here: bool, first: bool) -> char {
    match (here, first) {
        (false, _) => ' ',
        (true, true) => '^',
        (true, false) => '~',
    }
}

/// A row that is being filled, and the marks under it.
struct Row {
    shown: String,
    marks: String,
    width: usize,
}

impl Row {
    fn new(front: &str) -> Row {
        let width = front.chars().count();
        Row { shown: front.to_string(), marks: " ".repeat(width), width }
    }

    /// With its end, and that of its marks.
    fn lines(&self) -> String {
        let [shown, marks] = [&self.shown, &self.marks].map(|line| line.trim_end());
        if marks.is_empty() { format!("{shown}\n") } else { format!("{shown}\n{marks}\n") }
    }
}

#[cfg(test)]
mod tests {
    use super::*;

    #[test]
    fn marks_stand_under_their_characters() {
        let known: [(&[u8], Range<usize>, &str); 9] = [
            (b"2*x+1", 2..3, "  2*x+1\n    ^\n"),
            (b"1+t^5-2", 2..5, "  1+t^5-2\n    ^~~\n"),
            (b"(t-2", 4..5, "  (t-2\n      ^\n"),
            (b"", 0..1, "\n  ^\n"),
            ("2×t–x".as_bytes(), 7..8, "  2×t–x\n      ^\n"),
            (b"t\t-x", 3..4, "  t\\t-x\n      ^\n"),
            (b"t\t-x", 1..2, "  t\\t-x\n   ^~\n"),
            (b"t\xC3-x\0", 1..2, "  t\\xc3-x\\0\n   ^~~~\n"),
            ("\u{FF54}\u{301}t".as_bytes(), 3..5, "  \\u{ff54}\\u{301}t\n          ^~~~~~~\n"),
        ];
        for (text, part, wanted) in known {
            assert_eq!(rows("  ", text, "", Some(part)), wanted);
        }
        assert_eq!(rows("1: ", b"t-2", " = 0", None), "1: t-2 = 0\n");
        assert_eq!(
            row("\\ ' \" \u{A0} \u{200B} \u{7F} T²".as_bytes()),
            "\\\\ ' \" \\u{a0} \\u{200b} \\u{7f} T²"
        );
    }

    /// A part in two rows, one that is a whole row, and the place behind a full one.
    #[test]
    fn rows_have_a_hundred_columns() {
        let text = b"(t-2)*".repeat(40);
        let told = rows("1 formula: ", &text, " = 0", Some(80..100));
        let lines: Vec<&str> = told.lines().collect();
        let widths: Vec<usize> = lines.iter().map(|line| line.chars().count()).collect();
        assert_eq!(widths, [100, 100, 100, 15, 63]);
        assert_eq!(lines[1].trim_start(), format!("^{}", "~".repeat(8)));
        assert_eq!(lines[3], format!("    {}", "~".repeat(11)));
        let shown: String = [0, 2, 4].map(|i| lines[i].trim_start()).concat();
        assert_eq!(shown, format!("1 formula: {} = 0", "(t-2)*".repeat(40)));
        let full = rows("", &b"t".repeat(100), "", Some(100..101));
        assert_eq!(full, format!("{}\n\n    ^\n", "t".repeat(100)));
    }
}
