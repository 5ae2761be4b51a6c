//! Plain SVG, for the picture of the layers and those of records.

/// The width of a character at 12 pixels, monospace.
pub const WIDTH: f64 = 7.3;

/// A whole picture; what made it stands in a comment.
pub fn document(size: [f64; 2], made: &str, style: &str, body: &str) -> String {
    let [width, height] = size.map(|n| format!("{n:.0}"));
    format!(
        "<svg xmlns=\"http://www.w3.org/2000/svg\" width=\"{width}\" height=\"{height}\" \
         viewBox=\"0 0 {width} {height}\">\n\
         <!-- {made} -->\n<style>\n{style}</style>\n{body}</svg>\n"
    )
}

/// A text with what has a meaning in SVG written otherwise.
pub fn escaped(text: &str) -> String {
    text.replace('&', "&amp;").replace('<', "&lt;").replace('>', "&gt;")
}

/// Words in lines of at most so many characters; one that is longer goes on in the next line.
pub fn wrapped(text: &str, most: usize) -> Vec<String> {
    let mut lines = vec![String::new()];
    for word in text.split(' ') {
        let last = lines.len() - 1;
        match lines[last].is_empty() {
            true => lines[last] += word,
            false if lines[last].len() + 1 + word.len() <= most => {
                lines[last] += &format!(" {word}")
            }
            false => lines.push(word.to_string()),
        }
        while let Some((cut, _)) = lines[lines.len() - 1].char_indices().nth(most) {
            let rest = lines.last_mut().map(|line| line.split_off(cut));
            lines.extend(rest);
        }
    }
    lines
}
