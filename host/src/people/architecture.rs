//! The crates by layer, as crates.txt has them: a table in docs/ARCHITECTURE.md between two marks,
//! and a picture, docs/layers.svg. tests/documents.rs says where one is no longer true.
use crate::people::documents::listed;
use crate::people::picture;
use std::collections::BTreeSet;
use std::path::Path;
use std::{fs, io};

/// A crate, by the numbers of others: each stands behind those that it rests on.
pub struct Crate {
    pub name: String,
    pub layer: usize,
    /// As crates.txt has them, without the kit's libraries.
    pub needs: Vec<usize>,
    /// Those that no other one of them implies.
    pub direct: Vec<usize>,
}

pub struct Layers {
    /// The name, and what is in it.
    pub titles: Vec<(String, String)>,
    pub crates: Vec<Crate>,
}

impl Layers {
    /// From the text of crates.txt: a comment begins a layer.
    pub fn read(text: &str) -> Layers {
        let mut layers = Layers { titles: Vec::new(), crates: Vec::new() };
        // all that each crate rests on
        let mut below: Vec<BTreeSet<usize>> = Vec::new();
        for line in text.lines() {
            if let Some(title) = line.strip_prefix("# ") {
                let (name, words) = title.split_once(": ").unwrap_or((title, ""));
                layers.titles.push((name.to_string(), words.trim_end_matches('.').to_string()));
            } else if let Some((name, needs)) = listed(line) {
                let needs: Vec<usize> =
                    needs.split_whitespace().filter_map(|need| layers.number(need)).collect();
                let implied = |need: &usize| needs.iter().any(|by| below[*by].contains(need));
                let direct = needs.iter().copied().filter(|need| !implied(need)).collect();
                let mut all: BTreeSet<usize> = needs.iter().copied().collect();
                needs.iter().for_each(|need| all.extend(&below[*need]));
                below.push(all);
                let layer = layers.titles.len().saturating_sub(1);
                layers.crates.push(Crate { name: name.to_string(), layer, needs, direct });
            }
        }
        layers
    }

    fn number(&self, name: &str) -> Option<usize> {
        self.crates.iter().position(|c| c.name == name)
    }

    /// One row for each layer: its crates, and those that each rests on.
    fn table(&self) -> String {
        let count = |of: fn(&Crate) -> usize| self.crates.iter().map(of).sum::<usize>();
        let (shown, all) = (count(|c| c.direct.len()), count(|c| c.needs.len()));
        let mut text = format!(
            "{shown} of {all} dependencies are shown: the others follow from these.\n\n\
             | layer | crates → those that they rest on |\n|---|---|\n"
        );
        let name = |c: &usize| format!("`{}`", self.crates[*c].name);
        for (layer, (title, words)) in self.titles.iter().enumerate() {
            let own = (0..self.crates.len()).filter(|c| self.crates[*c].layer == layer);
            let own = own.map(|c| match &self.crates[c].direct[..] {
                [] => name(&c),
                on => {
                    format!("{} → {}", name(&c), on.iter().map(name).collect::<Vec<_>>().join(", "))
                }
            });
            text += &format!("| {title}: {words} | {} |\n", own.collect::<Vec<_>>().join("; "));
        }
        text
    }
}

/// Around what is made in the document.
const MARKS: [&str; 2] =
    ["<!-- made from crates.txt by `hall documents` -->\n\n", "\n<!-- end -->\n"];

pub const DOCUMENT: &str = "docs/ARCHITECTURE.md";

/// The document with what stands between the marks made anew.
fn renewed(document: &str, made: &str) -> Option<String> {
    let (before, rest) = document.split_once(MARKS[0])?;
    let (_, after) = rest.split_once(MARKS[1])?;
    Some([before, MARKS[0], made, MARKS[1], after].concat())
}

/// Each made document: its file, and the text that it should have.
pub fn made(root: &Path) -> io::Result<Vec<(&'static str, String)>> {
    let layers = Layers::read(&fs::read_to_string(root.join("crates.txt"))?);
    let document = fs::read_to_string(root.join(DOCUMENT))?;
    let document = renewed(&document, &layers.table())
        .ok_or_else(|| io::Error::other(format!("{DOCUMENT} has no marks")))?;
    Ok(vec![(DOCUMENT, document), ("docs/layers.svg", picture::drawn(&layers))])
}

#[cfg(test)]
mod tests {
    use super::*;

    #[test]
    fn implied_dependencies_are_left_out() {
        let text = "# Tools: a, b.\na:\nb: a\n\n# Layer 1: c, d.\nc: a b io\nd staticlib: a c b\n";
        let layers = Layers::read(text);
        let direct: Vec<&[usize]> = layers.crates.iter().map(|c| &c.direct[..]).collect();
        assert_eq!(direct, [&[][..], &[0], &[1], &[2]]);
        assert_eq!(layers.crates.iter().map(|c| c.layer).collect::<Vec<_>>(), [0, 0, 1, 1]);
        assert_eq!(
            layers.table(),
            "3 of 6 dependencies are shown: the others follow from these.\n\n\
             | layer | crates → those that they rest on |\n|---|---|\n\
             | Tools: a, b | `a`; `b` → `a` |\n| Layer 1: c, d | `c` → `b`; `d` → `c` |\n"
        );
    }
}
