//! The table of crates in docs/ARCHITECTURE.md has them all, and what it names is there.
use host::people::architecture::{DOCUMENT, Layers};
use host::people::documents::{files, root};
use std::fs;

fn text(file: &str) -> String {
    fs::read_to_string(root().join(file)).unwrap_or_else(|e| panic!("{file}: {e}"))
}

/// The names in backquotes.
fn quoted(text: &str) -> Vec<&str> {
    text.split('`').skip(1).step_by(2).collect()
}

/// Each crate once, in its layer.
#[test]
fn table_of_crates() {
    let (document, layers) = (text(DOCUMENT), Layers::read(&text("crates.txt")));
    let table = document.split_once("\n## The crates\n").expect("a heading").1;
    let table = table.split("\n## ").next().unwrap_or_default();
    let rows = table.lines().filter_map(|line| line.strip_prefix("| ")?.split_once(" | "));
    let mut named: Vec<(String, String)> = Vec::new();
    for (layer, rest) in rows {
        let crates = rest.split(" | ").next().unwrap_or_default();
        named.extend(quoted(crates).iter().map(|name| (name.to_string(), layer.to_string())));
    }
    let layer = |n: usize| layers.titles[n].0.trim_start_matches("Layer ").to_lowercase();
    let mut wanted: Vec<(String, String)> =
        layers.crates.iter().map(|c| (c.name.clone(), layer(c.layer))).collect();
    named.sort();
    wanted.sort();
    for row in &wanted {
        assert!(named.contains(row), "the table of crates has no `{}` in layer {}", row.0, row.1);
    }
    assert_eq!(named, wanted, "the table of crates has more than crates.txt");
}

/// What it names and links is there.
#[test]
fn names_and_links() {
    let (document, layers) = (text(DOCUMENT), Layers::read(&text("crates.txt")));
    for link in document.split("](").skip(1).filter_map(|part| part.split(')').next()) {
        let file = link.split('#').next().unwrap_or_default();
        assert!(root().join("docs").join(file).exists(), "{DOCUMENT}: there is no {link}");
    }
    let steps = document.split("\n| from | to | how | crates |\n").nth(1).expect("the steps");
    let steps = steps.split("\n\n").next().unwrap_or_default();
    for step in steps.lines().filter_map(|line| line.trim_end_matches(" |").rsplit(" | ").next()) {
        for name in quoted(step) {
            assert!(layers.crates.iter().any(|c| c.name == name), "there is no crate {name}");
        }
    }
    let src = root().join("host/src");
    for file in files(&src, ".rs").expect("host/src can be read") {
        let inside = file.strip_prefix(&src).expect("a file of host/src");
        let folder = inside.parent().unwrap_or(&src).display().to_string();
        let listed = document.contains(&format!("\n| `{folder}` | "));
        let own = ["", "bin"].contains(&folder.as_str());
        assert!(own || listed, "{DOCUMENT} does not say what host/src/{folder} is for");
    }
}
