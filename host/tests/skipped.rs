//! How many tests compare with geomcore's Rust, and are left out where it is not at hand.
use host::compare::say;
use std::fs;
use std::path::{Path, PathBuf};

const HERE: &str = env!("CARGO_MANIFEST_DIR");

/// The files of Rust below a folder.
fn sources(folder: &Path) -> Vec<PathBuf> {
    let entries = fs::read_dir(folder).unwrap().map(|entry| entry.unwrap().path());
    let files = entries.flat_map(|path| match path.is_dir() {
        true => sources(&path),
        false => vec![path],
    });
    files.filter(|path| path.extension().is_some_and(|e| e == "rs")).collect()
}

/// All tests of a text, and those that it has for a build with geomcore alone.
fn counted(text: &str) -> (usize, usize) {
    let tests = |text: &str| text.lines().filter(|line| line.trim() == "#[test]").count();
    let all = tests(text);
    if text.contains("\n#![cfg(geomcore)]\n") {
        return (all, all);
    }
    let marked = text.split("#[cfg(geomcore)]\n").skip(1).map(|part| {
        // up to the bracket that closes the item, which stands as far in as the item
        let indent = part.len() - part.trim_start().len();
        let end = format!("\n{}}}\n", &part[..indent]);
        let until = part.find(&end).unwrap_or(0);
        let first = part.lines().next().unwrap_or_default().trim();
        let of_tests = first == "#[test]" || (first.starts_with("mod ") && first.ends_with('{'));
        if of_tests { tests(&part[..until]) } else { 0 }
    });
    (all, marked.sum())
}

/// Files that are modules for a build with geomcore alone.
fn left_out(path: &Path) -> bool {
    let name = path.strip_prefix(HERE).unwrap().with_extension("");
    let module = |parent: &Path, name: &Path| {
        let line = format!("#[cfg(geomcore)]\npub mod {};\n", name.display());
        ["mod.rs", "lib.rs"].iter().any(|file| {
            let text = fs::read_to_string(parent.join(file)).unwrap_or_default();
            text.contains(&line)
        })
    };
    let parents = name.ancestors().filter_map(|part| Some((part.parent()?, part.file_name()?)));
    parents.into_iter().any(|(parent, own)| module(&Path::new(HERE).join(parent), Path::new(own)))
}

#[test]
fn how_many() {
    let (mut all, mut compared) = (0, 0);
    for path in
        [sources(&Path::new(HERE).join("src")), sources(&Path::new(HERE).join("tests"))].concat()
    {
        let (tests, marked) = counted(&fs::read_to_string(&path).unwrap());
        all += tests;
        compared += if left_out(&path) { tests } else { marked };
    }
    match cfg!(geomcore) {
        true => say(&format!("{compared} of {all} tests compare with geomcore's Rust")),
        false => say(&format!("skipped, no geomcore at hand: {compared} of {all} tests")),
    }
    assert!(compared > 50 && compared < all, "{compared} of {all}");
}

#[test]
fn counts() {
    assert_eq!(counted("#[test]\nfn a() {\n}\n"), (1, 0));
    assert_eq!(
        counted("//! x\n#![cfg(geomcore)]\n#[test]\nfn a() {\n}\n#[test]\nfn b() {\n}\n"),
        (2, 2)
    );
    assert_eq!(counted("#[cfg(geomcore)]\n#[test]\nfn a() {\n}\n#[test]\nfn b() {\n}\n"), (2, 1));
    let inside =
        "#[cfg(geomcore)]\nmod m {\n    #[test]\n    fn a() {\n    }\n}\n#[test]\nfn b() {\n}\n";
    assert_eq!(counted(inside), (2, 1));
    assert_eq!(counted("#[cfg(geomcore)]\nfn f() {\n}\n#[test]\nfn b() {\n}\n"), (1, 0));
    let macros = "#[cfg(geomcore)]\nm!(x);\nmod tests {\n    #[test]\n    fn a() {\n    }\n}\n";
    assert_eq!(counted(macros), (1, 0));
}
