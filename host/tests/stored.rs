//! The stored hall files of the crate `hallcases`, listed by the port: these need no geomcore.
use host::compare::say;
use host::people::show::whole_listing;
use host::port;
use std::fs;
use std::path::{Path, PathBuf};

fn crates() -> PathBuf {
    Path::new(env!("CARGO_MANIFEST_DIR")).join("../crates")
}

fn bytes(path: &str) -> Vec<u8> {
    let path = crates().join(path);
    fs::read(&path).unwrap_or_else(|e| panic!("{}: {e}", path.display()))
}

fn names() -> Vec<String> {
    String::from_utf8(bytes("hallcases/args")).unwrap().lines().map(str::to_string).collect()
}

fn listed(file: &[u8]) -> Vec<u8> {
    whole_listing(file, port::list_file)
}

#[test]
fn stored_listings() {
    let mut all = Vec::new();
    for name in names() {
        all.extend(format!("== {name}\n").into_bytes());
        all.extend(listed(&bytes(&format!("hallcases/data/{name}"))));
    }
    assert!(all == bytes("hallcases/stdout"));
    say(&format!("stored hall files: {}", names().len()));
}

#[test]
fn the_example() {
    assert_eq!(listed(&bytes("hallroots/stdin")), bytes("hallroots/stdout"));
    assert_eq!(bytes("hallroots/stdin"), bytes("hallcases/data/document"));
}

/// What is stored is what the host makes, with the listings of the reference build.
#[cfg(geomcore)]
#[test]
fn stored_files_are_up_to_date() {
    use host::stored::files::{DOCUMENT_LISTING, files};
    use host::truth::angle::Sine;
    use host::truth::lister::{Reference, listing};
    let (mut made, mut all) = (Vec::new(), Vec::new());
    for (name, file) in files() {
        assert!(file == bytes(&format!("hallcases/data/{name}")), "{name}");
        all.extend(format!("== {name}\n").into_bytes());
        all.extend(listing(&file, &Reference(Sine::OfExact)));
        made.push(name);
    }
    assert_eq!(made, names());
    assert!(all == bytes("hallcases/stdout"), "write them anew: `hall stored files`");
    assert_eq!(bytes("hallroots/stdout"), DOCUMENT_LISTING.as_bytes());
    assert_eq!(fs::read_dir(crates().join("hallcases/data")).unwrap().count(), made.len());
}
