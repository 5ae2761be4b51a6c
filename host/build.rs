//! Links the proved archives that .ci/archives names, and writes geomcore's Rust to OUT_DIR:
//! `untouched`, and `patched`, the reference build of document 01, and `sharp`, the same in the mode
//! of the exact c (document 02), and of each a copy that tells kinds. EXPORTS names another folder
//! for the archives, GEOMCORE another one for geomcore. Features write more copies, which tell kinds
//! too: `coverage` the reference build with a counter at each branch, `mutants` one with every
//! mistake to choose from, `causes` one for each leaf put back.
#[path = "build/branches.rs"]
mod branches;
#[path = "build/causes.rs"]
mod causes;
#[path = "build/choices.rs"]
mod choices;
#[path = "build/mutants/mod.rs"]
mod mutants;
#[path = "build/patches.rs"]
mod patches;

use patches::{
    CHAINS, COUNTED, CUT, FILES, LIST_STARTS, LIST_USES, OF_CHOSEN, OF_EXACT, OF_ROUNDED, OPENED,
    OWN, OWN_OPENED, PUT_IN, Patch, SYSTEMS, Variant, YES,
};
use std::path::{Path, PathBuf};
use std::{env, fs};

const WANTED: &str =
    "clone github.com/GabrielJMS/geomcore at commit a20e012915 and name its folder in GEOMCORE";

fn main() {
    let here = PathBuf::from(env::var("CARGO_MANIFEST_DIR").unwrap());
    link_archives(&here);
    println!("cargo::rustc-check-cfg=cfg(geomcore)");
    println!("cargo::rerun-if-changed=build");
    println!("cargo::rerun-if-env-changed=GEOMCORE");
    println!("cargo::rerun-if-env-changed=CI");
    println!("cargo::rustc-env=GEOMCORE_WANTED={WANTED}");
    match geomcore(&here) {
        Ok(folder) => {
            write_rust(&folder, &here, &PathBuf::from(env::var("OUT_DIR").unwrap()));
            println!("cargo::rustc-cfg=geomcore");
        }
        Err(missing) => {
            let (kind, so) = match env::var("CI").as_deref() {
                Ok("true") => ("error", "must not be skipped where CI=true"),
                _ => ("warning", "is skipped"),
            };
            println!("cargo::{kind}={missing}; the comparison with the Rust {so}");
        }
    }
}

fn link_archives(here: &Path) {
    println!("cargo::rerun-if-env-changed=EXPORTS");
    let folder = env::var("EXPORTS").map_or(here.join("../target/staticlib"), PathBuf::from);
    println!("cargo::rustc-link-search=native={}", folder.display());
    let list = here.join("../.ci/archives");
    println!("cargo::rerun-if-changed={}", list.display());
    let names = fs::read_to_string(&list).unwrap_or_else(|e| panic!("{}: {e}", list.display()));
    for name in names.lines() {
        let archive = folder.join(format!("lib{name}.a"));
        let path = archive.display();
        println!("cargo::rerun-if-changed={path}");
        if !archive.exists() {
            let how = "run `.ci/run`, or name its folder in EXPORTS";
            println!("cargo::error={path} is missing: {how}");
        }
        println!("cargo::rustc-link-lib=static={name}");
    }
}

/// The folder with geomcore's source, or a line that says how to get it.
fn geomcore(here: &Path) -> Result<PathBuf, String> {
    let beside = here.join("../../shared/docs/src");
    let folder = env::var("GEOMCORE").map_or(beside, PathBuf::from);
    match folder.join(FILES[0].0).exists() {
        true => Ok(folder),
        false => Err(format!("no geomcore in {}: {WANTED}", folder.display())),
    }
}

fn write_rust(folder: &Path, here: &Path, out: &Path) {
    let mut modules = String::new();
    let trees: [(&str, &[&[Patch]]); 6] = [
        ("untouched", &[OPENED, CUT]),
        ("untouched_kinds", &[OPENED, CUT, YES]),
        ("patched", &[OPENED, CUT, PUT_IN, OF_ROUNDED, SYSTEMS, COUNTED]),
        ("patched_kinds", &[OPENED, CUT, PUT_IN, OF_ROUNDED, SYSTEMS, YES, CHAINS]),
        ("sharp", &[OPENED, CUT, PUT_IN, OF_EXACT, SYSTEMS, COUNTED]),
        ("sharp_kinds", &[OPENED, CUT, PUT_IN, OF_EXACT, SYSTEMS, YES, CHAINS]),
    ];
    for (tree, patches) in trees {
        modules += &write_tree(folder, out, tree, |text, copy| patched(text, copy, patches));
    }
    if chosen("COVERAGE") {
        let mut all = Vec::new();
        modules += &write_tree(folder, out, "covered", |text, copy| {
            let text = in_place(text, copy, &[OPENED, CUT, PUT_IN, OF_ROUNDED, SYSTEMS, YES]);
            match copy {
                "solve.rs" => branches::counted(copy, &text, Some("solve_square"), &mut all),
                "poly.rs" | "equation.rs" => branches::counted(copy, &text, None, &mut all),
                _ => text,
            }
        });
        fs::write(out.join("branches.rs"), branches::table(&all)).unwrap();
    }
    if chosen("MUTANTS") {
        modules += &write_mutants(folder, out, &mutants::all());
        modules += &write_own(&here.join("src/truth"), out, &mutants::all());
    }
    if chosen("CAUSES") {
        modules += &write_variants(folder, out, "causes", causes::CAUSES);
    }
    fs::write(out.join("modules.rs"), modules).unwrap();
}

fn chosen(feature: &str) -> bool {
    env::var_os(format!("CARGO_FEATURE_{feature}")).is_some()
}

/// A copy of the reference build for each variant, and their names and trees in NAME.rs.
fn write_variants(folder: &Path, out: &Path, name: &str, variants: &[Variant]) -> String {
    let mut modules = String::new();
    let mut list = String::new();
    for (n, (title, what, patches)) in variants.iter().enumerate() {
        let tree = format!("{name}_{n}");
        modules += &write_tree(folder, out, &tree, |text, copy| {
            patched(text, copy, &[OPENED, CUT, PUT_IN, OF_ROUNDED, YES, patches])
        });
        let file = patches[0].0;
        list +=
            &format!("    ({title:?}, {what:?}, {file:?}, crate::runs::trees::tree!({tree})),\n");
    }
    let count = variants.len();
    let head = "(&str, &str, &str, crate::runs::trees::Tree)";
    let list = format!("pub const ALL: [{head}; {count}] = [\n{list}];\n");
    fs::write(out.join(format!("{name}.rs")), list).unwrap();
    modules
}

/// One copy of the reference build with all mistakes, and their names in mutants.rs. Mistake n has
/// the number n + 1: with 0 the copy has none.
fn write_mutants(folder: &Path, out: &Path, mistakes: &[Variant]) -> String {
    let list = |(title, what, patches): &Variant| {
        let file = patches[0].0;
        format!("    ({title:?}, {what:?}, {file:?}),\n")
    };
    let (count, list): (_, String) = (mistakes.len(), mistakes.iter().map(list).collect());
    let list = format!("pub const ALL: [(&str, &str, &str); {count}] = [\n{list}];\n");
    fs::write(out.join("mutants.rs"), list).unwrap();
    write_tree(folder, out, "mutants", |text, copy| {
        mistaken(
            patched(text, copy, &[OPENED, CUT, PUT_IN, OF_CHOSEN, SYSTEMS, YES]),
            copy,
            mistakes,
        )
    })
}

/// A file with every mistake in it.
fn mistaken(text: String, copy: &str, mistakes: &[Variant]) -> String {
    let here = |m: &(usize, &Variant)| m.1.2.iter().any(|patch| patch.0 == copy);
    let with = |(n, m): (usize, &Variant)| (n + 1, patched(text.clone(), copy, &[m.2]));
    let others: Vec<_> = mistakes.iter().enumerate().filter(here).map(with).collect();
    choices::chosen(&text, &others)
}

/// A copy of the host's own reader and lister of hall files with all mistakes.
fn write_own(src: &Path, out: &Path, mistakes: &[Variant]) -> String {
    fs::create_dir_all(out.join("own")).unwrap();
    let mut modules = "#[allow(warnings)]\npub mod own {\n".to_string();
    for copy in OWN {
        let text = patched(source_text(&src.join(copy), copy), copy, &[OWN_OPENED]);
        let path = out.join("own").join(copy);
        fs::write(&path, mistaken(text, copy, mistakes)).unwrap();
        println!("cargo::rerun-if-changed={}", src.join(copy).display());
        let name = copy.trim_end_matches(".rs");
        modules += &format!("    #[path = {path:?}]\n    pub mod {name};\n");
    }
    modules + "}\n"
}

/// One copy of geomcore's files, each as `change` makes it, and its module.
fn write_tree(
    folder: &Path,
    out: &Path,
    tree: &str,
    mut change: impl FnMut(String, &'static str) -> String,
) -> String {
    fs::create_dir_all(out.join(tree)).unwrap();
    // a mistake may leave a name unused
    let allowed = if tree == "mutants" { "warnings" } else { "clippy::all" };
    let mut modules = format!("#[allow({allowed})]\npub mod {tree} {{\n");
    for (file, copy) in FILES {
        let source = folder.join(file);
        println!("cargo::rerun-if-changed={}", source.display());
        let text = change(source_text(&source, copy), copy);
        let path = out.join(tree).join(copy);
        fs::write(&path, text).unwrap();
        let name = copy.trim_end_matches(".rs");
        modules += &format!("    #[path = {path:?}]\n    pub mod {name};\n");
    }
    modules + "    pub use list::InlineList;\n    pub use tolerance::Tolerance;\n}\n"
}

/// A file of geomcore without its tests; of the one with `InlineList`, that alone.
fn source_text(source: &Path, copy: &str) -> String {
    let text = fs::read_to_string(source).unwrap_or_else(|e| panic!("{}: {e}", source.display()));
    let text = text.split("\n#[cfg(test)]\n").next().unwrap();
    if copy != "list.rs" {
        return text.to_string();
    }
    let (before, list) = text.split_once(LIST_STARTS).expect("InlineList in dispatch.rs");
    assert!(before.contains(LIST_USES), "{LIST_USES} in dispatch.rs");
    [LIST_USES, LIST_STARTS, list].concat()
}

fn patched(mut text: String, copy: &str, lists: &[&[Patch]]) -> String {
    for patch in lists.iter().copied().flatten() {
        text = changed(text, copy, patch);
    }
    text
}

fn changed(text: String, copy: &str, &(file, old, new, times): &Patch) -> String {
    if file != copy {
        return text;
    }
    let found = text.matches(old).count();
    assert!(found == times, "{file}: `{old}` stands there {found} times, not {times}");
    text.replace(old, new)
}

/// The same with empty lines where a patch takes lines away, so that lines keep their numbers.
fn in_place(mut text: String, copy: &str, lists: &[&[Patch]]) -> String {
    for &(file, old, new, times) in lists.iter().copied().flatten() {
        let lines = |text: &str| text.matches('\n').count();
        let new = format!("{new}{}", "\n".repeat(lines(old).saturating_sub(lines(new))));
        text = changed(text, copy, &(file, old, &new, times));
    }
    text
}
