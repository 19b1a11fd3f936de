//! Copies the two Rust sources into the build, unchanged but for one line, and
//! lists the grammar's functions for the coverage report.

use std::env;
use std::fmt::Write as _;
use std::fs;
use std::path::{Path, PathBuf};

/// Where the sources stand if RUNE_SRC does not say, seen from this crate.
const BESIDE: &str = "../../../shared/docs/src";

/// The one counted rule that has no attribute in the Rust.
const BARE: &str = "\nfn outer_expr_with(\n";
const MARKED: &str = "\n#[tracing::instrument(skip_all)]\nfn outer_expr_with(\n";

fn main() {
    println!("cargo:rerun-if-env-changed=RUNE_SRC");
    let from = source_folder();
    let out = PathBuf::from(env::var_os("OUT_DIR").expect("OUT_DIR"));

    let grammar = read(&from.join("grammar/grammar.rs"));
    assert_eq!(
        grammar.matches(BARE).count(),
        1,
        "grammar.rs: `fn outer_expr_with` is not found exactly once without an attribute"
    );
    let grammar = grammar.replace(BARE, MARKED);

    fs::write(out.join("rules.rs"), rules(&grammar)).expect("rules.rs");
    fs::write(out.join("grammar.rs"), grammar).expect("grammar.rs");
    let binary = read(&from.join("ast/expr_binary.rs"));
    fs::write(out.join("expr_binary.rs"), binary).expect("expr_binary.rs");
}

fn source_folder() -> PathBuf {
    match env::var_os("RUNE_SRC") {
        Some(given) => PathBuf::from(given),
        None => {
            Path::new(&env::var_os("CARGO_MANIFEST_DIR").expect("CARGO_MANIFEST_DIR")).join(BESIDE)
        }
    }
}

fn read(path: &Path) -> String {
    println!("cargo:rerun-if-changed={}", path.display());
    fs::read_to_string(path).unwrap_or_else(|why| {
        panic!(
            "cannot read {}: {why}. Set RUNE_SRC to the `src` folder of rune 0.14.2, \
             the one that holds grammar/grammar.rs and ast/expr_binary.rs",
            path.display()
        )
    })
}

/// The functions of the grammar in order, each name once: a constant for the
/// attribute to count by, and whether it has the attribute.
fn rules(grammar: &str) -> String {
    let mut found: Vec<(&str, bool)> = Vec::new();
    let mut above = "";

    for line in grammar.lines().map(str::trim) {
        if let Some(name) = declared(line) {
            if !found.iter().any(|(known, _)| *known == name) {
                found.push((name, above.starts_with("#[tracing::instrument")));
            }
        }
        above = line;
    }

    let mut text = String::from("#[allow(non_upper_case_globals, dead_code)]\npub mod rule {\n");
    for (at, (name, _)) in found.iter().enumerate() {
        writeln!(text, "    pub const {name}: usize = {at};").unwrap();
    }
    writeln!(
        text,
        "}}\npub const RULES: [(&str, bool); {}] = {found:?};",
        found.len()
    )
    .unwrap();
    text
}

fn declared(line: &str) -> Option<&str> {
    let line = line.strip_prefix("pub(super) ").unwrap_or(line);
    let (name, _) = line.strip_prefix("fn ")?.split_once('(')?;
    Some(name)
}
