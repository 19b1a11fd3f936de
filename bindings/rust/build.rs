//! Links the static archive of the proved crate: the one that KROSSTAVEL_ARCHIVE names, or else `target/krosstavel.a` of this repository. What
//! `tools/archive` wrote beside it of how it was built becomes `BUILD`.

use std::env;
use std::path::{Path, PathBuf};

const NAMED_BY: &str = "KROSSTAVEL_ARCHIVE";

/// Where the gate leaves it, seen from this crate.
const BESIDE: &str = "../../target/krosstavel.a";

fn main() {
    println!("cargo:rerun-if-env-changed={NAMED_BY}");
    match archive() {
        Ok(archive) => {
            link(&archive);
            tell_build(&archive);
        }
        Err(why) => {
            eprintln!("\nkrosstavel: {why}; `tools/archive OUT.a` makes one\n");
            std::process::exit(1);
        }
    }
}

fn archive() -> Result<PathBuf, String> {
    let Some(given) = env::var_os(NAMED_BY) else {
        let here = env::var_os("CARGO_MANIFEST_DIR").expect("CARGO_MANIFEST_DIR");
        let path = Path::new(&here).join(BESIDE);
        println!("cargo:rerun-if-changed={}", path.display());
        return path.canonicalize().map_err(|why| format!("{NAMED_BY} is not set, and {}: {why}", path.display()));
    };
    let path = PathBuf::from(given);
    let shown = path.display();
    if !path.is_absolute() {
        return Err(format!("{NAMED_BY}={shown} is not an absolute path"));
    }
    if !path.is_file() {
        return Err(format!("{NAMED_BY}={shown} is not a file"));
    }
    Ok(path)
}

/// The file may have any name, so the linker takes the name as it stands.
fn link(archive: &Path) {
    let folder = archive.parent().expect("an absolute path of a file");
    let name = archive.file_name().expect("a file").to_string_lossy();
    println!("cargo:rerun-if-changed={}", archive.display());
    println!("cargo:rustc-link-search=native={}", folder.display());
    println!("cargo:rustc-link-lib=static:+verbatim={name}");
}

/// The line beside the archive, if there is one.
fn tell_build(archive: &Path) {
    let mut beside = archive.as_os_str().to_owned();
    beside.push(".build");
    println!("cargo:rerun-if-changed={}", Path::new(&beside).display());
    let said = std::fs::read_to_string(&beside).unwrap_or_default();
    let line = said.lines().next().unwrap_or("built in a way that nothing beside the archive tells");
    println!("cargo:rustc-env=KROSSTAVEL_BUILD={line}");
}
