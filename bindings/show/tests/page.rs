//! `docs/SHOW.md` is the fixture: its commands are run, and what they print is compared. With SHOW_WRITE set it is written instead.

use std::fs;
use std::path::{Path, PathBuf};
use std::process::Command;

const SHOW: &str = env!("CARGO_BIN_EXE_show");
const BEGIN: &str = "```console\n";
const END: &str = "```\n";

fn docs() -> PathBuf {
    Path::new(env!("CARGO_MANIFEST_DIR")).join("../../docs")
}

/// What a shell in this crate's folder prints for a command in which `show` is ours, and a status other than 0.
fn printed(command: &str) -> String {
    let folder = Path::new(SHOW).parent().unwrap().to_str().unwrap();
    let path = format!("{folder}:{}", std::env::var("PATH").unwrap_or_default());
    let script = format!("{{ {command}\n}} 2>&1");
    let here = env!("CARGO_MANIFEST_DIR");
    let ran = Command::new("sh").args(["-c", &script]).current_dir(here).env("PATH", path).output().unwrap();
    let mut out = String::from_utf8(ran.stdout).unwrap();
    match ran.status.code() {
        Some(0) => {}
        Some(status) => out += &format!("(exit status {status})\n"),
        None => panic!("{command} was killed"),
    }
    out
}

/// The page with each block's output made anew, and its commands.
fn made_anew(page: &str) -> (String, Vec<&str>) {
    let mut out = String::new();
    let mut commands = Vec::new();
    let mut rest = page;
    while let Some((before, block)) = rest.split_once(BEGIN) {
        let (block, after) = block.split_once(END).expect("a block ends");
        let first = block.lines().next().unwrap_or_default();
        let command = first.strip_prefix("$ ").expect("a block begins with a command");
        commands.push(command);
        out += &format!("{before}{BEGIN}{first}\n{}{END}", printed(command));
        rest = after;
    }
    (out + rest, commands)
}

/// Compares a file with what it has to be, or writes it.
fn hold(file: &Path, want: &str) {
    if std::env::var_os("SHOW_WRITE").is_some() {
        fs::write(file, want).unwrap();
    }
    let found = fs::read_to_string(file).unwrap();
    for (at, (found, want)) in found.lines().zip(want.lines()).enumerate() {
        assert_eq!(found, want, "{}:{}: left stands there, right is printed", file.display(), at + 1);
    }
    assert_eq!(found, want, "{}", file.display());
}

#[test]
fn the_page_is_what_is_printed() {
    let file = docs().join("SHOW.md");
    let page = fs::read_to_string(&file).unwrap();
    let (want, commands) = made_anew(&page);
    hold(&file, &want);
    assert!(commands.len() >= 20, "twenty examples at least");
    let ended = |status: u8| want.matches(&format!("(exit status {status})\n")).count();
    let trees = commands.len() - ended(1) - ended(2);
    assert!(trees >= 10 && ended(1) >= 8 && ended(2) >= 2, "of each kind of end some");
}

#[test]
fn the_picture_is_what_is_drawn() {
    let drawn = Path::new(env!("CARGO_TARGET_TMPDIR")).join("guard.svg");
    let ran = Command::new(SHOW).arg("--svg").arg(&drawn).arg("dirty & mask == 0 && acked").status().unwrap();
    assert!(ran.success());
    hold(&docs().join("guard.svg"), &fs::read_to_string(drawn).unwrap());
}

/// A refused text has no picture, and says why where a tool does not read it.
#[test]
fn no_picture_of_a_refusal() {
    let drawn = Path::new(env!("CARGO_TARGET_TMPDIR")).join("none.svg");
    let ran = Command::new(SHOW).arg("--svg").arg(&drawn).arg("a ==").output().unwrap();
    assert_eq!(ran.status.code(), Some(1));
    assert!(!drawn.exists() && ran.stdout.is_empty());
    assert!(String::from_utf8(ran.stderr).unwrap().contains("refused with 6"));
}

/// A file is read as a text is.
#[test]
fn files() {
    let file = Path::new(env!("CARGO_TARGET_TMPDIR")).join("guard.txt");
    fs::write(&file, "a + b").unwrap();
    let of = |command: &mut Command| command.output().unwrap().stdout;
    let from_file = of(Command::new(SHOW).arg("--file").arg(&file));
    assert!(!from_file.is_empty());
    assert_eq!(from_file, of(Command::new(SHOW).arg("a + b")));
}
