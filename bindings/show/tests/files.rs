//! `show --files`: what `docs/SHOW.md` has no room for.

use std::fs::File;
use std::path::Path;
use std::process::{Command, Output};

const SHOW: &str = env!("CARGO_BIN_EXE_show");
const ACCEPTED: &str = "tests/night/drain.rn";
const REFUSED: &str = "tests/night/late.rn";
const NONE: &str = "tests/night/none.rn";

fn show(args: &[&str]) -> Output {
    Command::new(SHOW).args(args).current_dir(env!("CARGO_MANIFEST_DIR")).output().unwrap()
}

fn status(args: &[&str]) -> Option<i32> {
    show(args).status.code()
}

/// A command's lines, of standard output and of standard error.
fn lines(args: &[&str]) -> (Vec<String>, Vec<String>) {
    let lines = |bytes: Vec<u8>| String::from_utf8(bytes).unwrap().lines().map(str::to_owned).collect();
    let ran = show(args);
    (lines(ran.stdout), lines(ran.stderr))
}

#[test]
fn the_largest_status() {
    let (line, _) = lines(&["--root", "--files", ACCEPTED]);
    assert_eq!((line.len(), line[1].as_str()), (2, "1 file: 1 accepted, 0 refused"));
    for (files, want) in [
        ([ACCEPTED, ACCEPTED, ACCEPTED], 0),
        ([ACCEPTED, REFUSED, ACCEPTED], 1),
        ([NONE, REFUSED, ACCEPTED], 2),
        ([NONE, NONE, NONE], 2),
    ] {
        assert_eq!(status(&[&["--root", "--files"], files.as_slice()].concat()), Some(want), "{files:?}");
    }
}

#[test]
fn what_cannot_be_read_is_named_and_the_others_are_shown() {
    let (out, err) = lines(&["--root", "--files", ACCEPTED, NONE, "tests/night", REFUSED]);
    assert!(out[0].starts_with("tests/night/drain.rn: accepted, rows "));
    assert_eq!(out[1], "tests/night/late.rn:2:1: refused with 9: no statement begins here");
    assert_eq!(out[2..], ["4 files: 1 accepted, 1 refused, 2 not read"]);
    assert_eq!(err.len(), 2);
    assert!(err[0].starts_with("show: tests/night/none.rn: ") && err[1].starts_with("show: tests/night: "));
}

/// Two nights and a file more: the places of the refused ones stay theirs.
#[test]
fn more_than_a_night() {
    let mut args = vec!["--root", "--files"];
    args.extend((0..801).map(|at| if [0, 399, 400, 800].contains(&at) { REFUSED } else { ACCEPTED }));
    let (out, _) = lines(&args);
    assert_eq!(out.len(), 802);
    let refused: Vec<usize> = (0..801).filter(|at| out[*at].contains("refused with 9")).collect();
    assert_eq!(refused, [0, 399, 400, 800]);
    assert_eq!(out[801], "801 files: 797 accepted, 4 refused");
    assert_eq!(status(&args), Some(1));
}

#[test]
fn standard_input_among_the_files() {
    let file = Path::new(env!("CARGO_MANIFEST_DIR")).join(REFUSED);
    let ran = Command::new(SHOW).args(["--root", "--files", "-"]).stdin(File::open(file).unwrap()).output().unwrap();
    assert_eq!(ran.status.code(), Some(1));
    assert!(ran.stdout.starts_with(b"standard input:2:1: refused with 9"));
}

/// Each file alone has the same answer.
#[test]
fn as_one_by_one() {
    let files = ["clear", "drain", "late", "ready"].map(|name| format!("tests/night/{name}.rn"));
    for entry in ["--root", "--exprs", "--format"] {
        let mut args = vec![entry, "--files"];
        args.extend(files.iter().map(String::as_str));
        for (file, line) in files.iter().zip(lines(&args).0) {
            let (one, _) = lines(&[entry, "--rows", "--file", file]);
            let (_, said) = line.split_once(": ").unwrap();
            match status(&[entry, "--file", file]) {
                Some(0) => assert!(said.starts_with(&format!("accepted, rows {}, tokens ", one.len() - 1))),
                _ => assert_eq!(said, one[0]),
            }
        }
    }
}

#[test]
fn what_does_not_go_with_files() {
    let said = |args: &[&str]| {
        assert_eq!(status(args), Some(2));
        let (out, err) = lines(args);
        assert!(out.is_empty());
        err[0].clone()
    };
    for option in ["--trivia", "--rows", "--json", "--dot"] {
        let want = format!("show: {option} goes with one text: --files prints a line for each file");
        assert_eq!(said(&[option, "--files", ACCEPTED]), want);
        assert_eq!(said(&["--files", ACCEPTED, option]), want);
    }
    assert!(said(&["--svg", "none.svg", "--files", ACCEPTED]).starts_with("show: --svg goes with one text"));
    assert_eq!(said(&["--file", ACCEPTED, "--files", ACCEPTED]), "show: both --file and --files");
    assert_eq!(said(&["--root", "--files"]), "show: --files lacks its files");
    assert_eq!(said(&["--file", ACCEPTED, "--file", REFUSED]), "show: more than one --file: --files takes several");
}
