//! The oracle's commands; `README.md` says what each is for.

mod commands;

use std::process::ExitCode;

use oracle::{deep, vectors};

const USAGE: &str = "\
usage: oracle kinds
       oracle show root|exprs|format TEXT
       oracle cases --seed S --count N --max-tokens M [--coverage]
       oracle check FILE
       oracle vectors [--coverage | --count]";

fn main() -> ExitCode {
    deep::exit_code(run)
}

fn run() -> Result<(), String> {
    let args: Vec<String> = std::env::args().skip(1).collect();
    let args: Vec<&str> = args.iter().map(String::as_str).collect();
    match args.as_slice() {
        ["kinds"] => commands::kinds(),
        ["show", entry, text] => commands::show(entry, text),
        ["cases", rest @ ..] => commands::cases(rest),
        ["check", file] => commands::check(file),
        ["vectors"] => commands::vectors(&vectors::cases(), false),
        ["vectors", "--coverage"] => commands::vectors(&vectors::cases(), true),
        ["vectors", "--count"] => commands::vectors(&[vectors::too_many()], false),
        _ => Err(USAGE.to_owned()),
    }
}
