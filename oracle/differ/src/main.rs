//! Both sides on the same lists; `README.md` says what each command is for.

use std::process::ExitCode;

use differ::{all, bench, check, edges, lines, nights, run, Done};
use oracle::deep;

const USAGE: &str = "\
usage: differ run --count N [--seed S] [--max-tokens M] [--threads T]
       differ nights --count N [--seed S] [--threads T]
       differ all --length L [--full] [--threads T]
       differ edges
       differ lines [--count N] [--seed S] [--threads T]
       differ check FILE
       differ bench [--rounds R]";

fn main() -> ExitCode {
    deep::exit_code(command)
}

fn command() -> Done {
    let args: Vec<String> = std::env::args().skip(1).collect();
    let args: Vec<&str> = args.iter().map(String::as_str).collect();
    match args.as_slice() {
        ["run", rest @ ..] => run::command(rest),
        ["nights", rest @ ..] => nights::command(rest),
        ["all", rest @ ..] => all::command(rest),
        ["edges"] => edges::command(),
        ["lines", rest @ ..] => lines::command(rest),
        ["check", file] => check::command(file),
        ["bench", rest @ ..] => bench::command(rest),
        _ => Err(USAGE.to_owned()),
    }
}
