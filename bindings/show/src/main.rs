//! `show`: the tree of a guard or a script, for people. `docs/SHOW.md` has examples.

mod draw;
mod grouping;
mod json;
mod lexer;
mod night;
mod options;
mod parsed;
mod picture;
mod place;
mod source;

use std::io::{self, Write};
use std::process::ExitCode;

use krosstavel::{Refusal, Tree};
use options::{Options, Output, Source, Sources, USAGE};
use parsed::Parsed;

const TREE: u8 = 0;
const REFUSED: u8 = 1;
const NO_ANSWER: u8 = 2;

fn main() -> ExitCode {
    let status = match Options::read(std::env::args_os().skip(1)) {
        Ok(None) => print(USAGE).map(|()| TREE),
        Ok(Some(options)) => show(&options),
        Err(why) => Err(format!("{why}\n`show --help` says more")),
    };
    ExitCode::from(status.unwrap_or_else(|why| {
        eprintln!("show: {why}");
        NO_ANSWER
    }))
}

/// Parses what the options name and prints what they ask for. An answer is an exit status.
fn show(options: &Options) -> Result<u8, String> {
    match &options.sources {
        Sources::One(source) => show_one(source, options),
        Sources::Files(files) => night::show(files, options),
    }
}

fn show_one(source: &Source, options: &Options) -> Result<u8, String> {
    let text = source.read()?;
    let mut table = Vec::new();
    let parsed = Parsed::of(options, &text, &mut table);
    match (&parsed.outcome, &options.output) {
        (_, Output::Json) => print(&json::of(&parsed))?,
        (Ok(tree), output) => show_tree(tree, &parsed, output)?,
        (Err(refusal), output) => show_refusal(refusal, &parsed, output)?,
    }
    Ok(if parsed.outcome.is_ok() { TREE } else { REFUSED })
}

fn show_tree(tree: &Tree, parsed: &Parsed, output: &Output) -> Result<(), String> {
    let text = parsed.text;
    match output {
        Output::Rows => print(&draw::rows(tree, text)),
        Output::Dot => print(&picture::dot(tree, text)),
        Output::Svg(file) => {
            let written = std::fs::write(file, picture::svg(tree, text));
            written.map_err(|why| format!("{}: {why}", file.display()))
        }
        Output::Tree { .. } | Output::Json => {
            let trivia = *output == Output::Tree { trivia: true };
            let notes = place::of_notes(&parsed.tokens, text);
            print(&(grouping::of(tree, text) + &draw::tree(tree, text, trivia) + &notes))
        }
    }
}

fn show_refusal(refusal: &Refusal, parsed: &Parsed, output: &Output) -> Result<(), String> {
    let message = place::of_refusal(refusal, parsed.text) + &place::of_notes(&parsed.tokens, parsed.text);
    match output {
        // What a tool reads stays empty.
        Output::Dot | Output::Svg(_) => {
            eprint!("{message}");
            Ok(())
        }
        _ => print(&message),
    }
}

/// Prints a text and ends its last line. A reader that has gone away is no failure.
fn print(text: &str) -> Result<(), String> {
    let mut out = io::stdout().lock();
    match writeln!(out, "{}", text.trim_end_matches('\n')).and_then(|()| out.flush()) {
        Err(why) if why.kind() != io::ErrorKind::BrokenPipe => Err(why.to_string()),
        _ => Ok(()),
    }
}
