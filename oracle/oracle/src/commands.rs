//! One function a command.

use std::fs;
use std::io::{self, Write};

use oracle::case::Case;
use oracle::generate::Source;
use oracle::report::Report;
use oracle::{kinds, text, tree, Entry};

type Done = Result<(), String>;

fn failed(why: io::Error) -> String {
    why.to_string()
}

/// The kind numbers as `docs/KINDS.md` has them.
pub fn kinds() -> Done {
    let mut out = io::stdout().lock();
    for (number, name) in kinds::list() {
        writeln!(out, "{number} {name}").map_err(failed)?;
    }
    Ok(())
}

/// Parses a text and shows the answer and the tree.
pub fn show(entry: &str, text: &str) -> Done {
    let entry = match entry {
        "root" => Entry::Root,
        "exprs" => Entry::Exprs,
        "format" => Entry::Format,
        _ => return Err(format!("no entry is called {entry}")),
    };
    let (kinds, lens) = text::tokens(text);
    let (answer, rows) = Case::roomy(entry, kinds, lens).rows();
    let mut out = io::stdout().lock();
    match answer.number {
        0 => writeln!(out, "{} rows\n{}", answer.rows, tree::show(&rows)),
        number => writeln!(out, "{number} at {}", answer.place),
    }
    .map_err(failed)
}

/// Prints generated cases with their answers.
pub fn cases(args: &[&str]) -> Done {
    let seed = number(args, "--seed")?;
    let count = number(args, "--count")?;
    let mut source = Source::new(seed, number(args, "--max-tokens")? as usize);
    let mut report = Report::new();
    let mut out = io::BufWriter::new(io::stdout().lock());

    for _ in 0..count {
        let (class, case) = source.next_case();
        let (answer, rows) = case.rows();
        report.add(Some(class), &case, &answer, &rows);
        writeln!(out, "{}", case.line_with(&answer, &rows)).map_err(failed)?;
    }

    out.flush().map_err(failed)?;
    if args.contains(&"--coverage") {
        eprint!("{report}");
    }
    Ok(())
}

/// The number after an option.
fn number(args: &[&str], option: &str) -> Result<u64, String> {
    let at = args.iter().position(|arg| *arg == option);
    let value = at.and_then(|at| args.get(at + 1));
    let value = value.ok_or_else(|| format!("{option} is missing"))?;
    let number = value.parse::<u64>();
    number.map_err(|why| format!("{option} {value}: {why}"))
}

/// Answers every case of a file anew and compares.
pub fn check(file: &str) -> Done {
    let text = fs::read_to_string(file).map_err(|why| format!("{file}: {why}"))?;
    let mut differing = 0;

    for (at, line) in text.lines().enumerate() {
        let Some(case) = Case::read(line) else {
            return Err(format!("{file}:{}: not a case", at + 1));
        };
        let answered = case.line();
        if answered != line {
            differing += 1;
            eprintln!("{file}:{}: has {line}\nanswered {answered}", at + 1);
        }
    }

    println!("{} cases, {differing} differ", text.lines().count());
    match differing {
        0 => Ok(()),
        _ => Err(format!("{file} differs")),
    }
}

/// Prints the fixed list, or the long line that is kept beside it.
pub fn vectors(cases: &[Case], coverage: bool) -> Done {
    let mut report = Report::new();
    let mut out = io::BufWriter::new(io::stdout().lock());
    for case in cases {
        let (answer, rows) = case.rows();
        report.add(None, case, &answer, &rows);
        writeln!(out, "{}", case.line_with(&answer, &rows)).map_err(failed)?;
    }
    out.flush().map_err(failed)?;
    if coverage {
        eprint!("{report}");
    }
    Ok(())
}
