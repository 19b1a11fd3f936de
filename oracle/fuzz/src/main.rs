//! Seeds for the fuzz target from a list of cases, and what a folder of inputs reaches.

use std::fs;
use std::path::Path;
use std::process::ExitCode;

use fuzz::input;
use oracle::case::Case;
use oracle::deep;
use oracle::report::Report;

const USAGE: &str = "\
usage: fuzz seeds CASES FOLDER     an input for each line of CASES that has one
       fuzz report FOLDER          refusals, rules and node kinds that the inputs reach";

fn main() -> ExitCode {
    deep::exit_code(command)
}

fn command() -> Result<(), String> {
    let args: Vec<String> = std::env::args().skip(1).collect();
    let args: Vec<&str> = args.iter().map(String::as_str).collect();
    match args.as_slice() {
        ["seeds", cases, folder] => seeds(cases, Path::new(folder)),
        ["report", folder] => report(Path::new(folder)),
        _ => Err(USAGE.to_owned()),
    }
}

fn seeds(cases: &str, folder: &Path) -> Result<(), String> {
    let text = fs::read_to_string(cases).map_err(|why| format!("{cases}: {why}"))?;
    for (at, line) in text.lines().enumerate() {
        let case = Case::read(line).ok_or_else(|| format!("{cases}:{}: not a case", at + 1))?;
        if let Some(data) = input::write(&case) {
            let file = folder.join(format!("case-{:05}", at + 1));
            fs::write(&file, data).map_err(|why| format!("{}: {why}", file.display()))?;
        }
    }
    Ok(())
}

fn report(folder: &Path) -> Result<(), String> {
    let failed = |why: std::io::Error| format!("{}: {why}", folder.display());
    let mut report = Report::new();
    let mut inputs = 0;
    for file in fs::read_dir(folder).map_err(failed)? {
        let data = fs::read(file.map_err(failed)?.path()).map_err(failed)?;
        if let Some(case) = input::read(&data) {
            let (answer, rows) = case.rows();
            report.add(None, &case, &answer, &rows);
            inputs += 1;
        }
    }
    print!("{inputs} inputs\n{report}");
    Ok(())
}
