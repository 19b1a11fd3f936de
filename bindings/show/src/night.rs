//! Many files at once: one call for all, and a line for each.

use std::fmt;

use krosstavel::{Night, Refusal, Tree, MOST_JOBS};

use crate::lexer::{Note, Tokens};
use crate::options::{Options, Source};
use crate::parsed::{is_without_room, set_size};
use crate::place::{self, Spot};
use crate::{print, NO_ANSWER, REFUSED, TREE};

/// Prints a line for each file, then how many were accepted. A night takes so many jobs; more files are as many nights as they need.
pub fn show(files: &[Source], options: &Options) -> Result<u8, String> {
    let mut count = Count::default();
    for files in files.chunks(MOST_JOBS) {
        show_night(files, options, &mut count)?;
    }
    print(&count.to_string())?;
    Ok(count.status())
}

fn show_night(files: &[Source], options: &Options, count: &mut Count) -> Result<(), String> {
    let scripts: Vec<Result<Script, String>> = files.iter().map(Script::read).collect();
    let mut night = Night::new();
    for Script { tokens, .. } in scripts.iter().flatten() {
        night.push(options.entry, &tokens.kinds, &tokens.lens, options.limit);
    }
    let mut table = Vec::new();
    let mut outcomes = outcomes(&night, options, &mut table)?.into_iter();
    for script in &scripts {
        match script {
            Ok(script) => {
                let outcome = outcomes.next().expect("an outcome for each job");
                count.add(&outcome);
                print(&script.lines(&outcome))?;
            }
            Err(why) => {
                count.unread += 1;
                eprintln!("show: {why}");
            }
        }
    }
    Ok(())
}

/// Runs a night in a table of the size that the options name.
fn outcomes<'t>(
    night: &Night,
    options: &Options,
    table: &'t mut Vec<u32>,
) -> Result<Vec<Result<Tree<'t>, Refusal>>, String> {
    let lacks_room = |table: &mut [u32]| night.run(table).is_ok_and(|outcomes| outcomes.iter().any(is_without_room));
    set_size(table, options.elements, night.room(), lacks_room);
    night.run(table).map_err(|refusal| refusal.to_string())
}

/// A file that was read.
struct Script {
    name: String,
    text: String,
    tokens: Tokens,
}

impl Script {
    fn read(file: &Source) -> Result<Script, String> {
        let text = file.read()?;
        Ok(Script { name: file.name(), tokens: Tokens::of(&text), text })
    }

    /// What it came to, and a line for each thing that the lexer found odd.
    fn lines(&self, outcome: &Result<Tree, Refusal>) -> String {
        let (name, tokens) = (&self.name, &self.tokens);
        let line = match outcome {
            Ok(tree) => format!("{name}: accepted, rows {}, tokens {}\n", tree.len(), tokens.kinds.len()),
            Err(refusal) => {
                let at = refusal.bytes().map_or(String::new(), |bytes| self.spot(bytes.start as usize));
                format!("{name}{at}: {}\n", place::why(refusal))
            }
        };
        let note = |Note { at, what }: &Note| format!("{name}{}: note: {what}\n", self.spot(*at));
        line + &tokens.notes.iter().map(note).collect::<String>()
    }

    /// Behind the name: line and column.
    fn spot(&self, byte: usize) -> String {
        let Spot { line, column, .. } = Spot::of(&self.text, byte);
        format!(":{line}:{column}")
    }
}

/// What the files came to.
#[derive(Default)]
struct Count {
    accepted: usize,
    refused: usize,
    unread: usize,
}

impl Count {
    fn add(&mut self, outcome: &Result<Tree, Refusal>) {
        match outcome {
            Ok(_) => self.accepted += 1,
            Err(_) => self.refused += 1,
        }
    }

    /// The exit status: what could not be read outweighs a refusal, and that all trees.
    fn status(&self) -> u8 {
        match self {
            Count { unread: 1.., .. } => NO_ANSWER,
            Count { refused: 1.., .. } => REFUSED,
            _ => TREE,
        }
    }
}

impl fmt::Display for Count {
    fn fmt(&self, f: &mut fmt::Formatter<'_>) -> fmt::Result {
        let Count { accepted, refused, unread } = self;
        let all = accepted + refused + unread;
        let s = if all == 1 { "" } else { "s" };
        write!(f, "{all} file{s}: {accepted} accepted, {refused} refused")?;
        match unread {
            0 => Ok(()),
            _ => write!(f, ", {unread} not read"),
        }
    }
}
