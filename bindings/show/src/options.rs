//! The command line.

use std::ffi::OsString;
use std::path::PathBuf;

use krosstavel::{Entry, Kind, DEEPEST};

use crate::lexer::Tokens;

pub const USAGE: &str = "\
usage: show [OPTION].. TEXT
       show [OPTION].. --file FILE
       show [OPTION]..                 reads standard input, as does a TEXT or FILE.. of -
       show [OPTION].. --files FILE..  a line for each file

Prints the tree that krosstavel builds for a text, or why and where the text is refused.
The product has no lexer: the one here is for display only.

With --files, one call parses all files into one table (400 at a time, if there are more), and what is
printed is a line for each, its rows and tokens or why and where it is refused, and how many were which.

what the text is
  --exprs            expressions, a separator between them: a guard (the default)
  --root             statements: a script
  --format           one expression, then any tokens
  --separator TOKEN  the separator of --exprs: , unless given
  --limit N          the depth limit: 256 unless given
  --elements N       elements of the table: room enough unless given

what is printed: the grouping and the tree, or
  --trivia           the tree with whitespace and comments
  --rows             the rows of the table
  --json             answer, tokens and rows, for tools
  --dot              a graph for dot
  --svg FILE         a picture, into FILE

exit status: 0 a tree, 1 a refusal, 2 no answer (usage, or a text that cannot be read); of several
files the largest";

/// More elements than any tree takes, and no more memory than there is.
const MOST_ELEMENTS: u32 = 1 << 24;

/// Where a text comes from.
pub enum Source {
    Text(OsString),
    File(PathBuf),
    Input,
}

/// One text to look into, or files of which each gets a line.
pub enum Sources {
    One(Source),
    Files(Vec<Source>),
}

#[derive(PartialEq, Eq)]
pub enum Output {
    Tree { trivia: bool },
    Rows,
    Json,
    Dot,
    Svg(PathBuf),
}

impl Output {
    /// The option that asks for it; what is printed without one has none.
    fn option(&self) -> Option<&'static str> {
        match self {
            Output::Tree { trivia: false } => None,
            Output::Tree { trivia: true } => Some("--trivia"),
            Output::Rows => Some("--rows"),
            Output::Json => Some("--json"),
            Output::Dot => Some("--dot"),
            Output::Svg(_) => Some("--svg"),
        }
    }
}

pub struct Options {
    pub entry: Entry,
    pub limit: u32,
    pub elements: Option<usize>,
    pub output: Output,
    pub sources: Sources,
}

impl Options {
    /// Reads the arguments after the program's name. `None`: help was asked for.
    pub fn read(mut args: impl Iterator<Item = OsString>) -> Result<Option<Options>, String> {
        let mut options = Options {
            entry: Entry::Exprs(Kind::Comma.into()),
            limit: DEEPEST,
            elements: None,
            output: Output::Tree { trivia: false },
            sources: Sources::One(Source::Input),
        };
        let mut separator = None;
        let mut several = false;
        let mut words = Vec::new();
        while let Some(arg) = args.next() {
            match arg.to_str() {
                Some("--help" | "-h") => return Ok(None),
                Some("--") => words.extend(args.by_ref()),
                Some("--files") => several = true,
                Some("--separator") => separator = Some(separator_of(&value(&arg, args.next())?)?),
                Some(name) if name.starts_with("--") => options.set(name, &mut args)?,
                _ => words.push(arg),
            }
        }
        if several {
            options.take_files(words)?;
        } else {
            options.take_text(words)?;
        }
        if let Some(separator) = separator {
            options.set_separator(separator)?;
        }
        Ok(Some(options))
    }

    fn set(&mut self, name: &str, args: &mut impl Iterator<Item = OsString>) -> Result<(), String> {
        let mut given = || value(&name.into(), args.next());
        match name {
            "--exprs" => self.entry = Entry::Exprs(Kind::Comma.into()),
            "--root" => self.entry = Entry::Root,
            "--format" => self.entry = Entry::Format,
            "--limit" => self.limit = number(name, &given()?)?,
            "--elements" => self.elements = Some(number::<u32>(name, &given()?)?.min(MOST_ELEMENTS) as usize),
            "--trivia" => self.output = Output::Tree { trivia: true },
            "--rows" => self.output = Output::Rows,
            "--json" => self.output = Output::Json,
            "--dot" => self.output = Output::Dot,
            "--svg" => self.output = Output::Svg(given()?.into()),
            "--file" => self.take_file(given()?.into())?,
            _ => return Err(format!("no option {name} (a text that begins so goes after --)")),
        }
        Ok(())
    }

    fn take_file(&mut self, file: PathBuf) -> Result<(), String> {
        if let Sources::One(Source::File(_)) = self.sources {
            return Err("more than one --file: --files takes several".to_owned());
        }
        self.sources = Sources::One(Source::File(file));
        Ok(())
    }

    fn take_text(&mut self, texts: Vec<OsString>) -> Result<(), String> {
        let mut texts = texts.into_iter();
        match (texts.next(), texts.next(), &self.sources) {
            (_, Some(_), _) => Err("more than one text: put quotes round it".to_owned()),
            (Some(_), None, Sources::One(Source::File(_))) => Err("both a text and a file".to_owned()),
            (Some(text), None, _) if text != "-" => {
                self.sources = Sources::One(Source::Text(text));
                Ok(())
            }
            _ => Ok(()),
        }
    }

    fn take_files(&mut self, names: Vec<OsString>) -> Result<(), String> {
        if let Sources::One(Source::File(_)) = self.sources {
            return Err("both --file and --files".to_owned());
        }
        if let Some(option) = self.output.option() {
            return Err(format!("{option} goes with one text: --files prints a line for each file"));
        }
        if names.is_empty() {
            return Err("--files lacks its files".to_owned());
        }
        let source = |name: OsString| if name == "-" { Source::Input } else { Source::File(name.into()) };
        self.sources = Sources::Files(names.into_iter().map(source).collect());
        Ok(())
    }

    fn set_separator(&mut self, separator: u32) -> Result<(), String> {
        match &mut self.entry {
            Entry::Exprs(kind) => {
                *kind = separator;
                Ok(())
            }
            _ => Err("--separator goes with --exprs alone".to_owned()),
        }
    }
}

fn value(name: &OsString, given: Option<OsString>) -> Result<OsString, String> {
    given.ok_or_else(|| format!("{} lacks its value", name.display()))
}

fn number<N: std::str::FromStr>(name: &str, given: &OsString) -> Result<N, String> {
    let text = given.to_str().unwrap_or_default();
    let number = text.parse();
    number.map_err(|_| format!("{name} {}: not a number that it may be", given.display()))
}

/// The kind of the one token that a text holds.
fn separator_of(given: &OsString) -> Result<u32, String> {
    let tokens = Tokens::of(given.to_str().unwrap_or_default());
    match tokens.kinds.as_slice() {
        [kind] => Ok((*kind).into()),
        _ => Err(format!("--separator {}: not one token", given.display())),
    }
}
