//! The tool's options.

use negbosun::MOST_RUNS;
use std::ffi::OsString;
use std::time::Duration;

pub const USAGE: &str = "usage: negbosun-inline [OPTIONS] [FILE]
       negbosun-inline --batch [OPTIONS]
       negbosun-inline canon [FILE]
       negbosun-inline resolve [FILE]
       negbosun-inline print [FILE]
       negbosun-inline same FILE FILE

Runs the pass on a tree file, or on standard input, and prints its result: a head line, a line for each node and one for each root
binding. A refusal is printed as `refused N`, and said in plain words on standard error.

  --runs N              at most N runs, 1 to 16 (16)
  --kinds FILE          a mill's own kind table, 48 lines of 48 digits or 2,304 bytes: what it forbids is refused
  --text                print the result as JavaScript, as print (below) does
  --time-limit SECONDS  stop if the pass takes longer (30; 0: no limit)
  --batch               standard input has a line `HEX` or `HEX RUNS` for each file; each is answered at once, with a blank line behind
  -h, --help            this text
  -V, --version         the version

Exit status: 0 done, 1 refused, 2 bad usage, 3 a file could not be read, 4 stopped by the time limit, 6 standard output is closed or full.
--batch counts no refusals. Time can double with each function inside another, so that a small file may take hours.

canon writes the one file of the file's script to standard output: texts in the order of their first use, none without use, contexts
numbered from 0 in the order of their first use. The exit status is as above.

resolve writes the file to standard output with each name's context worked out: the number of the innermost scope that declares it, or 0. What
contexts the file had does not matter. A script that declares a name twice where it may not is refused by 13. The exit status is as above.

print writes the script to standard output as JavaScript, which reads as the tree: tokens one blank apart, a line for each statement of the script,
parentheses where the tree has them or the reading needs them. Contexts do not show. A script that no text reads as is refused by 12, with the node and
the reason. The exit status is as above.

same says whether two files hold one script: whether they differ only in how texts and contexts are numbered and in texts without use.
Exit status: 0 one script, 1 two scripts, 2 bad usage, 3 a file could not be read or is no readable tree file, 6 as above.

None of the four takes an option, nor a kind table: they read a file by the kinds alone. A file called canon, resolve, print or same is ./canon,
./resolve, ./print or ./same here; - is standard input.";

const SECONDS: u64 = 30;

pub struct Options {
    pub runs: u32,
    /// None: as long as it takes.
    pub limit: Option<Duration>,
    pub batch: bool,
    /// The result as JavaScript, and not as lines.
    pub text: bool,
    /// The file of a kind table.
    pub kinds: Option<OsString>,
    pub path: Option<OsString>,
}

pub enum Wish {
    Help,
    Version,
    Run(Options),
    /// The one file of a script.
    Canon(Option<OsString>),
    /// The file with its names resolved.
    Resolve(Option<OsString>),
    /// The script as JavaScript.
    Print(Option<OsString>),
    /// Whether two files hold one.
    Same(OsString, OsString),
}

/// The words of the command line, options in both spellings: `--runs N` and `--runs=N`.
struct Words<I> {
    rest: I,
    joined: Option<String>,
}

impl<I: Iterator<Item = OsString>> Words<I> {
    /// An option's value: what is joined to it, or the next word.
    fn value(&mut self, option: &str, what: &str) -> Result<OsString, String> {
        let next = self.joined.take().map(OsString::from);
        next.or_else(|| self.rest.next())
            .ok_or(format!("{option} needs {what}"))
    }

    fn number<N: std::str::FromStr>(&mut self, option: &str) -> Result<N, String> {
        let text = self
            .value(option, "a number")?
            .to_string_lossy()
            .into_owned();
        text.parse()
            .map_err(|_| format!("{option} {text}: not a number, or too large"))
    }
}

/// An option's name and what stands behind its `=`; none for a file's name.
fn option(word: &OsString) -> Option<(String, Option<String>)> {
    let word = word.to_string_lossy();
    if !word.starts_with('-') || word == "-" {
        return None;
    }
    Some(match word.split_once('=') {
        Some((name, value)) => (name.to_owned(), Some(value.to_owned())),
        None => (word.into_owned(), None),
    })
}

impl Default for Options {
    fn default() -> Options {
        Options {
            runs: MOST_RUNS,
            limit: Some(Duration::from_secs(SECONDS)),
            batch: false,
            text: false,
            kinds: None,
            path: None,
        }
    }
}

impl Options {
    fn file(&mut self, path: OsString) -> Result<(), String> {
        match self.path.replace(path) {
            None => Ok(()),
            Some(_) => Err("one file at a time".into()),
        }
    }

    fn limit_to(&mut self, seconds: u64) {
        self.limit = (seconds > 0).then_some(Duration::from_secs(seconds));
    }
}

/// Takes an option with its value; help and version are wishes of their own.
fn take<I: Iterator<Item = OsString>>(
    name: &str,
    words: &mut Words<I>,
    options: &mut Options,
) -> Result<Option<Wish>, String> {
    match name {
        "-h" | "--help" => return Ok(Some(Wish::Help)),
        "-V" | "--version" => return Ok(Some(Wish::Version)),
        "--runs" => options.runs = words.number(name)?,
        "--time-limit" => options.limit_to(words.number(name)?),
        "--batch" => options.batch = true,
        "--text" => options.text = true,
        "--kinds" => options.kinds = Some(words.value(name, "a file")?),
        _ => return Err(format!("{name}: unknown option")),
    }
    match words.joined.take() {
        Some(_) => Err(format!("{name} takes no value")),
        None => Ok(None),
    }
}

/// The files of a subcommand, which has no options but help and version.
fn files(words: &[OsString]) -> Result<&[OsString], Result<Wish, String>> {
    match words.iter().find_map(option) {
        None => Ok(words),
        Some((name, _)) if name == "-h" || name == "--help" => Err(Ok(Wish::Help)),
        Some((name, _)) if name == "-V" || name == "--version" => Err(Ok(Wish::Version)),
        Some((name, _)) => Err(Err(format!("{name}: unknown option"))),
    }
}

/// A subcommand's wish for its one file, or for standard input.
fn of_one(words: &[OsString], wish: fn(Option<OsString>) -> Wish) -> Result<Wish, String> {
    match files(words) {
        Ok([]) => Ok(wish(None)),
        Ok([file]) => Ok(wish(Some(file.clone()))),
        Ok(_) => Err("one file at a time".into()),
        Err(other) => other,
    }
}

fn same(words: &[OsString]) -> Result<Wish, String> {
    match files(words) {
        Ok([one, two]) if one == "-" && two == "-" => Err("standard input is one file".into()),
        Ok([one, two]) => Ok(Wish::Same(one.clone(), two.clone())),
        Ok(_) => Err("same needs two files".into()),
        Err(other) => other,
    }
}

/// What the words of the command line ask for.
pub fn read(given: impl Iterator<Item = OsString>) -> Result<Wish, String> {
    let words: Vec<OsString> = given.collect();
    match words.split_first() {
        Some((first, rest)) if first == "canon" => of_one(rest, Wish::Canon),
        Some((first, rest)) if first == "resolve" => of_one(rest, Wish::Resolve),
        Some((first, rest)) if first == "print" => of_one(rest, Wish::Print),
        Some((first, rest)) if first == "same" => same(rest),
        _ => run(words.into_iter()),
    }
}

fn run(given: impl Iterator<Item = OsString>) -> Result<Wish, String> {
    let mut words = Words {
        rest: given,
        joined: None,
    };
    let mut options = Options::default();
    while let Some(word) = words.rest.next() {
        let Some((name, value)) = option(&word) else {
            options.file(word)?;
            continue;
        };
        words.joined = value;
        if let Some(wish) = take(&name, &mut words, &mut options)? {
            return Ok(wish);
        }
    }
    if options.batch && options.path.is_some() {
        return Err("--batch reads standard input alone".into());
    }
    if options.batch && options.text {
        return Err("--batch prints lines, and takes no --text".into());
    }
    Ok(Wish::Run(options))
}
