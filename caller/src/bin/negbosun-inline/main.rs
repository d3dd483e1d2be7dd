//! The pass on a tree file, and the one file of a script, from the command line.

mod archive;
mod options;
mod output;
mod timed;
mod visible;

use negbosun::{printed, KindTable, Refusal, MOST_BYTES, TABLE_BYTES};
use options::{Options, Wish, USAGE};
use output::put;
use std::ffi::OsStr;
use std::fs::File;
use std::io::{self, BufRead, BufWriter, Read, Write};
use std::process::ExitCode;
use timed::Timed;
use visible::{visible, visible_name};

const REFUSED: u8 = 1;
const USED_WRONGLY: u8 = 2;
const NOT_READ: u8 = 3;
const TOO_LONG: u8 = 4;

/// Why there is no answer: an exit status and a line.
struct Trouble(u8, String);

impl Trouble {
    fn io(what: &str, error: &io::Error) -> Trouble {
        Trouble(NOT_READ, format!("{what}: {error}"))
    }

    /// The condition, and what the file has there, or the kind table. How long a file is that was not read to its end, nobody knows.
    fn refused(
        name: &str,
        refusal: Refusal,
        file: &[u8],
        options: &Options,
        table: Option<&KindTable>,
    ) -> Trouble {
        let known = match table {
            Some(table) => refusal.found_under(file, table),
            None => refusal.found(file),
        };
        let found = match refusal {
            Refusal::Lengths if file.len() > MOST_BYTES => {
                "; it has over 21,536 bytes, the most that a file can have".into()
            }
            Refusal::RunsOrWords => format!("; --runs is {}", options.runs),
            _ => known.map_or(String::new(), |found| format!("; it has {found}")),
        };
        let advice = match refusal {
            Refusal::Header => {
                ". Is it a script's text? script/inline (installed: negbosun-script) takes that"
            }
            _ => "",
        };
        Trouble(REFUSED, format!("{name}: {refusal}{found}{advice}"))
    }

    fn too_long(name: &str, options: &Options) -> Trouble {
        let seconds = options.limit.map_or(0, |limit| limit.as_secs());
        let line = format!(
            "{name}: stopped, no answer within {seconds} s; time can double with each function inside another. \
             --time-limit SECONDS allows more (0: no limit)"
        );
        Trouble(TOO_LONG, line)
    }
}

/// A line on standard error. Where even that cannot be written, nothing is left to say it with.
fn say(line: &str) {
    let _ = writeln!(io::stderr(), "negbosun-inline: {line}");
}

fn print(text: &str) -> Result<(), Trouble> {
    put(text.as_bytes())
}

/// The first bytes, one more than any readable file has: a longer file is refused as these are.
fn first_bytes(from: impl Read) -> io::Result<Vec<u8>> {
    let mut file = Vec::new();
    from.take(MOST_BYTES as u64 + 1).read_to_end(&mut file)?;
    Ok(file)
}

/// Standard input is read to its end, so that whoever writes it is not cut off.
fn read(path: Option<&OsStr>) -> io::Result<Vec<u8>> {
    match path {
        Some(path) if path != "-" => first_bytes(File::open(path)?),
        _ => {
            let mut input = io::stdin().lock();
            let file = first_bytes(&mut input)?;
            io::copy(&mut input, &mut io::sink())?;
            Ok(file)
        }
    }
}

/// A file's name for people, and its bytes.
fn named(path: Option<&OsStr>) -> Result<(String, Vec<u8>), Trouble> {
    let path = path.filter(|path| *path != "-");
    let name = path.map_or("standard input".into(), visible_name);
    let file = read(path).map_err(|error| Trouble::io(&name, &error))?;
    Ok((name, file))
}

/// A kind table: the 2,304 bytes, or the lines that the program `kind_table` prints.
fn kinds(path: &OsStr) -> Result<KindTable, Trouble> {
    let name = visible_name(path);
    let bytes = std::fs::read(path).map_err(|error| Trouble::io(&name, &error))?;
    let is_text = bytes.iter().any(|byte| *byte > 1) || bytes.len() != TABLE_BYTES;
    let table = if is_text {
        String::from_utf8_lossy(&bytes).parse()
    } else {
        KindTable::from_bytes(&bytes)
    };
    table.map_err(|error| {
        let words = visible(&error.to_string());
        Trouble(NOT_READ, format!("{name}: no kind table: {words}"))
    })
}

fn lent(options: &Options) -> Result<Option<KindTable>, Trouble> {
    options.kinds.as_deref().map(kinds).transpose()
}

fn timed(options: &Options, table: Option<KindTable>) -> Result<Timed, Trouble> {
    Timed::new(options.limit, table).map_err(|error| Trouble::io("no thread", &error))
}

fn single(options: &Options) -> Result<u8, Trouble> {
    let table = lent(options)?;
    let (name, file) = named(options.path.as_deref())?;
    let answer = timed(options, table.clone())?.answer(file.clone(), options.runs);
    let answer = answer.ok_or_else(|| Trouble::too_long(&name, options))?;
    match &answer {
        Ok(inlined) if options.text => print(&archive::text_of_result(&name, inlined.file())?)?,
        Err(_) if options.text => {}
        _ => print(&printed(&answer))?,
    }
    match answer {
        Ok(_) => Ok(0),
        Err(refusal) => {
            let table = table.as_ref();
            Err(Trouble::refused(&name, refusal, &file, options, table))
        }
    }
}

fn from_hex(line: &str) -> Option<Vec<u8>> {
    let digits: Option<Vec<u8>> = line.bytes().map(hex_digit).collect();
    let digits = digits.filter(|digits| digits.len() % 2 == 0)?;
    let bytes = digits.chunks(2);
    Some(
        bytes
            .map(|pair| pair.iter().fold(0, |byte, digit| byte * 16 + digit))
            .collect(),
    )
}

fn hex_digit(character: u8) -> Option<u8> {
    let digit = char::from(character).to_digit(16)?;
    u8::try_from(digit).ok()
}

/// A file and its run limit, or what is wrong with the line.
fn request(line: &str, runs: u32) -> Result<(Vec<u8>, u32), &'static str> {
    let (hex, limit) = match line.split_once(' ') {
        Some((hex, limit)) => (hex, limit.parse().map_err(|_| "not a number")?),
        None => (line, runs),
    };
    Ok((from_hex(hex).ok_or("not hex")?, limit))
}

fn batch(options: &Options) -> Result<u8, Trouble> {
    let input = |error: io::Error| Trouble::io("standard input", &error);
    let output = |error: io::Error| output::failed(&error);
    let mut out = BufWriter::new(output::opened()?);
    let timed = timed(options, lent(options)?)?;
    for (number, line) in (1..).zip(io::stdin().lock().lines()) {
        let text = match request(&line.map_err(input)?, options.runs) {
            Ok((file, runs)) => timed.answer(file, runs).map(|answer| printed(&answer)),
            Err(problem) => Some(format!("{problem}\n")),
        };
        let text = text.ok_or_else(|| Trouble::too_long(&format!("line {number}"), options))?;
        writeln!(out, "{text}").map_err(output)?;
        // Whoever asks may wait for this answer before asking on.
        out.flush().map_err(output)?;
    }
    Ok(0)
}

fn run() -> Result<u8, Trouble> {
    let wish = options::read(std::env::args_os().skip(1))
        .map_err(|problem| Trouble(USED_WRONGLY, format!("{}\n{USAGE}", visible(&problem))))?;
    match wish {
        Wish::Help => print(&format!("{USAGE}\n")).map(|()| 0),
        Wish::Version => {
            print(concat!("negbosun-inline ", env!("CARGO_PKG_VERSION"), "\n")).map(|()| 0)
        }
        Wish::Canon(path) => archive::canon(path.as_deref()).map(|()| 0),
        Wish::Resolve(path) => archive::resolve(path.as_deref()).map(|()| 0),
        Wish::Print(path) => archive::text(path.as_deref()).map(|()| 0),
        Wish::Same(one, two) => archive::same(&one, &two).map(|same| u8::from(!same)),
        Wish::Run(options) if options.batch => batch(&options),
        Wish::Run(options) => single(&options),
    }
}

fn main() -> ExitCode {
    ExitCode::from(run().unwrap_or_else(|Trouble(status, line)| {
        say(&line);
        status
    }))
}
