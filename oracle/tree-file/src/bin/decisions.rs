//! The inputs of docs/DECISIONS.md: `decisions list FILE` prints each as a line `HEX RUNS`, `decisions check FILE` holds the answers on standard
//! input, as `negbosun-inline --batch` gives them, to what the document says, and counts; `decisions resolver FILE` prints each input of the resolver
//! as a line `HEX CONTEXTS` or `HEX refused N`, which tests/resolve.py checks; `decisions printer FILE` each input of the printer as `HEX TEXT` or
//! `HEX refused N`, which tests/text.py checks.
//!
//! An input stands in the document as `` `SCRIPT` → OUTCOME ``. A script is JavaScript as `parse` takes it, with `«193 [»` for 193 times `[`; or
//! it begins with `nodes` and has its nodes as `KIND.FORM/CHILDREN:TEXT`, each part but the kind left out where it is 0 or none. An outcome is `same` (the script,
//! one run, no mark), `refused N`, or the result as a script; `in N runs` and `with roots` and a list of name and mark may follow. An input of the resolver
//! is `` `SCRIPT` ⇒ OUTCOME ``, the outcome `refused N`, or the contexts of the names in the order of the nodes, as in `` `x; var y;` ⇒ 0, 1 ``. An input of the printer
//! is `` `SCRIPT` ⟶ OUTCOME ``, the outcome `refused N`, or the text, in which a blank stands for a line end, as in `` `x;y;` ⟶ `x ; y ;` ``. Each numbered
//! entry has an input, or says why none shows it: "No input" or "No script".

use std::io::{self, BufRead};
use tree_file::javascript::print;
use tree_file::parse::parse;
use tree_file::{to_hex, write, Script, Tree};

type Fault = String;

enum Outcome {
    Same,
    Refused(u32),
    Result(String),
}

struct Input {
    entry: u32,
    source: String,
    outcome: Outcome,
    runs: Option<u32>,
    roots: Option<String>,
}

/// `«COUNT TEXT»` written out.
fn repeated(source: &str) -> Result<String, Fault> {
    let mut text = String::new();
    let mut rest = source;
    while let Some((before, more)) = rest.split_once('«') {
        let (inner, after) = more.split_once('»').ok_or("an open «")?;
        let (count, what) = inner.split_once(' ').ok_or("no count behind «")?;
        let count: usize = count.parse().map_err(|_| "no count behind «")?;
        text.push_str(before);
        text.push_str(&what.repeat(count));
        rest = after;
    }
    text.push_str(rest);
    Ok(text)
}

/// A number before a sign, and what is behind it; 0 where the sign is not there.
fn part(text: &str, sign: char) -> Result<(&str, u32), Fault> {
    match text.split_once(sign) {
        None => Ok((text, 0)),
        Some((before, number)) => {
            let number = number.parse().map_err(|_| format!("no number in {text}"))?;
            Ok((before, number))
        }
    }
}

/// A file of nodes that need be no script.
fn raw(words: &str) -> Result<Vec<u8>, Fault> {
    let mut texts: Vec<&str> = Vec::new();
    let mut nodes = Vec::new();
    for word in words.split_whitespace() {
        let (numbers, text) = match word.split_once(':') {
            None => (word, 0),
            Some((numbers, name)) => {
                let found = texts.iter().position(|text| *text == name);
                let at = found.unwrap_or_else(|| {
                    texts.push(name);
                    texts.len() - 1
                });
                (numbers, at as u32)
            }
        };
        let (numbers, children) = part(numbers, '/')?;
        let (kind, form) = part(numbers, '.')?;
        let kind: u8 = kind.parse().map_err(|_| format!("no kind in {word}"))?;
        nodes.extend([kind, form as u8]);
        nodes.extend((children as u16).to_le_bytes());
        nodes.extend(text.to_le_bytes());
        nodes.extend([0; 8]);
    }
    let all = texts.concat();
    let (count, ends_at) = (nodes.len() / 16, 32 + nodes.len());
    let bytes_at = ends_at + 4 * texts.len();
    let header = [
        1,
        bytes_at + all.len(),
        count,
        32,
        texts.len(),
        ends_at,
        bytes_at,
        all.len(),
    ];
    let mut file: Vec<u8> = header
        .iter()
        .flat_map(|field| (*field as u32).to_le_bytes())
        .collect();
    file.extend(nodes);
    let ends = texts.iter().scan(0, |end, text| {
        *end += text.len() as u32;
        Some(*end)
    });
    file.extend(ends.flat_map(u32::to_le_bytes));
    file.extend(all.bytes());
    Ok(file)
}

fn file_of(source: &str) -> Result<Vec<u8>, Fault> {
    match source.strip_prefix("nodes ") {
        Some(words) => raw(words),
        None => Ok(write(&parse(&repeated(source)?)?)),
    }
}

/// The text between two backquotes at the beginning, and what is behind it.
fn quoted(text: &str) -> Option<(&str, &str)> {
    text.strip_prefix('`')?.split_once('`')
}

fn number_at(text: &str) -> Option<u32> {
    let digits: String = text.chars().take_while(char::is_ascii_digit).collect();
    digits.parse().ok()
}

/// What stands behind an arrow.
fn outcome(entry: u32, source: &str, after: &str) -> Result<Input, Fault> {
    let bad = || format!("entry {entry}: no outcome after `{source}` →");
    let (outcome, rest) = if let Some(rest) = after.strip_prefix("same") {
        (Outcome::Same, rest)
    } else if let Some(rest) = after.strip_prefix("refused ") {
        (Outcome::Refused(number_at(rest).ok_or_else(bad)?), rest)
    } else {
        let (result, rest) = quoted(after).ok_or_else(bad)?;
        (Outcome::Result(result.into()), rest)
    };
    let (runs, rest) = match rest.strip_prefix(" in ") {
        Some(rest) => (
            Some(number_at(rest).ok_or_else(bad)?),
            rest.split_once(" run").ok_or_else(bad)?.1,
        ),
        None => (None, rest),
    };
    let roots = rest.trim_start_matches('s').strip_prefix(" with roots ");
    let roots = roots.and_then(quoted).map(|(roots, _)| roots.into());
    Ok(Input {
        entry,
        source: source.into(),
        outcome,
        runs,
        roots,
    })
}

/// The numbered entries of a document, each in one line.
fn entries(document: &str) -> Vec<(u32, String)> {
    let mut all: Vec<(u32, String)> = Vec::new();
    let mut open = false;
    for line in document.lines() {
        let number = number_at(line).filter(|_| line.contains(". **"));
        if let Some(number) = number {
            all.push((number, line.into()));
            open = true;
        } else if line.starts_with(' ') && open {
            if let Some((_, text)) = all.last_mut() {
                text.push(' ');
                text.push_str(line.trim());
            }
        } else {
            open = false;
        }
    }
    all
}

fn inputs(document: &str) -> Result<Vec<Input>, Fault> {
    let mut all = Vec::new();
    let mut last = 0;
    for (entry, text) in entries(document) {
        if entry <= last {
            return Err(format!("entry {entry} stands behind {last}"));
        }
        last = entry;
        let before = all.len();
        let mut pieces = text.split(" → ");
        let mut piece = pieces.next().unwrap_or("");
        for after in pieces {
            let source = piece.strip_suffix('`').and_then(|it| it.rsplit_once('`'));
            let (_, source) =
                source.ok_or_else(|| format!("entry {entry}: an arrow without a script"))?;
            all.push(outcome(entry, source, after)?);
            piece = after;
        }
        let says_none = text.contains("No input") || text.contains("No script");
        if all.len() == before && !text.contains(['⇒', '⟶']) && !says_none {
            return Err(format!("entry {entry} has no input, and does not say why"));
        }
    }
    Ok(all)
}

/// The script before each arrow of that sort in an entry, and what stands behind it, as `outcome` reads it where it is no refusal.
fn behind(
    arrow: &str,
    outcome: fn(&str) -> Option<String>,
    entry: u32,
    text: &str,
) -> Result<Vec<(String, String)>, Fault> {
    let pieces: Vec<&str> = text.split(arrow).collect();
    let pairs = pieces.iter().zip(pieces.iter().skip(1));
    let inputs = pairs.map(|(before, after)| {
        let source = before.strip_suffix('`').and_then(|it| it.rsplit_once('`'));
        let (_, source) = source.ok_or("an arrow without a script")?;
        let outcome = match after.strip_prefix("refused ") {
            Some(number) => format!("refused {}", number_at(number).ok_or("no number")?),
            None => outcome(after).ok_or("no outcome")?,
        };
        Ok((source.to_string(), outcome))
    });
    let inputs: Result<_, &str> = inputs.collect();
    inputs.map_err(|fault| format!("entry {entry}: {fault}"))
}

/// The numbers that a text begins with, a comma and a blank between them.
fn contexts(text: &str) -> Option<String> {
    let is_other = |sign: char| !sign.is_ascii_digit() && sign != ',' && sign != ' ';
    let end = text.find(is_other).unwrap_or(text.len());
    let numbers = text[..end].split(',').map(str::trim);
    let numbers: Vec<&str> = numbers.take_while(|number| !number.is_empty()).collect();
    (!numbers.is_empty()).then(|| numbers.join(" "))
}

/// The text between backquotes that a text begins with.
fn printed(text: &str) -> Option<String> {
    quoted(text).map(|(printed, _)| printed.into())
}

/// A line for each input of the resolver or the printer.
fn of_others(
    document: &str,
    arrow: &str,
    outcome: fn(&str) -> Option<String>,
) -> Result<(), Fault> {
    for (entry, text) in entries(document) {
        for (source, outcome) in behind(arrow, outcome, entry, &text)? {
            let file =
                file_of(&source).map_err(|fault| format!("entry {entry}: `{source}`: {fault}"))?;
            println!("{} {outcome}", to_hex(&file));
        }
    }
    Ok(())
}

/// The tree that an answer's lines are, with the texts of the script that was given.
fn tree(lines: &mut dyn Iterator<Item = &str>) -> Option<Tree> {
    let mut fields = lines.next()?.split(' ');
    let kind = fields.next()?.parse().ok()?;
    let form = fields.next()?.parse().ok()?;
    let count: usize = fields.next()?.parse().ok()?;
    let text = fields.next()?.parse().ok()?;
    let bits = u64::from_str_radix(fields.next()?, 16).ok()?;
    let kids: Option<Vec<Tree>> = (0..count).map(|_| tree(lines)).collect();
    Some(Tree {
        kind,
        form,
        text,
        bits,
        kids: kids?,
    })
}

fn root_line(line: &str, texts: &[Vec<u8>]) -> Option<String> {
    let fields: Vec<&str> = line.strip_prefix("root ")?.split(' ').collect();
    let text = texts.get(fields.first()?.parse::<usize>().ok()?)?;
    let name = String::from_utf8_lossy(text).into_owned();
    Some(format!("{name} {}", fields.get(2)?))
}

/// What is wrong with an answer.
fn wrong(input: &Input, answer: &[String]) -> Result<Option<String>, Fault> {
    let head = answer.first().map_or("", String::as_str);
    if let Outcome::Refused(number) = input.outcome {
        return Ok((head != format!("refused {number}")).then(|| head.into()));
    }
    let given = parse(&repeated(&input.source)?)?;
    let words: Vec<&str> = head.split(' ').collect();
    let [_, _, runs, _, mark, ..] = words[..] else {
        return Ok(Some(head.into()));
    };
    let Some(result) = tree(&mut answer[1..].iter().map(String::as_str)) else {
        return Ok(Some("no tree".into()));
    };
    let result = print(&Script {
        tree: result,
        texts: given.texts.clone(),
    });
    let expected = match &input.outcome {
        Outcome::Result(text) => print(&parse(&repeated(text)?)?),
        _ => print(&given),
    };
    if result != expected {
        return Ok(Some(result));
    }
    let runs_expected = match input.outcome {
        Outcome::Same => Some("1".into()),
        _ => input.runs.map(|runs| runs.to_string()),
    };
    if runs_expected.is_some_and(|expected| expected != runs)
        || (matches!(input.outcome, Outcome::Same) && mark != "0")
    {
        return Ok(Some(head.into()));
    }
    let roots: Vec<String> = answer
        .iter()
        .filter_map(|line| root_line(line, &given.texts))
        .collect();
    Ok(input
        .roots
        .as_ref()
        .filter(|expected| **expected != roots.join(", "))
        .map(|_| roots.join(", ")))
}

fn check(all: &[Input]) -> Result<(usize, usize), Fault> {
    let (mut passed, mut failed) = (0, 0);
    let mut lines = io::stdin().lock().lines();
    for input in all {
        let mut answer = Vec::new();
        for line in lines.by_ref() {
            let line = line.map_err(|error| error.to_string())?;
            if line.is_empty() {
                break;
            }
            answer.push(line);
        }
        match wrong(input, &answer)? {
            None => passed += 1,
            Some(is) => {
                failed += 1;
                println!("entry {}: `{}`: {is}", input.entry, input.source);
            }
        }
    }
    Ok((passed, failed))
}

fn run() -> Result<bool, Fault> {
    let words: Vec<String> = std::env::args().skip(1).collect();
    let [wish, path] = &words[..] else {
        return Err(
            "usage: decisions list FILE | decisions check FILE < ANSWERS | decisions resolver FILE | decisions printer FILE"
                .into(),
        );
    };
    let document = std::fs::read_to_string(path).map_err(|error| format!("{path}: {error}"))?;
    let all = inputs(&document)?;
    if wish == "resolver" {
        return of_others(&document, " ⇒ ", contexts).map(|()| true);
    }
    if wish == "printer" {
        return of_others(&document, " ⟶ ", printed).map(|()| true);
    }
    if wish == "list" {
        for input in &all {
            let file = file_of(&input.source)
                .map_err(|fault| format!("entry {}: `{}`: {fault}", input.entry, input.source))?;
            println!("{} 16", to_hex(&file));
        }
        return Ok(true);
    }
    let (passed, failed) = check(&all)?;
    println!("{passed} passed, {failed} failed");
    Ok(failed == 0)
}

fn main() {
    let ok = run().unwrap_or_else(|fault| {
        eprintln!("decisions: {fault}");
        false
    });
    std::process::exit(i32::from(!ok));
}
