//! A JavaScript engine beside the original: runs a script and its result and compares traces.

use std::fmt;
use std::io::{self, BufRead, BufReader, Write};
use std::process::{Child, ChildStdin, ChildStdout, Command, Stdio};
use tree_file::javascript::print;
use tree_file::{Answer, Script};

pub struct Engine {
    child: Child,
    to: ChildStdin,
    from: BufReader<ChildStdout>,
}

pub enum Verdict {
    Refused,
    Unmoved,
    /// The engine ran too long or too deep in one of them.
    Unjudged,
    Judged {
        result: String,
        before: String,
        after: String,
    },
}

impl Verdict {
    /// Invalid scripts say nothing; invalid results would. Scripts that throw are judged only
    /// where asked for, else most finds would shrink to one that throws.
    pub fn differs(&self, throwing: bool) -> bool {
        match self {
            Verdict::Judged { before, after, .. } => {
                before != after
                    && !before.contains("invalid: ")
                    && (throwing || !before.contains("throws "))
            }
            _ => false,
        }
    }
}

impl fmt::Display for Verdict {
    fn fmt(&self, out: &mut fmt::Formatter) -> fmt::Result {
        match self {
            Verdict::Judged {
                result,
                before,
                after,
            } => writeln!(
                out,
                "    result: {result}\n    before: {before}\n    after:  {after}"
            ),
            _ => writeln!(out, "    not judged"),
        }
    }
}

fn quoted(text: &str) -> String {
    let escape = |c: char| match c {
        '"' | '\\' => format!("\\{c}"),
        ' '..='~' => c.to_string(),
        _ => format!("\\u{:04x}", c as u32),
    };
    format!("\"{}\"", text.chars().map(escape).collect::<String>())
}

impl Engine {
    pub fn start(folder: &str) -> io::Result<Engine> {
        let mut child = Command::new("node")
            .arg(format!("{folder}/run.js"))
            .stdin(Stdio::piped())
            .stdout(Stdio::piped())
            .spawn()?;
        let to = child.stdin.take().expect("a pipe");
        let from = BufReader::new(child.stdout.take().expect("a pipe"));
        Ok(Engine { child, to, from })
    }

    pub fn judge(&mut self, script: &Script) -> Verdict {
        let Answer::Done(done) = original::pass(script, 16) else {
            return Verdict::Refused;
        };
        if done.tree == script.tree {
            return Verdict::Unmoved;
        }
        let result = print(&Script {
            tree: done.tree,
            texts: script.texts.clone(),
        });
        let answer = self.ask(&print(script), &result);
        let answer = answer.expect("the engine answers");
        match answer.split_once("],[") {
            Some((before, after)) => Verdict::Judged {
                result,
                before: before.trim_start_matches('[').to_string(),
                after: after.trim_end().trim_end_matches(']').to_string(),
            },
            None => Verdict::Unjudged,
        }
    }

    fn ask(&mut self, before: &str, after: &str) -> io::Result<String> {
        writeln!(self.to, "[{},{}]", quoted(before), quoted(after))?;
        self.to.flush()?;
        let mut line = String::new();
        self.from.read_line(&mut line)?;
        Ok(line)
    }
}

impl Drop for Engine {
    fn drop(&mut self) {
        let _ = self.child.kill();
        let _ = self.child.wait();
    }
}
