//! Another program that answers tree files, one line at a time.

use std::io::{self, BufRead, BufReader, Write};
use std::process::{Child, ChildStdin, ChildStdout, Command, Stdio};
use tree_file::to_hex;

pub struct Other {
    child: Child,
    to: ChildStdin,
    from: BufReader<ChildStdout>,
}

impl Other {
    pub fn start(command: &[String]) -> io::Result<Other> {
        let mut child = Command::new(&command[0])
            .args(&command[1..])
            .stdin(Stdio::piped())
            .stdout(Stdio::piped())
            .spawn()?;
        let to = child.stdin.take().expect("a pipe");
        let from = BufReader::new(child.stdout.take().expect("a pipe"));
        Ok(Other { child, to, from })
    }

    /// The answer as printed; one that ended early says why.
    pub fn answer(&mut self, file: &[u8], runs: u32) -> String {
        let asked = self.ask(file, runs);
        asked.unwrap_or_else(|error| format!("no answer: {error}\n"))
    }

    fn ask(&mut self, file: &[u8], runs: u32) -> io::Result<String> {
        self.to
            .write_all(format!("{} {runs}\n", to_hex(file)).as_bytes())?;
        self.to.flush()?;
        let mut answer = String::new();
        loop {
            let start = answer.len();
            if self.from.read_line(&mut answer)? == 0 {
                return Err(io::ErrorKind::UnexpectedEof.into());
            }
            if &answer[start..] == "\n" {
                answer.truncate(start);
                return Ok(answer);
            }
        }
    }
}

impl Drop for Other {
    fn drop(&mut self) {
        let _ = self.child.kill();
        let _ = self.child.wait();
    }
}
