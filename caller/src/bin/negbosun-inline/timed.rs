//! The pass in a thread of its own, so that whoever waits for an answer can stop waiting.

use negbosun::{Inlined, Inliner, KindTable, Refusal};
use std::io;
use std::sync::mpsc::{channel, Receiver, Sender};
use std::thread;
use std::time::Duration;

pub type Answer = Result<Inlined, Refusal>;

/// The thread ends with the process, or when it is dropped while it has nothing to do: a call that has begun cannot be interrupted.
pub struct Timed {
    files: Sender<(Vec<u8>, u32)>,
    answers: Receiver<Answer>,
    limit: Option<Duration>,
}

impl Timed {
    /// Under that kind table, if one is lent.
    pub fn new(limit: Option<Duration>, table: Option<KindTable>) -> io::Result<Timed> {
        let (files, given) = channel::<(Vec<u8>, u32)>();
        let (answer, answers) = channel();
        thread::Builder::new().spawn(move || {
            let mut inliner = Inliner::new();
            for (file, runs) in given {
                let made = match &table {
                    Some(table) => inliner.inline_under(&file, table, runs),
                    None => inliner.inline(&file, runs),
                };
                if answer.send(made).is_err() {
                    return;
                }
            }
        })?;
        Ok(Timed {
            files,
            answers,
            limit,
        })
    }

    /// The answer for a file, or none within the limit. None is the last: nothing more can be asked then.
    pub fn answer(&self, file: Vec<u8>, runs: u32) -> Option<Answer> {
        self.files.send((file, runs)).ok()?;
        match self.limit {
            Some(limit) => self.answers.recv_timeout(limit).ok(),
            None => self.answers.recv().ok(),
        }
    }
}
