//! The port's answers in the oracle's types, and its buffers after refusals.

use negbosun::{inline_into, Inliner, Refusal, MOST_BYTES, WORDS};
use tree_file::{read, Answer, Outcome, Script};

/// The port's answer for a file; the result is taken apart by the oracle's own reader.
pub fn answer(inliner: &mut Inliner, file: &[u8], runs: u32) -> Result<Answer, String> {
    let inlined = match inliner.inline(file, runs) {
        Ok(inlined) => inlined,
        Err(refusal) => return Ok(Answer::Refused(refusal.number() as u8)),
    };
    let result =
        read(inlined.file()).map_err(|row| format!("the result is not readable: row {row}"))?;
    let texts = read(file)
        .map_err(|row| format!("an unreadable file passed: row {row}"))?
        .texts;
    if result.texts != texts {
        return Err("the result has other texts".into());
    }
    Ok(Answer::Done(Outcome {
        runs: inlined.runs(),
        changed: inlined.changed(),
        tree: result.tree,
        roots: inlined
            .roots()
            .map(|root| (root.text_number(), root.context(), root.prevented()))
            .collect(),
    }))
}

fn marked_words() -> Vec<u32> {
    (0..WORDS as u32 + 8)
        .map(|i| i.wrapping_mul(2_654_435_761) | 1)
        .collect()
}

fn are_cleared(words: &[u32]) -> bool {
    words[..WORDS].iter().all(|word| *word == 0) && words[WORDS..] == marked_words()[WORDS..]
}

/// Row 10 one below the result's length, and none at it; rows 1 and 10 keep the buffers as they must.
pub fn keeps_buffers(file: &[u8], runs: u32, length: usize) -> bool {
    let mut words = marked_words();
    let mut result = vec![0xa5; MOST_BYTES];
    let below = inline_into(file, &mut result[..length - 1], &mut words, runs);
    let refused =
        below == Err(Refusal::Room) && are_cleared(&words) && result.iter().all(|b| *b == 0xa5);
    let mut words = marked_words();
    let at = inline_into(file, &mut result[..length], &mut words, runs);
    let passed = at.is_ok_and(|done| done.length == length)
        && are_cleared(&words)
        && result[length..].iter().all(|b| *b == 0xa5);
    let (before, mut words) = (result.clone(), marked_words());
    let few = inline_into(file, &mut result, &mut words[..WORDS - 1], runs);
    refused
        && passed
        && few == Err(Refusal::RunsOrWords)
        && words == marked_words()
        && result == before
}

/// The length of the file of an answer.
pub fn length(script: &Script, answer: &Answer) -> Option<usize> {
    match answer {
        Answer::Refused(_) => None,
        Answer::Done(done) => Some(original::result(script, done).len()),
    }
}
