//! For reading: tree files as lines of hex digits, or scripts as lines of JavaScript, on standard
//! input; prints each script as JavaScript, then the original's answer in the same way, the root
//! bindings in brackets, a marked one with `!`.

use original::answer;
use programs::on_deep_stack;
use std::io::{self, BufRead};
use tree_file::parse::parse;
use tree_file::{from_hex, javascript, read, write, Answer, Script};

fn show(file: &[u8]) -> String {
    let script = match read(file) {
        Ok(script) => script,
        Err(row) => return format!("refused {row}\n"),
    };
    let before = javascript::print(&script);
    let Answer::Done(done) = answer(file, 16) else {
        return format!("{before}\n  {}", answer(file, 16));
    };
    let root = |(text, context, mark): &(u32, u64, bool)| {
        let name = String::from_utf8_lossy(&script.texts[*text as usize]);
        let context = if *context == 0 {
            String::new()
        } else {
            format!("${context}")
        };
        format!("{name}{context}{}", if *mark { "!" } else { "" })
    };
    let roots: Vec<String> = done.roots.iter().map(root).collect();
    let after = javascript::print(&Script {
        tree: done.tree,
        texts: script.texts.clone(),
    });
    let (runs, mark) = (done.runs, u8::from(done.changed));
    format!(
        "{before}\n  {after}   [{}] runs {runs} mark {mark}\n",
        roots.join(" ")
    )
}

fn main() {
    on_deep_stack(|| {
        for line in io::stdin().lock().lines() {
            let line = line.expect("standard input");
            match from_hex(line.trim()) {
                Some(file) => println!("{}", show(&file)),
                None => match parse(&line) {
                    Ok(script) => println!("{}", show(&write(&script))),
                    Err(what) => println!("not understood: {what}\n"),
                },
            }
        }
    });
}
