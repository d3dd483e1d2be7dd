//! Each family of limit files one below, at and one above its limit, with the original's answer
//! and the highest figures of the pass. Fails where the answer is not the expected one.

use generator::limits::{FAMILIES, PATTERN_FAMILIES};
use original::{answer, peaks};
use programs::on_deep_stack;
use tree_file::Answer;

fn main() {
    let (mut passed, mut failed) = (0, 0);
    on_deep_stack(|| {
        for family in FAMILIES.iter().chain(PATTERN_FAMILIES) {
            for k in family.limit - 1..=family.limit + 1 {
                let answer = answer(&(family.make)(k), 16);
                let (good, shown) = match answer {
                    Answer::Refused(row) => (
                        k > family.limit && row == family.row,
                        format!("refused {row}"),
                    ),
                    Answer::Done(_) => (k <= family.limit, "passes".to_string()),
                };
                println!("{} {k}: {shown} {:?}", family.name, peaks());
                *if good { &mut passed } else { &mut failed } += 1;
            }
        }
    });
    println!("{passed} passed, {failed} failed");
    std::process::exit(i32::from(failed > 0));
}
