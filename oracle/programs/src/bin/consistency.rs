//! What must hold of generator, reader and original among themselves: `consistency SEED COUNT`.
//!
//! Of each random script, one in three of them with patterns: it is read back as it was written; the
//! result is readable too, and has the assignments of its script; paired copies are readable and
//! treated alike; a damaged copy is refused or read back as it was.

use generator::{damage, pairs, rng::Rng, Sort};
use original::{pass, result};
use programs::on_deep_stack;
use tree_file::{assignments, read, write, Answer, Script};

fn is_read_back(script: &Script) -> bool {
    read(&write(script)).as_ref() == Ok(script)
}

fn is_alike(rng: &mut Rng, script: &Script, answer: &Answer, runs: u32) -> bool {
    let copy = pairs::paired(rng, script);
    let tagged = pairs::tagged(script);
    let answers = [answer, &pass(&copy, runs), &pass(&tagged, runs)];
    is_read_back(&copy) && is_read_back(&tagged) && pairs::alike(script, &copy, answers)
}

fn is_readable(script: &Script, answer: &Answer) -> bool {
    match answer {
        Answer::Refused(row) => matches!(row, 8 | 9),
        Answer::Done(done) => read(&result(script, done)).is_ok(),
    }
}

fn has_assignments(script: &Script, answer: &Answer) -> bool {
    match answer {
        Answer::Refused(_) => true,
        Answer::Done(done) => assignments::kept(&script.tree, &done.tree),
    }
}

fn damage_is_seen(rng: &mut Rng, script: &Script) -> bool {
    let file = damage::damage(rng, &write(script));
    read(&file).map_or_else(|row| (2..=7).contains(&row), |read| write(&read) == file)
}

fn main() {
    let given: Vec<u64> = std::env::args().skip(1).flat_map(|n| n.parse()).collect();
    let &[seed, count] = &given[..] else {
        eprintln!("usage: consistency SEED COUNT");
        std::process::exit(2);
    };
    let (mut passed, mut failed) = (0, 0);
    on_deep_stack(|| {
        let mut rng = Rng::new(seed);
        for number in 0..count {
            let high = *rng.pick(&[30, 60, 120, 400, 1024]);
            let sort = Sort::any(&mut rng);
            let mut script = sort.script(&mut rng, 5, high);
            if rng.once_in(4) {
                script = sort.near_limit(&mut rng, &script);
            }
            let runs = rng.from(1, 16) as u32;
            let answer = pass(&script, runs);
            let facts = [
                ("read back", is_read_back(&script)),
                ("a readable result", is_readable(&script, &answer)),
                ("its assignments", has_assignments(&script, &answer)),
                ("alike", is_alike(&mut rng, &script, &answer, runs)),
                ("damage seen", damage_is_seen(&mut rng, &script)),
            ];
            for (name, _) in facts.iter().filter(|(_, holds)| !holds) {
                println!("seed {seed}, script {number}: not {name}");
            }
            let good = facts.iter().filter(|(_, holds)| *holds).count();
            passed += good;
            failed += facts.len() - good;
        }
    });
    println!("{passed} passed, {failed} failed");
    std::process::exit(i32::from(failed > 0));
}
