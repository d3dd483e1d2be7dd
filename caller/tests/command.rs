//! The command line tool: what it prints where, and its exit status.
#![allow(clippy::expect_used, clippy::indexing_slicing, clippy::format_collect)]

mod files;

use std::ffi::OsStr;
use std::io::Write;
use std::os::unix::ffi::OsStrExt;
use std::process::{Command, Output, Stdio};

const EMPTY: &str = "010000003000000001000000200000000000000030000000300000000000000001000000000000000000000000000000";

fn run(arguments: &[&str], input: &[u8]) -> Output {
    let mut child = Command::new(env!("CARGO_BIN_EXE_negbosun-inline"))
        .args(arguments)
        .stdin(Stdio::piped())
        .stdout(Stdio::piped())
        .stderr(Stdio::piped())
        .spawn()
        .expect("the tool");
    // It may end without reading; then the pipe is closed.
    let _ = child.stdin.take().expect("a pipe").write_all(input);
    child.wait_with_output().expect("its end")
}

fn text(bytes: &[u8]) -> &str {
    std::str::from_utf8(bytes).expect("a text")
}

fn empty() -> Vec<u8> {
    (0..EMPTY.len())
        .step_by(2)
        .map(|at| u8::from_str_radix(&EMPTY[at..at + 2], 16).expect("hex"))
        .collect()
}

#[test]
fn a_result_goes_to_standard_output_alone() {
    for arguments in [&[][..], &["-"], &["--runs", "1"]] {
        let output = run(arguments, &empty());
        assert_eq!(output.status.code(), Some(0));
        assert_eq!(
            text(&output.stdout),
            "ok runs 1 changed 0 nodes 1\n1 0 0 0 0000000000000000\n"
        );
        assert!(output.stderr.is_empty());
    }
}

#[test]
fn a_file_is_read_by_its_path() {
    let sample = concat!(env!("CARGO_MANIFEST_DIR"), "/../samples/tide.tree");
    let by_path = run(&[sample], b"");
    let by_input = run(&[], &std::fs::read(sample).expect("the sample"));
    assert_eq!(by_path.status.code(), Some(0));
    assert_eq!(by_path.stdout, by_input.stdout);
    let absent = run(&["no/such/file"], b"");
    assert_eq!((absent.status.code(), text(&absent.stdout)), (Some(3), ""));
    assert!(text(&absent.stderr).contains("no/such/file"));
}

#[test]
fn a_refusal_is_printed_and_said() {
    let output = run(&[], b"no tree file");
    assert_eq!(output.status.code(), Some(1));
    assert_eq!(text(&output.stdout), "refused 2\n");
    assert!(text(&output.stderr).contains("refusal 2: the file has fewer than 32 bytes"));
    assert!(text(&output.stderr).contains("; it has 12 bytes. Is it a script's text?"));
    let output = run(&["--runs", "17"], &empty());
    assert_eq!(
        (output.status.code(), text(&output.stdout)),
        (Some(1), "refused 1\n")
    );
    assert!(text(&output.stderr).ends_with("; --runs is 17\n"));
}

#[test]
fn bad_usage_is_status_2() {
    for arguments in [
        &["--runs"][..],
        &["--runs", "x"],
        &["--other"],
        &["a", "b"],
        &["--batch", "a"],
        &["--batch=1"],
        &["--time-limit"],
        &["--time-limit=-1"],
    ] {
        let output = run(arguments, b"");
        assert_eq!(output.status.code(), Some(2), "{arguments:?}");
        assert!(text(&output.stderr).contains("usage:"));
    }
}

#[test]
fn a_batch_answers_line_by_line() {
    let output = run(
        &["--batch"],
        format!("{EMPTY}\n{EMPTY} 0\n\nxyz\n{EMPTY} x\n").as_bytes(),
    );
    assert_eq!(output.status.code(), Some(0));
    let empty = "ok runs 1 changed 0 nodes 1\n1 0 0 0 0000000000000000\n";
    assert_eq!(
        text(&output.stdout),
        format!("{empty}\nrefused 1\n\nrefused 2\n\nnot hex\n\nnot a number\n\n")
    );
}

#[test]
fn help_and_version_are_printed() {
    for word in ["-h", "--help"] {
        let output = run(&[word, "a", "b"], b"");
        assert_eq!(output.status.code(), Some(0));
        for part in ["usage:", "--time-limit", "Exit status: 0 done"] {
            assert!(text(&output.stdout).contains(part), "{part}");
        }
        assert!(output.stderr.is_empty());
    }
    for word in ["-V", "--version"] {
        let output = run(&[word], b"");
        let version = concat!("negbosun-inline ", env!("CARGO_PKG_VERSION"), "\n");
        assert_eq!(
            (output.status.code(), text(&output.stdout)),
            (Some(0), version)
        );
    }
}

#[test]
fn a_pass_that_takes_too_long_is_stopped() {
    let slow = files::functions(31);
    let output = run(&["--time-limit", "2"], &slow);
    assert_eq!((output.status.code(), text(&output.stdout)), (Some(4), ""));
    let said = "standard input: stopped, no answer within 2 s;";
    assert!(text(&output.stderr).contains(said));
    assert!(text(&output.stderr).contains("--time-limit SECONDS"));
    let hex: String = slow.iter().map(|byte| format!("{byte:02x}")).collect();
    let input = format!("{EMPTY}\n{hex}\n{EMPTY}\n");
    let output = run(&["--batch", "--time-limit=2"], input.as_bytes());
    assert_eq!(output.status.code(), Some(4));
    assert!(text(&output.stdout).starts_with("ok runs 1 "));
    assert!(text(&output.stderr).contains("line 2: stopped"));
}

#[test]
fn no_limit_and_a_limit_that_suffices_change_nothing() {
    let file = files::functions(8);
    let plain = run(&[], &file);
    assert_eq!(plain.status.code(), Some(0));
    for limit in ["0", "20"] {
        assert_eq!(run(&["--time-limit", limit], &file).stdout, plain.stdout);
    }
}

#[test]
fn a_long_input_is_read_to_its_end_and_refused() {
    let mut long = empty();
    long.extend(vec![0; 1_000_000]);
    let output = run(&[], &long);
    assert_eq!(
        (output.status.code(), text(&output.stdout)),
        (Some(1), "refused 4\n")
    );
    assert!(text(&output.stderr)
        .ends_with("; it has over 21,536 bytes, the most that a file can have\n"));
}

#[test]
fn names_that_are_no_text_and_outputs_that_are_full_are_told() {
    let tool = env!("CARGO_BIN_EXE_negbosun-inline");
    let output = Command::new(tool)
        .arg(OsStr::from_bytes(b"\xff\xfe"))
        .output();
    let output = output.expect("the tool");
    assert_eq!(output.status.code(), Some(3));
    assert!(!text(&output.stderr).contains("panicked"));
    let full = std::fs::OpenOptions::new().write(true).open("/dev/full");
    if let Ok(full) = full {
        let output = Command::new(tool).arg("--help").stdout(full).output();
        let output = output.expect("the tool");
        assert_eq!(output.status.code(), Some(6));
        assert!(text(&output.stderr).contains("standard output: there is no room left on the disk"));
    }
}

#[test]
fn standard_output_that_is_closed_is_told() {
    let sample = concat!(env!("CARGO_MANIFEST_DIR"), "/../samples/tide.tree");
    for arguments in [
        &["--help"][..],
        &[sample],
        &["canon", sample],
        &["same", sample, sample],
        &["--batch"],
    ] {
        for how in [
            "exec \"$0\" \"$@\" >&- </dev/null",
            "exec \"$0\" \"$@\" >&- <&-",
        ] {
            let output = Command::new("sh")
                .args(["-c", how, env!("CARGO_BIN_EXE_negbosun-inline")])
                .args(arguments)
                .output()
                .expect("its end");
            assert_eq!(output.status.code(), Some(6), "{arguments:?}");
            assert_eq!(
                text(&output.stderr),
                "negbosun-inline: standard output: it is closed\n"
            );
        }
    }
}

#[test]
fn what_would_steer_a_terminal_is_written_out() {
    let name = OsStr::from_bytes(b"no/\x1b[31m\n\xff\xe2\x80\xae.tree");
    for arguments in [&[name][..], &[OsStr::new("same"), name, name]] {
        let output = Command::new(env!("CARGO_BIN_EXE_negbosun-inline"))
            .args(arguments)
            .output()
            .expect("its end");
        assert_eq!(output.status.code(), Some(3));
        let said = text(&output.stderr);
        assert!(said.contains("no/\\x1b[31m\\x0a\\xff<U+202E>.tree: "));
        assert_eq!(said.matches(char::is_control).count(), 1, "{said}");
    }
    let usage = run(&["--\u{1b}[31m"], b"");
    assert!(text(&usage.stderr).starts_with("negbosun-inline: "));
    assert!(!text(&usage.stderr).contains('\u{1b}'));
}

#[test]
fn a_kind_table_is_lent_by_its_file() {
    let folder = std::env::temp_dir().join(format!("negbosun-kinds-{}", std::process::id()));
    std::fs::create_dir_all(&folder).expect("a folder");
    let write = |name: &str, bytes: &[u8]| {
        let path = folder.join(name);
        std::fs::write(&path, bytes).expect("a table");
        path.to_str().expect("a name").to_owned()
    };
    let whole = negbosun::KindTable::whole();
    let lines = write("lines", whole.to_string().as_bytes());
    let bytes = write("bytes", whole.as_bytes());
    let none = write("none", &[0; negbosun::TABLE_BYTES]);
    let wide = write("wide", &[1; negbosun::TABLE_BYTES]);
    let wrong = write("wrong", whole.to_string().replacen('1', "7", 1).as_bytes());
    let seven = files::seven();
    let plain = run(&[], &seven);
    for table in [&lines, &bytes] {
        assert_eq!(run(&["--kinds", table], &seven).stdout, plain.stdout);
    }
    let output = run(&["--kinds", &none], &seven);
    assert_eq!(
        (output.status.code(), text(&output.stdout)),
        (Some(1), "refused 6\n")
    );
    let said = "; it has node 2 (kind 5) under node 1 (kind 1), which the kind table forbids\n";
    assert!(
        text(&output.stderr).ends_with(said),
        "{}",
        text(&output.stderr)
    );
    assert_eq!(run(&["--kinds", &none], &empty()).status.code(), Some(0));
    let output = run(&[&format!("--kinds={wide}")], b"");
    assert_eq!(
        (output.status.code(), text(&output.stdout)),
        (Some(1), "refused 15\n")
    );
    let output = run(&["--kinds", &wrong], &seven);
    assert_eq!((output.status.code(), text(&output.stdout)), (Some(3), ""));
    let said = ": no kind table: line 1, column 2: `7`, where 0 or 1 belongs\n";
    assert!(
        text(&output.stderr).ends_with(said),
        "{}",
        text(&output.stderr)
    );
    assert_eq!(run(&["--kinds", "no/such"], &seven).status.code(), Some(3));
    assert_eq!(run(&["--kinds"], &seven).status.code(), Some(2));
    let batch = run(
        &["--batch", "--kinds", &none],
        format!("{EMPTY}\n").as_bytes(),
    );
    assert_eq!(batch.status.code(), Some(0));
    std::fs::remove_dir_all(&folder).expect("its end");
}

fn path(name: &str, bytes: &[u8]) -> String {
    let folder = std::path::Path::new(env!("CARGO_TARGET_TMPDIR"));
    let path = folder.join(format!("{name}.{}.tree", std::process::id()));
    std::fs::write(&path, bytes).expect("a file");
    path.to_str().expect("a name").to_owned()
}

/// `x; y;` by text numbers and contexts.
fn names(texts: &[&str], [t, u]: [u32; 2], [b, c]: [u64; 2]) -> Vec<u8> {
    let nodes = [
        (1, 0, 2, 0, 0),
        (4, 0, 1, 0, 0),
        (21, 0, 0, t, b),
        (4, 0, 1, 0, 0),
        (21, 0, 0, u, c),
    ];
    files::tree_file(&nodes, texts)
}

#[test]
fn the_one_file_of_a_script_is_written() {
    let file = names(&["a", "y", "x"], [2, 1], [5, 7]);
    let one = names(&["x", "y"], [0, 1], [0, 1]);
    for output in [
        run(&["canon", &path("canon", &file)], b""),
        run(&["canon"], &file),
        run(&["canon", "-"], &one),
    ] {
        assert_eq!((output.status.code(), &output.stdout), (Some(0), &one));
        assert!(output.stderr.is_empty());
    }
    let output = run(&["canon"], b"var a = 1;");
    assert_eq!((output.status.code(), text(&output.stdout)), (Some(1), ""));
    assert!(text(&output.stderr).contains("standard input: refusal 2:"));
}

#[test]
fn names_are_resolved() {
    let file = names(&["x", "y"], [0, 1], [5, 7]);
    let resolved = names(&["x", "y"], [0, 1], [0, 0]);
    for output in [
        run(&["resolve", &path("resolve", &file)], b""),
        run(&["resolve"], &file),
        run(&["resolve", "-"], &resolved),
    ] {
        assert_eq!((output.status.code(), &output.stdout), (Some(0), &resolved));
        assert!(output.stderr.is_empty());
    }
    // let x; let x;
    let declarations = [(5, 1, 1, 0, 0), (6, 0, 1, 0, 0), (20, 0, 0, 0, 0)];
    let nodes = [&[(1, 0, 2, 0, 0)][..], &declarations, &declarations].concat();
    let output = run(&["resolve"], &files::tree_file(&nodes, &["x"]));
    assert_eq!((output.status.code(), text(&output.stdout)), (Some(1), ""));
    let words = r#"; it has "x", declared by a let (node 4) and again by a let (node 7)"#;
    assert!(text(&output.stderr).contains("standard input: refusal 13: a name is declared twice"));
    assert!(text(&output.stderr).ends_with(&format!("{words}\n")));
    // 257 arrows, each with a parameter of one name
    let mut nodes = vec![(1, 0, 1, 0, 0), (4, 0, 1, 0, 0), (27, 0, 257, 0, 0)];
    for _ in 0..257 {
        nodes.extend([(40, 1, 2, 0, 0), (20, 0, 0, 0, 0), (26, 0, 0, 0, 0)]);
    }
    let output = run(&["resolve"], &files::tree_file(&nodes, &["x"]));
    assert_eq!(output.status.code(), Some(1));
    assert!(text(&output.stderr)
        .ends_with("refusal 7: the script has over 256 different identifiers\n"));
}

#[test]
fn scripts_are_printed() {
    let file = names(&["x", "y"], [0, 1], [5, 7]);
    let printed = "x ;\ny ;\n";
    for output in [
        run(&["print", &path("print", &file)], b""),
        run(&["print"], &file),
        run(&["print", "-"], &file),
    ] {
        assert_eq!(
            (output.status.code(), text(&output.stdout)),
            (Some(0), printed)
        );
        assert!(output.stderr.is_empty());
    }
    let output = run(&["--text"], &files::seven());
    assert_eq!(
        (output.status.code(), text(&output.stdout)),
        (Some(0), "const a = 7 ;\n7 ;\n")
    );
    let output = run(&["--text", "--runs=2"], b"");
    assert_eq!((output.status.code(), text(&output.stdout)), (Some(1), ""));
    let output = run(&["--text"], &names(&["x", "class"], [0, 1], [0, 0]));
    assert_eq!((output.status.code(), text(&output.stdout)), (Some(1), ""));
    assert!(text(&output.stderr).contains("standard input: its result: refusal 12: "));
    let output = run(&["print"], &names(&["x", "class"], [0, 1], [0, 0]));
    assert_eq!((output.status.code(), text(&output.stdout)), (Some(1), ""));
    let words = r#"; it has node 5 (kind 21) with "class", a reserved word, as a variable"#;
    assert!(text(&output.stderr).contains("standard input: refusal 12: the script has no text"));
    assert!(text(&output.stderr).ends_with(&format!("{words}\n")));
}

#[test]
fn two_files_of_one_script_and_of_two_are_told_apart() {
    let one = path("one", &names(&["a", "y", "x"], [2, 1], [5, 7]));
    let again = path("again", &names(&["x", "y"], [0, 1], [7, 5]));
    let merged = path("merged", &names(&["x", "y"], [0, 1], [7, 7]));
    let output = run(&["same", &one, &again], b"");
    assert_eq!(
        (output.status.code(), text(&output.stdout)),
        (Some(0), format!("{one} and {again}: one script\n").as_str())
    );
    let output = run(
        &["same", &one, "-"],
        &names(&["y", "x"], [1, 0], [0, u64::MAX]),
    );
    assert_eq!(
        (output.status.code(), text(&output.stdout)),
        (
            Some(0),
            format!("{one} and standard input: one script\n").as_str()
        )
    );
    let output = run(&["same", &one, &merged], b"");
    let words = format!("{one} and {merged}: two scripts, which differ from node 5 on\n");
    assert_eq!(
        (output.status.code(), text(&output.stdout)),
        (Some(1), words.as_str())
    );
    let output = run(&["same", &one, "no/such/file"], b"");
    assert_eq!((output.status.code(), text(&output.stdout)), (Some(3), ""));
    assert!(text(&output.stderr).contains("no/such/file"));
    let broken = path("broken", b"no tree file");
    let output = run(&["same", &broken, &one], b"");
    assert_eq!((output.status.code(), text(&output.stdout)), (Some(3), ""));
    assert!(text(&output.stderr).contains("refusal 2:"));
}

#[test]
fn subcommands_ask_for_their_files() {
    for arguments in [
        &["canon", "a", "b"][..],
        &["canon", "--runs", "1"],
        &["resolve", "a", "b"],
        &["resolve", "--kinds", "a"],
        &["print", "a", "b"],
        &["print", "--runs=1"],
        &["--batch", "--text"],
        &["same"],
        &["same", "a"],
        &["same", "a", "b", "c"],
        &["same", "-", "-"],
        &["same", "--batch", "a", "b"],
    ] {
        let output = run(arguments, b"");
        assert_eq!(output.status.code(), Some(2), "{arguments:?}");
        assert!(text(&output.stderr).contains("usage:"));
    }
    for arguments in [
        &["canon", "--help"][..],
        &["resolve", "-h"],
        &["print", "--help"],
        &["same", "a", "-h"],
    ] {
        let output = run(arguments, b"");
        assert_eq!(output.status.code(), Some(0), "{arguments:?}");
        assert!(text(&output.stdout).contains("negbosun-inline same FILE FILE"));
    }
}
