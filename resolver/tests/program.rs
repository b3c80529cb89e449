//! The program on the command line.

use std::io::Write;
use std::process::{Command, Output, Stdio};

/// Runs the program with some arguments on some input.
fn run(arguments: &[&str], input: &str) -> Output {
    let mut program = Command::new(env!("CARGO_BIN_EXE_resolver"))
        .args(arguments)
        .stdin(Stdio::piped())
        .stdout(Stdio::piped())
        .stderr(Stdio::piped())
        .spawn()
        .expect("the program starts");
    let mut pipe = program.stdin.take().expect("standard input");
    pipe.write_all(input.as_bytes()).expect("the program reads its input");
    drop(pipe);
    program.wait_with_output().expect("the program ends")
}

/// What the program prints when all is well.
fn printed(arguments: &[&str], input: &str) -> String {
    let output = run(arguments, input);
    assert!(output.status.success(), "{output:?}");
    String::from_utf8(output.stdout).expect("plain text")
}

#[test]
fn levels_tells_base_levels_order_and_columns() {
    let input = "F\t\nF\tR1W1E2E1\nL\tR1W0L2\nR\tL1";
    let expected = "base 0\tlevels\torder\tcolumns\n\
                    base 1\tlevels 1 1 2 2\torder 2 3 1 0\tcolumns 4 3 0 2\n\
                    base 0\tlevels 1 0 0\torder 0 1 2\tcolumns 0 1 1\n\
                    base 1\tlevels 2\torder 0\tcolumns 0\n";
    assert_eq!(printed(&["levels"], input), expected);
}

#[test]
fn levels_refuses_lines_as_a_replay_would() {
    let expected = "!\t1\tS\t21\t-\n!\t2\tS\t23\t-\n!\t3\tS\t24\t1\n!\t4\tP\t13\t1\n";
    assert_eq!(printed(&["levels"], "L\nX\tL1\nL\tL1L\nL\tL1L3\n"), expected);
}

#[test]
fn replay_reads_a_script() {
    assert_eq!(printed(&["replay"], "P\tR\nZ\n"), "P\t1\nZ\t0\n");
}

#[test]
fn a_seed_makes_the_same_paragraphs_and_scripts_again() {
    let paragraphs = printed(&["make", "levels", "5", "500"], "");
    assert_eq!(paragraphs.lines().count(), 500);
    assert_eq!(printed(&["make", "levels", "5", "500"], ""), paragraphs);
    assert_ne!(printed(&["make", "levels", "6", "500"], ""), paragraphs);
    let answers = printed(&["levels"], &paragraphs);
    assert_eq!(answers.lines().count(), 500);
    assert!(!answers.contains('!'), "every made paragraph is a good one");
    let script = run(&["make", "script", "5", "40"], "").stdout;
    assert_eq!(run(&["make", "script", "5", "40"], "").stdout, script);
}

#[test]
fn other_arguments_are_told_the_usage() {
    for arguments in [&[][..], &["make"], &["make", "levels", "x", "1"], &["levels", "file"]] {
        let output = run(arguments, "");
        assert!(!output.status.success());
        assert!(String::from_utf8_lossy(&output.stderr).starts_with("usage:"));
    }
}
