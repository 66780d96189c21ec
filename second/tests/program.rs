//! The program as it is run.

use std::io::Write;
use std::process::{Command, Output, Stdio};

const SECOND: &str = env!("CARGO_BIN_EXE_second");

fn run(arguments: &[&str], input: &[u8]) -> Output {
    let mut child = Command::new(SECOND)
        .args(arguments)
        .stdin(Stdio::piped())
        .stdout(Stdio::piped())
        .stderr(Stdio::piped())
        .spawn()
        .expect("the program starts");
    let mut to_child = child.stdin.take().expect("there is a pipe");
    to_child.write_all(input).expect("the input is short");
    drop(to_child);
    child.wait_with_output().expect("the program ends")
}

fn text(bytes: &[u8]) -> String {
    String::from_utf8_lossy(bytes).into_owned()
}

#[test]
fn answers_with_and_without_its_word() {
    for arguments in [&[][..], &["answer"]] {
        let output = run(arguments, b"O\nP 0 3 1\nI 0 5\nC 0 3 2\n\nC 0 3 2");
        assert!(output.status.success());
        assert_eq!(text(&output.stdout), "A 0\nA 1\nA 2\nA 3\nB\nX 8\nL 1 2\n");
    }
    assert_eq!(text(&run(&[], b"").stdout), "L 0\n");
}

#[test]
fn makes_the_same_lines_again() {
    let first = run(&["make", "7", "300"], b"");
    let again = run(&["make", "7", "300"], b"");
    assert!(first.status.success());
    assert!(!first.stdout.is_empty());
    assert_eq!(first.stdout, again.stdout);
}

#[test]
fn checks() {
    let output = run(&["check", "3", "2000"], b"");
    assert!(output.status.success(), "{}", text(&output.stdout));
    assert!(text(&output.stdout).starts_with("lines checked: 6000\n"));
}

#[test]
fn finds_no_difference_from_itself() {
    let output = run(&["compare", SECOND, "20", "1500", "--check"], b"");
    assert!(output.status.success(), "{}", text(&output.stdout));
    assert!(text(&output.stdout).starts_with("lines compared and checked: 30000\n"));
    let output = run(&["compare", SECOND, "20", "20"], b"");
    assert!(output.status.success(), "{}", text(&output.stdout));
    assert!(text(&output.stdout).starts_with("lines compared: 400\n"));
}

#[test]
fn finds_the_difference_from_another_program() {
    let output = run(&["compare", "cat", "2", "20000"], b"");
    assert_eq!(output.status.code(), Some(1));
    assert!(text(&output.stdout).starts_with("difference in seed 1, line 1\n"));
    let output = run(&["compare", "true", "2", "20000"], b"");
    assert_eq!(output.status.code(), Some(1));
    assert!(text(&output.stdout).contains("other:  (no line)\n"));
}

#[test]
fn tells_how_it_is_used() {
    for arguments in [&["what"][..], &["make", "1"], &["check", "x", "1"]] {
        let output = run(arguments, b"");
        assert_eq!(output.status.code(), Some(2));
        assert!(text(&output.stderr).starts_with("usage:"));
    }
    let output = run(&["compare", "/no/such/program", "1", "1"], b"");
    assert_eq!(output.status.code(), Some(1));
    assert!(text(&output.stderr).contains("/no/such/program"));
}
