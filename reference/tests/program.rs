//! The program as it is run: standard input, standard output, standard error and status.

use std::io::Write;
use std::process::{Command, Output, Stdio};

fn run(input: &[u8]) -> Output {
    let mut child = Command::new(env!("CARGO_BIN_EXE_reference"))
        .stdin(Stdio::piped())
        .stdout(Stdio::piped())
        .stderr(Stdio::piped())
        .spawn()
        .expect("the program starts");
    child.stdin.take().unwrap().write_all(input).unwrap();
    child.wait_with_output().expect("the program ends")
}

#[test]
fn one_reply_to_a_call() {
    let input = b"# a plan\n\nopen cycle 1000 error 0 extension 0 delays\t0 # one port\n \t\ncheck\ngates 0";
    let output = run(input);
    assert_eq!(output.stdout, b"opened\nchecked\ngates 0x7F*1000\n");
    assert!(output.stderr.is_empty());
    assert_eq!(output.status.code(), Some(0));
}

#[test]
fn a_line_that_is_no_call_ends_the_program() {
    let output = run(b"check\n\nadvance 18446744073709551616\ncheck\n");
    assert_eq!(output.stdout, b"out of order: no draft\n");
    let said = String::from_utf8(output.stderr).unwrap();
    assert!(said.starts_with("error: line 3: "), "{said}");
    assert_eq!(output.status.code(), Some(1));
}

#[test]
fn bytes_that_are_no_text() {
    let output = run(b"check # \xFF\n\xFF\n");
    assert_eq!(output.stdout, b"out of order: no draft\n");
    assert_eq!(output.status.code(), Some(1));
}
