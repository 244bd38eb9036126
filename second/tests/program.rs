//! The program itself: standard input to standard output, answers as the input
//! pauses, and a reader that goes away.

use std::io::{BufRead, BufReader, Read, Write};
use std::process::{Child, Command, Stdio};

fn started() -> Child {
    Command::new(env!("CARGO_BIN_EXE_second"))
        .stdin(Stdio::piped())
        .stdout(Stdio::piped())
        .stderr(Stdio::piped())
        .spawn()
        .expect("the program starts")
}

#[test]
fn answers_come_before_more_is_asked() {
    let mut child = started();
    let mut input = child.stdin.take().expect("piped");
    let mut output = BufReader::new(child.stdout.take().expect("piped"));
    for (line, answer) in [
        ("CO 3\n", "OK 3\n"),
        ("TK 5 5\n", "OK 0\n"),
        ("RL 0\n", "OK 5\n"),
        ("\n", "NO 14\n"),
    ] {
        input.write_all(line.as_bytes()).expect("the program reads");
        let mut read = String::new();
        output.read_line(&mut read).expect("the program answers");
        assert_eq!(read, answer);
    }
    drop(input);
    let mut rest = String::new();
    output.read_to_string(&mut rest).expect("the program ends");
    assert_eq!(rest, "");
    assert!(child.wait().expect("the program ends").success());
}

#[test]
fn a_closed_pipe_ends_it_quietly() {
    let mut child = started();
    drop(child.stdout.take());
    let mut input = child.stdin.take().expect("piped");
    // Writing fails in its turn once the program has gone.
    for _ in 0..100_000 {
        if input.write_all(b"CO 1\nAD 5\n").is_err() {
            break;
        }
    }
    drop(input);
    let mut complaints = String::new();
    child
        .stderr
        .take()
        .expect("piped")
        .read_to_string(&mut complaints)
        .expect("readable");
    assert_eq!(complaints, "");
    assert!(child.wait().expect("the program ends").success());
}

#[test]
fn empty_input_prints_nothing() {
    let mut child = started();
    drop(child.stdin.take());
    let output = child.wait_with_output().expect("the program ends");
    assert!(output.status.success() && output.stdout.is_empty() && output.stderr.is_empty());
}
