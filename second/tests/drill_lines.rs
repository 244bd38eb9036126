//! The drill's lines: what is well formed, refusal 14, and the ends of the input.

mod common;

use common::{drilled, program, Generator};
use second::Drill;

fn answers(input: &[u8]) -> String {
    String::from_utf8(program(input)).expect("answers are plain text")
}

#[test]
fn malformed_lines_answer_14_and_have_no_effect() {
    let malformed: [&[u8]; 46] = [
        b"",
        b" ",
        b"C",
        b"CO",
        b"CO ",
        b"CO  1",
        b" CO 1",
        b"CO 1 ",
        b"CO 1 1",
        b"CO\t1",
        b"co 1",
        b"Co 1",
        b"XX 1",
        b"CO1",
        b"CO 01",
        b"CO 00",
        b"CO +1",
        b"CO -1",
        b"CO 1.0",
        b"CO 0x1",
        b"CO 1\r",
        b"\r",
        b"CO 1\0",
        b"\0",
        b"CO \xff",
        b"\xff\xfe",
        b"TK",
        b"TK 1",
        b"TK 1 ",
        b"TK  1 1",
        b"TK 1  1",
        b"TK 1 1 1",
        b"TK 01 1",
        b"TK 1 01",
        b"TK ,1 1",
        b"WD",
        b"WD 0 0",
        b"RL 0 ",
        b"RL 00",
        b"AD",
        b"AD 1 2",
        b"AD 12345678901234",
        b"OK 1",
        b"HD 0",
        b"CO 1;",
        b"TK 1 12345678901234",
    ];
    for line in malformed {
        let mut drill = Drill::new();
        let mut output = Vec::new();
        drill.answer_line(b"CO 2", false, &mut output);
        drill.answer_line(b"TK 4 4000", false, &mut output);
        drill.answer_line(b"RL 0", false, &mut output);
        let before = (drill.state().to_vec(), drill.shares().to_vec());
        output.clear();
        drill.answer_line(line, false, &mut output);
        assert_eq!(output, b"NO 14\n", "{:?}", String::from_utf8_lossy(line));
        assert!(before == (drill.state().to_vec(), drill.shares().to_vec()));
    }
}

#[test]
fn malformed_comes_before_any_other_reason() {
    assert_eq!(
        drilled("RL 00\nRL 0\nCO 00\nCO 0\nTK 0\nTK 0 0\n"),
        "NO 14\nNO 1\nNO 14\nNO 2\nNO 14\nNO 1\n"
    );
}

#[test]
fn numbers_of_13_and_14_digits() {
    let text = "CO 1\nAD 9999999999999\nAD 10000000000000\nAD 1099511627777\nAD 1099511627776\nWD 9999999999999\n\
                TK 9999999999999 1\nTK 1 9999999999999\nTK 1 99999999999999\nAD 0\n";
    assert_eq!(
        drilled(text),
        "OK 1\nNO 10\nNO 14\nNO 10\nOK 1099511627776\nNO 7\nNO 3\nNO 4\nNO 14\nNO 11\n"
    );
}

#[test]
fn lines_of_64_and_65_bytes() {
    // No well-formed line is longer than 30 bytes, so both are malformed.
    for length in [63, 64, 65, 66, 1 << 20] {
        let mut input = b"CO 1\nAD ".to_vec();
        input.resize(5 + length, b'1');
        input.extend_from_slice(b"\nAD 5\n");
        assert_eq!(answers(&input), "OK 1\nNO 14\nOK 5\n");
        // The same, ended by the end of the input.
        input.truncate(5 + length);
        assert_eq!(answers(&input), "OK 1\nNO 14\n");
    }
    // A good line followed by spaces up to and past 64 bytes.
    for length in [64, 65] {
        let mut input = b"CO 1".to_vec();
        input.resize(length, b' ');
        assert_eq!(answers(&input), "NO 14\n");
    }
    // A flag alone is enough: the bytes held may look like a good line.
    let mut output = Vec::new();
    Drill::new().answer_line(b"CO 1", true, &mut output);
    assert_eq!(output, b"NO 14\n");
    // A long line leaves nothing behind for the next.
    let mut input = vec![b'x'; 200_000];
    input.extend_from_slice(b"\nCO 3\n");
    assert_eq!(answers(&input), "NO 14\nOK 3\n");
}

#[test]
fn ends_of_lines_and_of_the_input() {
    assert_eq!(answers(b""), "");
    assert_eq!(answers(b"\n"), "NO 14\n");
    assert_eq!(answers(b"\n\n"), "NO 14\nNO 14\n");
    assert_eq!(answers(b"CO 1"), "OK 1\n");
    assert_eq!(answers(b"CO 1\n"), "OK 1\n");
    assert_eq!(answers(b"CO 1\n\n"), "OK 1\nNO 14\n");
    assert_eq!(answers(b"CO 1\r\nCO 2\n"), "NO 14\nOK 2\n");
    assert_eq!(answers(b"CO 1\rCO 2\n"), "NO 14\n");
    assert_eq!(answers(b"CO 1\x0bCO 2\n"), "NO 14\n");
    assert_eq!(answers(b"CO 1\n\r"), "OK 1\nNO 14\n");
}

#[test]
fn before_the_first_open() {
    assert_eq!(
        drilled(
            "TK 1 1\nWD 0\nRL 0\nAD 0\nAD 9999999999999\nCO 0\nCO 17\nAD 0\nTK 0 0\nCO 1\nAD 0\n"
        ),
        "NO 1\nNO 1\nNO 1\nNO 1\nNO 1\nNO 2\nNO 2\nNO 1\nNO 1\nOK 1\nOK 0\n"
    );
}

#[test]
fn a_second_open_is_fresh_and_a_refused_one_changes_nothing() {
    assert_eq!(
        drilled("CO 1\nTK 2 2000\nRL 0\nAD 1\nCO 17\nCO 0\nAD 9\nCO 2\nRL 0\nAD 0\nTK 2 2000\n"),
        "OK 1\nOK 0\nOK 2\nOK 1\nSG 0 0 0 1000\nNO 2\nNO 2\nOK 2\nSG 0 0 1000 2000\nOK 2\nNO 7\nOK 0\nOK 0\n"
    );
}

#[test]
fn random_bytes_answer_one_line_each() {
    let mut generator = Generator::seeded(14);
    let alphabet = b"COTKWDRLAD 0123456789\r\n\n\xff";
    for _ in 0..300 {
        let length = generator.below(3000) as usize;
        let input: Vec<u8> = (0..length)
            .map(|_| alphabet[generator.below(alphabet.len() as u64) as usize])
            .collect();
        let mut lines = input.iter().filter(|&&byte| byte == b'\n').count();
        if input.last().is_some_and(|&last| last != b'\n') {
            lines += 1;
        }
        let output = program(&input);
        let printed = output
            .split(|&byte| byte == b'\n')
            .filter(|line| !line.is_empty() && !line.starts_with(b"SG"))
            .count();
        assert_eq!(printed, lines);
    }
}
