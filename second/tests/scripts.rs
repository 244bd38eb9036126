//! The scripts of ../tests: every NAME.in answers exactly the bytes of NAME.out, in
//! whatever pieces the input arrives.

mod common;

use std::fs;
use std::io::{Read, Result};
use std::path::{Path, PathBuf};

use common::{program, Generator};
use second::Drill;

/// Hands out the bytes in pieces of random size.
struct Pieces<'a> {
    rest: &'a [u8],
    largest: u64,
    generator: Generator,
}

impl Read for Pieces<'_> {
    fn read(&mut self, buffer: &mut [u8]) -> Result<usize> {
        let length = (self.generator.between(1, self.largest) as usize)
            .min(self.rest.len())
            .min(buffer.len());
        let (piece, rest) = self.rest.split_at(length);
        buffer[..length].copy_from_slice(piece);
        self.rest = rest;
        Ok(length)
    }
}

fn folder() -> PathBuf {
    Path::new(env!("CARGO_MANIFEST_DIR")).join("../tests")
}

/// Every script with its name, input and expected output.
fn scripts() -> Vec<(String, Vec<u8>, Vec<u8>)> {
    let mut inputs: Vec<PathBuf> = fs::read_dir(folder())
        .expect("the folder of scripts is there")
        .map(|entry| entry.expect("the folder can be read").path())
        .filter(|path| path.extension().is_some_and(|extension| extension == "in"))
        .collect();
    inputs.sort();
    let read =
        |path: &Path| fs::read(path).unwrap_or_else(|error| panic!("{}: {error}", path.display()));
    inputs
        .iter()
        .map(|path| {
            (
                path.display().to_string(),
                read(path),
                read(&path.with_extension("out")),
            )
        })
        .collect()
}

#[test]
fn every_script_answers_its_bytes() {
    let scripts = scripts();
    for (name, input, output) in &scripts {
        assert!(program(input) == *output, "{name}");
    }
    println!("{} scripts", scripts.len());
    assert!(scripts.len() >= 20, "the scripts are there");
}

#[test]
fn every_script_answers_the_same_in_pieces() {
    for (name, input, output) in &scripts() {
        for (seed, largest) in [(1, 1), (2, 2), (3, 7), (4, 100), (5, 5000)] {
            let pieces = Pieces {
                rest: input,
                largest,
                generator: Generator::seeded(seed),
            };
            let mut answers = Vec::new();
            second::run(pieces, &mut answers).expect("memory takes every write");
            assert!(answers == *output, "{name} in pieces up to {largest}");
        }
    }
}

#[test]
fn every_script_answers_line_by_line() {
    for (name, input, output) in &scripts() {
        let mut drill = Drill::new();
        let mut answers = Vec::new();
        let mut lines: Vec<&[u8]> = input.split(|&byte| byte == b'\n').collect();
        // What follows the last newline is a line only when it isn't empty.
        if lines.last().is_some_and(|last| last.is_empty()) {
            lines.pop();
        }
        for line in lines {
            drill.answer_line(&line[..line.len().min(64)], line.len() > 64, &mut answers);
        }
        assert!(answers == *output, "{name}");
    }
}

/// An output without an input would never be compared.
#[test]
fn every_output_has_its_input() {
    for entry in fs::read_dir(folder()).expect("the folder of scripts is there") {
        let path = entry.expect("the folder can be read").path();
        if path.extension().is_some_and(|extension| extension == "out") {
            assert!(path.with_extension("in").exists(), "{}", path.display());
        }
    }
}
