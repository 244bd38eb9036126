//! Random bytes that no one would write as a script.

use crate::generator::Generator;

/// Stretches of one kind are at most this long.
const LONGEST_STRETCH: u64 = 5_000;

const ALPHABET: &[u8] = b"COTKWDRLAD 0123456789\n\n\n\r\t\0";

/// Put together at random these are often lines, and now and then a well-formed one.
const SCRAPS: [&str; 16] = [
    "CO ",
    "TK ",
    "WD ",
    "RL ",
    "AD ",
    "CO 2\n",
    "TK 7 900\n",
    "RL 0\n",
    " ",
    "\n",
    "\n",
    "0",
    "1",
    "3",
    "40",
    "\r\n",
];

/// Wholly random bytes, bytes of a small alphabet and scraps of lines, in turns.
pub fn random_bytes(seed: u64, count: usize) -> Vec<u8> {
    let mut generator = Generator::seeded(seed, 1);
    let mut bytes = Vec::with_capacity(count + 16);
    while bytes.len() < count {
        let stretch = generator.between(1, LONGEST_STRETCH);
        let kind = generator.below(3);
        for _ in 0..stretch {
            add(&mut generator, kind, &mut bytes);
        }
    }
    bytes.truncate(count);
    bytes
}

fn add(generator: &mut Generator, kind: u64, bytes: &mut Vec<u8>) {
    match kind {
        0 => bytes.push(generator.byte()),
        1 => bytes.push(generator.one_of(ALPHABET)),
        _ => bytes.extend(generator.one_of(&SCRAPS).bytes()),
    }
}
