//! Malformed lines of many kinds, each made from a well-formed one.

use crate::generator::Generator;

/// No well-formed line has one of these bytes.
const STRANGE: &[u8] = b"\0\t\r\x0b\x0c\x1b+-.,/:;_xX\x7f\x80\xa0\xc3\xfe\xff";

/// "A line over 64 bytes is malformed."
const LONGEST_LINE: u64 = 64;
const LONGEST_WRITTEN: u64 = 6_000;

type Spoil = fn(&mut Generator, Vec<u8>) -> Vec<u8>;

const KINDS: [Spoil; 21] = [
    leading_zero,
    fourteen_digits,
    tab,
    double_space,
    missing_field,
    strange_byte,
    strange_byte_more,
    high_bit,
    random_bytes,
    over_long_after,
    over_long_before,
    near_the_longest,
    |_, _| Vec::new(),
    |_, line| [&line[..], b"\r"].concat(),
    |_, line| [&line[..], b" "].concat(),
    |_, line| [b" ", &line[..]].concat(),
    |_, line| [&line[..], b" 0"].concat(),
    |_, line| [&line[..], b"\0"].concat(),
    |_, line| [&line[..], b"\r", &line].concat(),
    |_, line| line.to_ascii_lowercase(),
    |_, line| [b"SG", &line[2..]].concat(),
];

/// A malformed line, without its newline.
pub fn malformed(generator: &mut Generator, line: Vec<u8>) -> Vec<u8> {
    generator.one_of(&KINDS)(generator, line)
}

/// The place of one of the line's spaces; a number follows it.
fn a_space(generator: &mut Generator, line: &[u8]) -> usize {
    let spaces: Vec<usize> = (0..line.len()).filter(|&at| line[at] == b' ').collect();
    generator.one_of(&spaces)
}

fn leading_zero(generator: &mut Generator, mut line: Vec<u8>) -> Vec<u8> {
    let place = a_space(generator, &line) + 1;
    line.insert(place, b'0');
    line
}

fn fourteen_digits(generator: &mut Generator, mut line: Vec<u8>) -> Vec<u8> {
    let first = a_space(generator, &line) + 1;
    let digits = line[first..]
        .iter()
        .take_while(|byte| **byte != b' ')
        .count();
    let number = generator.between(10_000_000_000_000, 99_999_999_999_999);
    line.splice(first..first + digits, number.to_string().into_bytes());
    line
}

fn tab(generator: &mut Generator, mut line: Vec<u8>) -> Vec<u8> {
    let place = a_space(generator, &line);
    line[place] = b'\t';
    line
}

fn double_space(generator: &mut Generator, mut line: Vec<u8>) -> Vec<u8> {
    let place = a_space(generator, &line);
    line.insert(place, b' ');
    line
}

/// Ends the line before or after a space.
fn missing_field(generator: &mut Generator, mut line: Vec<u8>) -> Vec<u8> {
    let end = a_space(generator, &line) + generator.below(2) as usize;
    line.truncate(end);
    line
}

fn strange_byte(generator: &mut Generator, mut line: Vec<u8>) -> Vec<u8> {
    let place = generator.below(line.len() as u64) as usize;
    line[place] = generator.one_of(STRANGE);
    line
}

fn strange_byte_more(generator: &mut Generator, mut line: Vec<u8>) -> Vec<u8> {
    let place = generator.below(line.len() as u64 + 1) as usize;
    line.insert(place, generator.one_of(STRANGE));
    line
}

/// A byte that looks right to whoever reads seven bits.
fn high_bit(generator: &mut Generator, mut line: Vec<u8>) -> Vec<u8> {
    let place = generator.below(line.len() as u64) as usize;
    line[place] |= 0x80;
    line
}

/// Any bytes but the newline.
fn random_bytes(generator: &mut Generator, _: Vec<u8>) -> Vec<u8> {
    (0..generator.below(200))
        .map(|_| generator.byte())
        .filter(|&byte| byte != b'\n')
        .collect()
}

/// A well-formed line with far too much after it.
fn over_long_after(generator: &mut Generator, mut line: Vec<u8>) -> Vec<u8> {
    let filler = generator.one_of(b" 0\0z\r");
    let length = generator.between(LONGEST_LINE + 1, LONGEST_WRITTEN);
    line.resize(length as usize, filler);
    line
}

/// Far too much before a well-formed line, often by a round number of bytes, where a
/// count of the line's bytes might begin anew.
fn over_long_before(generator: &mut Generator, line: Vec<u8>) -> Vec<u8> {
    let any = generator.between(1, LONGEST_WRITTEN);
    let before = generator.one_of(&[64, 65, 128, 256, 1_024, 4_096, any, any]);
    let filler = generator.one_of(b" 0\0z\r");
    [vec![filler; before as usize], line].concat()
}

/// A few bytes less or more than the longest line.
fn near_the_longest(generator: &mut Generator, mut line: Vec<u8>) -> Vec<u8> {
    let filler = generator.one_of(b" 0z");
    let length = generator.between(LONGEST_LINE - 2, LONGEST_LINE + 2);
    line.resize(length as usize, filler);
    line
}

#[cfg(test)]
mod tests {
    use super::*;

    #[test]
    fn no_kind_makes_a_line_end_or_leaves_it_as_it_was() {
        let mut generator = Generator::seeded(1, 0);
        for kind in KINDS {
            for line in [&b"CO 1"[..], b"TK 10 5000", b"AD 0"] {
                let spoilt = kind(&mut generator, line.to_vec());
                assert!(spoilt != line && !spoilt.contains(&b'\n'));
            }
        }
    }
}
