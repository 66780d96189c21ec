//! Wild lines: odd bytes, odd numbers, odd spaces, odd lengths.

use crate::line::number as parse_number;
use crate::random::Random;

/// Numbers, and what is nearly a number.
const ODD_NUMBERS: [&[u8]; 36] = [
    b"",
    b"0",
    b"00",
    b"01",
    b"007",
    b"+1",
    b"-1",
    b"-0",
    b"1.0",
    b"1e1",
    b"0x1",
    b"1_0",
    b"1,0",
    b"a",
    b"15",
    b"16",
    b"17",
    b"255",
    b"256",
    b"65535",
    b"65536",
    b"65537",
    b"2147483648",
    b"4294967294",
    b"4294967295",
    b"4294967296",
    b"4294967297",
    b"4294967303",
    b"9999999999",
    b"42949672950",
    b"9223372036854775808",
    b"18446744073709551615",
    b"18446744073709551616",
    b"18446744073709551623",
    b"340282366920938463463374607431768211456",
    b"\xd9\xa1",
];

/// Whole lines. None of them opens a table, so that they don't end a session.
const ODD_LINES: [&[u8]; 36] = [
    b"",
    b" ",
    b"\r",
    b"\0",
    b"\t",
    b"O ",
    b" O",
    b"O  7",
    b" O 7",
    b"O 7 ",
    b"O 7 7",
    b"O\t7",
    b"O 7\r",
    b"O\r",
    b"O7",
    b"o 7",
    b"O 07",
    b"O +7",
    b"O -7",
    b"O 00",
    b"O 65536",
    b"O 4294967295",
    b"O 4294967296",
    b"O 18446744073709551623",
    b"L",
    b"L 0",
    b"A 0",
    b"P",
    b"I",
    b"R",
    b"C",
    b"P 16 1 1",
    b"P 0 0 0",
    b"C 0 0 0",
    b"I 4294967295 4294967295",
    b"P 4294967295 65535 4294967295",
];

/// Bytes that come up in lines or nearly do.
const LIKELY_BYTES: &[u8] = b"OPIRCopircLXAUB 0123456789+-.,\t\r\0\x0b\x7f\x80\xff";

/// Puts a wild line after what `line` has. Some are made from a proposal.
pub fn compose(random: &mut Random, proposal: &str, line: &mut Vec<u8>) {
    let proposal = proposal.as_bytes();
    match random.below(20) {
        0..=2 => line.extend(random.pick(&ODD_LINES)),
        3..=7 => put_odd_number(random, proposal, line),
        8..=11 => put_one_byte_wrong(random, proposal, line),
        12 => put_without_last_number(proposal, line),
        13 => put_one_number_more(random, proposal, line),
        14 => put_likely_bytes(random, line),
        15 => put_any_bytes(random, line),
        16..=18 => put_about_63_bytes(random, proposal, line),
        _ => put_long_line(random, proposal, line),
    }
}

/// The proposal with one of its numbers replaced.
fn put_odd_number(random: &mut Random, proposal: &[u8], line: &mut Vec<u8>) {
    let parts: Vec<&[u8]> = proposal.split(|&byte| byte == b' ').collect();
    let replaced = random.between(1, parts.len() as u32 - 1) as usize;
    for (place, part) in parts.into_iter().enumerate() {
        if place > 0 {
            line.push(b' ');
        }
        if place != replaced {
            line.extend(part);
        } else if random.percent(30) {
            line.extend(raised(random, part).bytes());
        } else {
            line.extend(random.pick(&ODD_NUMBERS));
        }
    }
}

/// A number that becomes this one again when it is cut to 16, 32 or 64 bits.
fn raised(random: &mut Random, part: &[u8]) -> String {
    let number = parse_number(part).map_or(0, u128::from);
    let cut = random.pick(&[16, 32, 64]);
    (number + (1u128 << cut)).to_string()
}

/// The proposal with a byte left out, put in, replaced or doubled.
fn put_one_byte_wrong(random: &mut Random, proposal: &[u8], line: &mut Vec<u8>) {
    let place = random.index(proposal.len());
    let (before, after) = proposal.split_at(place);
    line.extend(before);
    match random.below(4) {
        0 => line.extend(&after[1..]),
        1 => {
            line.push(random.pick(LIKELY_BYTES));
            line.extend(after);
        }
        2 => {
            line.push(random.pick(LIKELY_BYTES));
            line.extend(&after[1..]);
        }
        _ => {
            line.push(after[0]);
            line.extend(after);
        }
    }
}

fn put_without_last_number(proposal: &[u8], line: &mut Vec<u8>) {
    let last_space = proposal.iter().rposition(|&byte| byte == b' ');
    line.extend(&proposal[..last_space.unwrap_or(0)]);
}

fn put_one_number_more(random: &mut Random, proposal: &[u8], line: &mut Vec<u8>) {
    line.extend(proposal);
    line.push(random.pick(b" \r\t\0"));
    line.extend(random.pick(&ODD_NUMBERS));
}

fn put_likely_bytes(random: &mut Random, line: &mut Vec<u8>) {
    for _ in 0..random.between(1, 40) {
        line.push(random.pick(LIKELY_BYTES));
    }
}

fn put_any_bytes(random: &mut Random, line: &mut Vec<u8>) {
    for _ in 0..random.between(1, 80) {
        line.push(match random.word() as u8 {
            b'\n' => b'\r',
            byte => byte,
        });
    }
}

/// The proposal filled up to about the most bytes that a line may have, or to
/// twice that many, behind it or before it.
fn put_about_63_bytes(random: &mut Random, proposal: &[u8], line: &mut Vec<u8>) {
    let length = random.between(61, 66) as usize * random.between(1, 2) as usize;
    put_filled(random, proposal, length, line);
}

/// A line of up to some thousand bytes, seldom of up to 150,000.
fn put_long_line(random: &mut Random, proposal: &[u8], line: &mut Vec<u8>) {
    let length = if random.percent(3) {
        random.between(5_000, 150_000)
    } else {
        random.between(64, 3_000)
    };
    put_filled(random, proposal, length as usize, line);
}

fn put_filled(random: &mut Random, proposal: &[u8], length: usize, line: &mut Vec<u8>) {
    let filler = random.pick(b" 0\0\r9");
    let missing = length.saturating_sub(proposal.len());
    if random.percent(50) {
        line.extend(proposal);
        line.resize(line.len() + missing, filler);
    } else {
        line.resize(line.len() + missing, filler);
        line.extend(proposal);
    }
}
