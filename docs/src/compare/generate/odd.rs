//! Inputs odd as a whole: empty, with other line ends, cut short, without a
//! set-up, or no schedule at all.

use super::damage::DAMAGE;
use super::random::Random;
use super::set_ups::crowded_or_wide;
use super::writer::{behind_first, well_formed};

const NO_RECORDS: [&[u8]; 8] =
    [b"\r\n", b"\n", b"\r", b"\r\n\r\n", b"\n\r", b"\0", b",", b"\r\r\n"];
const BEHIND_SET_UP: [&[u8]; 5] = [b"\r", b"\n", b"\r\n", b"\r\n\r", b"\r\n\n"];
const BEHIND_WHOLE: [&[u8]; 5] = [b"\r", b"\n", b"\r\n", b"0,step,,,,,\r", b"\r\r"];

pub fn odd_input(random: &mut Random) -> Vec<u8> {
    let set_up = crowded_or_wide(random);
    let first = set_up(random);
    let whole = well_formed(random, set_up, 0);
    match random.below(16) {
        0 => Vec::new(),
        1 => random.pick(&NO_RECORDS).to_vec(),
        2 => with_line_ends(&whole, b"\n"),
        3 => with_line_ends(&whole, b"\r"),
        4 => with_line_ends(&whole, b"\r\r\n"),
        5 => with_line_ends(&whole, b"\n\r\n"),
        6 => [&b"\xef\xbb\xbf"[..], &whole].concat(),
        7 => first,
        8 => [&first[..], random.pick(&BEHIND_SET_UP)].concat(),
        9 => [&first[..], b"\r\n\r\n", &first, b"\r\n"].concat(),
        10 => [&whole[..], random.pick(&BEHIND_WHOLE)].concat(),
        11 | 12 => with_last_record_near_512(random, first),
        13 => (0..random.between(1, 300)).map(|_| random.next() as u8).collect(),
        14 => (0..random.between(1, 300)).map(|_| random.pick(&DAMAGE)).collect(),
        _ => without_set_up(&whole),
    }
}

fn with_line_ends(bytes: &[u8], line_end: &[u8]) -> Vec<u8> {
    let mut result = Vec::new();
    for &byte in bytes {
        match byte {
            b'\r' => {}
            b'\n' => result.extend_from_slice(line_end),
            _ => result.push(byte),
        }
    }
    result
}

/// Seven fields in 508 to 515 bytes, closed or not: 10 by its length, else 11.
fn with_last_record_near_512(random: &mut Random, set_up: Vec<u8>) -> Vec<u8> {
    let length = random.between(508, 515) as usize;
    let behind = b",step,,,,,";
    let digits = vec![b'1'; length - behind.len()];
    let line_end = random.pick(&[&b""[..], b"", b"\r", b"\r\n"]);
    [&set_up[..], b"\r\n", &digits, behind, line_end].concat()
}

fn without_set_up(whole: &[u8]) -> Vec<u8> {
    whole[behind_first(whole).unwrap_or(whole.len())..].to_vec()
}
