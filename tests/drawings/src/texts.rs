//! CIF texts of shot lists, sound and damaged.

use crate::seeded::Seeded;
use crate::shots;

/// The text of some shots.
pub fn sound(s: &mut Seeded) -> Vec<u8> {
    let sort = s.below(shots::SORTS.len());
    law::cif::text(&shots::of_sort(s, sort)).into_bytes()
}

/// Bytes that a text is made of, and others that stand near them.
const NEAR: &[u8] = b"0123456789 ;\nBDSLNMFCE\r\t-+.,b\0\xff";

/// Numbers that tell something of a box: nothing, odd, at and past a limit, longer than six digits.
const TELLING: [&str; 16] = [
    "0", "1", "2", "3", "00", "65535", "65536", "131069", "131070", "131071", "131072", "999999", "1000000",
    "4294967296", "18446744073709551616", "99999999999999999999999999999999999999999999",
];

pub const DAMAGES: usize = 10;

/// A text damaged in one way.
pub fn damaged(s: &mut Seeded, text: &[u8], way: usize) -> Vec<u8> {
    let mut bytes = text.to_vec();
    let at = s.below(bytes.len());
    match way {
        0 => bytes[at] = s.any() as u8,
        1 => bytes[at] = s.pick(NEAR),
        2 => {
            bytes.remove(at);
        }
        3 => bytes.insert(at, s.pick(NEAR)),
        4 => bytes.truncate(at),
        5 => {
            for _ in 0..s.within(1, 3) {
                bytes.push(s.pick(NEAR));
            }
        }
        6 => return lines(s, text),
        7 => return text.iter().flat_map(|&b| if b == b'\n' { vec![b'\r', b] } else { vec![b] }).collect(),
        _ => return numbers(s, text),
    }
    bytes
}

/// A line left out, said twice, or changed for another one.
fn lines(s: &mut Seeded, text: &[u8]) -> Vec<u8> {
    let mut lines: Vec<&[u8]> = text.split_inclusive(|&b| b == b'\n').collect();
    let (at, other) = (s.below(lines.len()), s.below(lines.len()));
    match s.below(3) {
        0 => {
            lines.remove(at);
        }
        1 => lines.insert(at, lines[at]),
        _ => lines.swap(at, other),
    }
    lines.concat()
}

/// A number of the text changed for a telling one, for its neighbour, or with a zero in front.
fn numbers(s: &mut Seeded, text: &[u8]) -> Vec<u8> {
    let starts: Vec<usize> =
        (1..text.len()).filter(|&i| text[i].is_ascii_digit() && !text[i - 1].is_ascii_digit()).collect();
    let from = starts[s.below(starts.len())];
    let to = from + text[from..].iter().take_while(|b| b.is_ascii_digit()).count();
    let number: u64 = std::str::from_utf8(&text[from..to]).unwrap().parse().unwrap();
    let new = match s.below(5) {
        0 => format!("0{number}"),
        1 => format!("{}", number + 1),
        2 => format!("{}", number.saturating_sub(1)),
        3 => format!("{}", number + 2),
        _ => s.pick(&TELLING).to_string(),
    };
    [&text[..from], new.as_bytes(), &text[to..]].concat()
}
