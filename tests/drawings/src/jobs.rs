//! Jobs, sound and damaged.

use crate::seeded::Seeded;
use crate::{figures, outlines};
use law::bytes::{header, written_outline};
use law::Drawing;

/// What a job may hold as one outline, of one ring or of several: drawn, or of any numbers.
pub fn outline(s: &mut Seeded) -> Drawing {
    match s.below(4) {
        0 => {
            let sort = s.below(outlines::SORTS.len());
            outlines::of_sort(s, sort)
        }
        1 => {
            let sort = s.below(figures::SORTS.len());
            figures::of_sort(s, sort)
        }
        2 => {
            let length = s.within(4, 32);
            numbers(s, &[length])
        }
        _ => {
            let lengths = ring_lengths(s);
            numbers(s, &lengths)
        }
    }
}

/// Two to eight ring lengths, 4 and more each, odd ones too, at most 32 in all, often just that.
fn ring_lengths(s: &mut Seeded) -> Vec<usize> {
    let mut lengths = vec![4; s.within(2, 8)];
    let room = 32 - 4 * lengths.len();
    let more = if s.once_in(2) { room } else { s.within(0, room) };
    for _ in 0..more {
        let ring = s.below(lengths.len());
        lengths[ring] += 1;
    }
    lengths
}

/// Rings of these lengths whose coordinates are any numbers.
fn numbers(s: &mut Seeded, lengths: &[usize]) -> Drawing {
    let top = s.pick(&[2, 128, 129, 16_384, 16_385, 65_536]);
    Drawing {
        corners: (0..2 * lengths.iter().sum::<usize>()).map(|_| s.below(top) as u16).collect(),
        rings: lengths.iter().map(|&length| length as u16).collect(),
    }
}

/// A sound job with its parts, of at most 4,096 bytes.
pub fn sound(s: &mut Seeded) -> Vec<u8> {
    let (threshold, weight) = (s.within(0, 1000) as u32, s.within(0, 1000) as u32);
    let most = match s.below(12) {
        0 => 0,
        1 => 255,
        2 => s.within(100, 200),
        _ => s.within(1, 6),
    };
    let mut body = Vec::new();
    let mut count = 0;
    while count < most {
        let drawing = if most > 20 { small(s) } else { outline(s) };
        let part = written_outline(&drawing);
        if body.len() + part.len() + 6 > 4096 {
            break;
        }
        body.extend(part);
        count += 1;
    }
    let mut job = header(threshold, weight, count as u32);
    job.extend(body);
    job
}

/// A rectangle near the origin, in few bytes.
pub fn small(s: &mut Seeded) -> Drawing {
    let (x, y) = (s.within(1, 127) as u16, s.within(1, 127) as u16);
    Drawing::outline(&[0, 0, x, 0, x, y, 0, y])
}

/// The ways to damage a job at a byte.
pub const DAMAGES: usize = 10;

/// A job damaged at a byte (0 to its length) in one of these ways.
pub fn damaged(s: &mut Seeded, job: &[u8], at: usize, way: usize) -> Vec<u8> {
    let mut new = job.to_vec();
    let here = at < job.len();
    match way {
        // bytes end here
        0 => new.truncate(at),
        // a bit turned over
        1 if here => new[at] ^= 1 << s.below(8),
        // the top bit alone
        2 if here => new[at] ^= 0x80,
        // the number goes on with nothing in it; the number is too long
        3 if here => {
            new.splice(at..at + 1, [job[at] | 0x80, 0]);
        }
        4 if here => {
            new.splice(at..at + 1, [job[at] | 0x80, 0x80, 0x80, 0x01]);
        }
        // any other byte
        5 if here => new[at] = s.below(256) as u8,
        // a byte lost, a byte too many
        6 if here => {
            new.remove(at);
        }
        7 => new.insert(at, s.pick(&[0, 1, 2, 4, 9, 33, 0x7f, 0x80, 0xff])),
        // three bytes that say a large number
        8 if here => {
            new.splice(at..at + 1, [0xff, 0xff, s.pick(&[3, 4, 0x7f])]);
        }
        // bytes behind the job
        _ => {
            let more = s.within(1, 4);
            for _ in 0..more {
                new.push(s.below(256) as u8);
            }
        }
    }
    new
}
