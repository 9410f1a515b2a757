//! The job bytes: numbers, a whole job, its parts, and the writers.

use crate::drawing::Drawing;
use crate::Told;

/// A fault of bytes that were read: its number, and the byte at fault.
#[derive(Clone, Copy, PartialEq, Eq, Debug)]
pub struct Fault {
    pub number: u32,
    pub at: usize,
}

impl Fault {
    fn told(self) -> u64 {
        self.at as u64
    }
}

/// The number that starts at a place, and the place behind it. A fault shows the byte at fault: where
/// the bytes end, the zero byte, or the third byte whose top bit is set.
pub fn number(bytes: &[u8], at: usize) -> Result<(u32, usize), Fault> {
    let no = |number, at| Err(Fault { number, at });
    // the groups up to the first byte whose top bit is clear, at most three
    let rest = bytes.get(at..).unwrap_or(&[]);
    let last = rest.iter().take(3).position(|byte| byte & 0x80 == 0);
    let Some(last) = last else {
        return if rest.len() < 3 { no(8, bytes.len()) } else { no(10, at + 2) };
    };
    if last > 0 && rest[last] == 0 {
        return no(9, at + last);
    }
    let value = rest[..=last].iter().rev().fold(0, |value, byte| value << 7 | (byte & 0x7f) as u32);
    Ok((value, at + last + 1))
}

/// A number that has to lie in a range: one outside is shown by its last byte.
pub(crate) fn ranged(bytes: &[u8], at: usize, low: u32, high: u32) -> Result<(u32, usize), Fault> {
    let (value, next) = number(bytes, at)?;
    if value < low || value > high {
        return Err(Fault { number: 10, at: next - 1 });
    }
    Ok((value, next))
}

/// One ring from a place on, V to be at most so many: its coordinates, and the place behind it.
fn ring(bytes: &[u8], at: usize, most: u32) -> Result<(Vec<u16>, usize), Fault> {
    let (corners, mut place) = ranged(bytes, at, 4, most)?;
    let mut list = Vec::new();
    for _ in 0..2 * corners {
        let (value, next) = ranged(bytes, place, 0, 65_535)?;
        list.push(value as u16);
        place = next;
    }
    Ok((list, place))
}

/// One outline from a place on, and the place behind it. A V of 0 announces rings: then come their
/// number, 2 to 8, and V and corners of each; no V may take the figure past 32 corners.
pub(crate) fn outline(bytes: &[u8], at: usize) -> Result<(Drawing, usize), Fault> {
    let (first, behind) = number(bytes, at)?;
    if first != 0 {
        let (list, next) = ring(bytes, at, 32)?;
        return Ok((Drawing::outline(&list), next));
    }
    let (count, mut place) = ranged(bytes, behind, 2, 8)?;
    let mut rings: Vec<Vec<u16>> = Vec::new();
    let mut left = 32;
    for _ in 0..count {
        let (list, next) = ring(bytes, place, left)?;
        left -= list.len() as u32 / 2;
        rings.push(list);
        place = next;
    }
    Ok((Drawing::of(&rings), place))
}

/// A job that was read: its rule, and of each outline its place in the bytes and what it draws.
#[derive(Clone, PartialEq, Eq, Debug)]
pub struct Job {
    pub threshold: u32,
    pub weight: u32,
    pub outlines: Vec<(std::ops::Range<usize>, Drawing)>,
}

pub fn job(bytes: &[u8]) -> Result<Job, Fault> {
    if bytes.len() > 4096 {
        return Err(Fault { number: 12, at: 0 });
    }
    let (threshold, at) = ranged(bytes, 0, 0, 1000)?;
    let (weight, at) = ranged(bytes, at, 0, 1000)?;
    let (count, mut at) = ranged(bytes, at, 0, 255)?;
    let mut outlines = Vec::new();
    for _ in 0..count {
        let (drawing, next) = outline(bytes, at)?;
        outlines.push((at..next, drawing));
        at = next;
    }
    if at < bytes.len() {
        return Err(Fault { number: 11, at });
    }
    Ok(Job { threshold, weight, outlines })
}

/// The bytes of a number, the fewest there are.
fn push(out: &mut Vec<u8>, mut value: u32) {
    while value >= 0x80 {
        out.push((value & 0x7f) as u8 | 0x80);
        value >>= 7;
    }
    out.push(value as u8);
}

pub fn header(threshold: u32, weight: u32, outlines: u32) -> Vec<u8> {
    let mut out = Vec::new();
    for value in [threshold, weight, outlines] {
        push(&mut out, value);
    }
    out
}

/// The bytes of a drawing that 2 does not refuse: one ring in the scope's form, more after a 0 and
/// their number.
pub fn written_outline(drawing: &Drawing) -> Vec<u8> {
    let rings = drawing.apart().expect("a drawing to write");
    let mut out = Vec::new();
    if rings.len() > 1 {
        push(&mut out, 0);
        push(&mut out, rings.len() as u32);
    }
    for ring in rings {
        push(&mut out, ring.len() as u32 / 2);
        for &value in ring {
            push(&mut out, value as u32);
        }
    }
    out
}

pub fn told_number(bytes: &[u8], at: usize) -> Told {
    match number(bytes, at) {
        Ok((value, next)) => Told::done(&[value as u64, next as u64]),
        Err(fault) => Told::of(fault.number, &[0, 0, fault.told()]),
    }
}

pub fn told_check(bytes: &[u8]) -> Told {
    match job(bytes) {
        Ok(job) => Told::done(&[job.threshold as u64, job.weight as u64, job.outlines.len() as u64]),
        Err(fault) => Told::of(fault.number, &[0, 0, 0, fault.told()]),
    }
}

pub fn told_outline(bytes: &[u8], k: usize) -> Told {
    match job(bytes) {
        Ok(job) => match job.outlines.get(k) {
            Some((part, _)) => Told::done(&[part.start as u64, part.len() as u64]),
            None => Told::refused(13),
        },
        Err(fault) => Told::of(fault.number, &[0, 0, fault.told()]),
    }
}

/// Corners in all and number of rings, the coordinates and ring lengths in the fronts of what is
/// lent; or 8 to 11; or 14 where either is too short for them.
pub fn told_unpack(part: &[u8], list: &mut [u16], rings: &mut [u16]) -> Told {
    let read = outline(part, 0).and_then(|(drawing, at)| {
        if at < part.len() {
            Err(Fault { number: 11, at })
        } else {
            Ok(drawing)
        }
    });
    match read {
        Ok(drawing) if list.len() < drawing.corners.len() || rings.len() < drawing.rings.len() => Told::refused(14),
        Ok(drawing) => {
            list[..drawing.corners.len()].copy_from_slice(&drawing.corners);
            rings[..drawing.rings.len()].copy_from_slice(&drawing.rings);
            Told::done(&[drawing.corners.len() as u64 / 2, drawing.rings.len() as u64])
        }
        Err(fault) => Told::of(fault.number, &[0, 0, fault.told()]),
    }
}

/// Writes to the front of what is lent, or 14.
fn put(bytes: &[u8], out: &mut [u8]) -> Told {
    if out.len() < bytes.len() {
        return Told::refused(14);
    }
    out[..bytes.len()].copy_from_slice(bytes);
    Told::done(&[bytes.len() as u64])
}

pub fn told_header(threshold: u32, weight: u32, outlines: u32, out: &mut [u8]) -> Told {
    if threshold > 1000 || weight > 1000 {
        return Told::refused(1);
    }
    if outlines > 255 {
        return Told::refused(10);
    }
    put(&header(threshold, weight, outlines), out)
}

pub fn told_written_outline(drawing: &Drawing, out: &mut [u8]) -> Told {
    match drawing.apart() {
        Ok(_) => put(&written_outline(drawing), out),
        Err(number) => Told::refused(number),
    }
}
