//! An index beside a job (Item 10). A job is changed as a list of drawings and written anew; where its
//! outlines begin is reckoned by adding up their lengths, and not by reading.

use crate::bytes::{header, job, outline, written_outline, Fault};
use crate::{Drawing, Told};

/// A job's bytes with the place of each outline.
fn written(threshold: u32, weight: u32, drawings: &[Drawing]) -> (Vec<u8>, Vec<u16>) {
    let mut bytes = header(threshold, weight, drawings.len() as u32);
    let mut starts = Vec::new();
    for drawing in drawings {
        starts.push(bytes.len() as u16);
        bytes.extend(written_outline(drawing));
    }
    (bytes, starts)
}

/// Beside a fault of the job the offset stands behind so many zeros.
fn faulty(fault: Fault, zeros: usize) -> Told {
    let mut numbers = vec![0; zeros];
    numbers.push(fault.at as u64);
    Told::of(fault.number, &numbers)
}

pub fn told_open(bytes: &[u8], index: &mut [u16]) -> Told {
    let read = match job(bytes) {
        Ok(read) => read,
        Err(fault) => return faulty(fault, 1),
    };
    let drawings: Vec<Drawing> = read.outlines.into_iter().map(|(_, drawing)| drawing).collect();
    let (again, starts) = written(read.threshold, read.weight, &drawings);
    assert_eq!(again, bytes, "a job has one form");
    if index.len() < starts.len() {
        return Told::refused(14);
    }
    index[..starts.len()].copy_from_slice(&starts);
    Told::done(&[starts.len() as u64])
}

/// The new job and its index, both from their fronts; or 12, or 14 where either is too short.
fn changed(threshold: u32, weight: u32, drawings: &[Drawing], index: &mut [u16], out: &mut [u8]) -> Told {
    let (bytes, starts) = written(threshold, weight, drawings);
    if bytes.len() > 4096 {
        return Told::refused(12);
    }
    if out.len() < bytes.len() || index.len() < starts.len() {
        return Told::refused(14);
    }
    out[..bytes.len()].copy_from_slice(&bytes);
    index[..starts.len()].copy_from_slice(&starts);
    Told::done(&[bytes.len() as u64, starts.len() as u64])
}

pub fn told_append(bytes: &[u8], drawing: &Drawing, index: &mut [u16], out: &mut [u8]) -> Told {
    let read = match job(bytes) {
        Ok(read) => read,
        Err(fault) => return faulty(fault, 2),
    };
    if let Err(number) = drawing.apart() {
        return Told::refused(number);
    }
    if read.outlines.len() == 255 {
        return Told::refused(20);
    }
    let mut drawings: Vec<Drawing> = read.outlines.into_iter().map(|(_, drawing)| drawing).collect();
    drawings.push(drawing.clone());
    changed(read.threshold, read.weight, &drawings, index, out)
}

pub fn told_remove(bytes: &[u8], k: usize, index: &mut [u16], out: &mut [u8]) -> Told {
    let read = match job(bytes) {
        Ok(read) => read,
        Err(fault) => return faulty(fault, 2),
    };
    if k >= read.outlines.len() {
        return Told::refused(13);
    }
    let mut drawings: Vec<Drawing> = read.outlines.into_iter().map(|(_, drawing)| drawing).collect();
    drawings.remove(k);
    changed(read.threshold, read.weight, &drawings, index, out)
}

pub fn told_pick(bytes: &[u8], index: &[u16], count: usize, k: usize) -> Told {
    if bytes.len() > 4096 {
        return Told::refused(12);
    }
    let entry = match index.get(k) {
        Some(&entry) if k < count => entry as usize,
        _ => return Told::refused(13),
    };
    match outline(bytes, entry) {
        Ok((_, end)) => Told::done(&[entry as u64, (end - entry) as u64]),
        Err(fault) => faulty(fault, 2),
    }
}
