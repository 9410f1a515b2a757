//! Saving what is left of a job (Item 11): the outlines before the first fault, and a job of them.

use crate::bytes::{header, outline, ranged, written_outline, Fault};
use crate::Told;

/// Threshold, weight, K, and the place behind them.
fn read_header(bytes: &[u8]) -> Result<(u32, u32, u32, usize), Fault> {
    let (threshold, at) = ranged(bytes, 0, 0, 1000)?;
    let (weight, at) = ranged(bytes, at, 0, 1000)?;
    let (count, at) = ranged(bytes, at, 0, 255)?;
    Ok((threshold, weight, count, at))
}

/// Written, kept, lost, dropped, offset. The kept outlines are written anew from what they draw, not copied.
pub fn told_salvage(bytes: &[u8], out: &mut [u8]) -> Told {
    if bytes.len() > 4096 {
        return Told::refused(12);
    }
    let (threshold, weight, count, mut end) = match read_header(bytes) {
        Ok(read) => read,
        Err(fault) => return Told::of(fault.number, &[0, 0, 0, 0, fault.at as u64]),
    };
    let mut kept = Vec::new();
    while kept.len() < count as usize {
        let Ok((drawing, next)) = outline(bytes, end) else { break };
        kept.push(drawing);
        end = next;
    }
    let mut sound = header(threshold, weight, kept.len() as u32);
    for drawing in &kept {
        sound.extend(written_outline(drawing));
    }
    if out.len() < sound.len() {
        return Told::refused(14);
    }
    out[..sound.len()].copy_from_slice(&sound);
    let lost = count as usize - kept.len();
    Told::done(&[sound.len() as u64, kept.len() as u64, lost as u64, (bytes.len() - end) as u64])
}
