//! Item 2: one boundary element of a GDSII stream, read into corners or fractured.

use crate::call::{self, PRESETS};
use crate::drawing::Drawing;
use crate::figure::figure;
use crate::Told;

/// Why an element is refused. Of 8 also the offset of the record that is cut short, else 0.
pub struct Fault {
    pub number: u32,
    pub at: u64,
}

fn fault<T>(number: u32) -> Result<T, Fault> {
    Err(Fault { number, at: 0 })
}

/// Type, data type and content of the record at a place: two bytes of length, high byte first, the
/// whole record counted; a byte each of type and data type; the content. 8 where the bytes end in it.
/// A length below four leaves no content, and no record wants it.
fn record(bytes: &[u8], at: usize) -> Result<(u8, u8, Option<&[u8]>), Fault> {
    let cut = Fault { number: 8, at: at as u64 };
    match bytes[at..] {
        [high, low, kind, form, ..] => {
            let size = usize::from(high) * 256 + usize::from(low);
            if bytes.len() - at < size {
                return Err(cut);
            }
            Ok((kind, form, bytes[at..at + size].get(4..)))
        }
        _ => Err(cut),
    }
}

/// The content of the record at a place, of this type and data type and so long that `right` holds,
/// or 16.
fn wanted(bytes: &[u8], at: &mut usize, kind: u8, form: u8, right: fn(usize) -> bool) -> Result<Vec<u8>, Fault> {
    match record(bytes, *at)? {
        (k, f, Some(content)) if k == kind && f == form && right(content.len()) => {
            *at += 4 + content.len();
            Ok(content.to_vec())
        }
        _ => fault(16),
    }
}

/// The same of a record that may be left out.
fn optional(bytes: &[u8], at: &mut usize, kind: u8, form: u8, right: fn(usize) -> bool) -> Result<(), Fault> {
    if record(bytes, *at)?.0 == kind {
        wanted(bytes, at, kind, form, right)?;
    }
    Ok(())
}

/// The points of an element, the closing one too; or 8 or 16, the first record at fault deciding.
fn points(bytes: &[u8]) -> Result<Vec<(i64, i64)>, Fault> {
    let at = &mut 0;
    wanted(bytes, at, 0x08, 0x00, |n| n == 0)?;
    optional(bytes, at, 0x26, 0x01, |n| n == 2)?;
    optional(bytes, at, 0x2f, 0x03, |n| n == 4)?;
    wanted(bytes, at, 0x0d, 0x02, |n| n == 2)?;
    wanted(bytes, at, 0x0e, 0x02, |n| n == 2)?;
    let xy = wanted(bytes, at, 0x10, 0x03, |n| n > 0 && n % 8 == 0)?;
    wanted(bytes, at, 0x11, 0x00, |n| n == 0)?;
    if *at < bytes.len() {
        return fault(16);
    }
    let coordinate = |four: &[u8]| i64::from(i32::from_be_bytes(four.try_into().unwrap()));
    Ok(xy.chunks(8).map(|point| (coordinate(&point[..4]), coordinate(&point[4..]))).collect())
}

/// A boundary: its corners, lowest x and y moved to 0, and by how much they were moved.
pub struct Boundary {
    pub drawing: Drawing,
    pub shift: (i64, i64),
}

/// The boundary of an element; or the first of 8, 16, 17, 18, 2, 3, 4, 5.
pub fn boundary(bytes: &[u8]) -> Result<Boundary, Fault> {
    let points = points(bytes)?;
    if points.first() != points.last() {
        return fault(17);
    }
    let (xs, ys) = (points.iter().map(|p| p.0), points.iter().map(|p| p.1));
    let (left, right) = (xs.clone().min().unwrap(), xs.max().unwrap());
    let (bottom, top) = (ys.clone().min().unwrap(), ys.max().unwrap());
    if right - left > 65_535 || top - bottom > 65_535 {
        return fault(18);
    }
    let corners = &points[..points.len() - 1];
    if !(4..=32).contains(&corners.len()) {
        return fault(2);
    }
    let numbers: Vec<u16> = corners.iter().flat_map(|p| [(p.0 - left) as u16, (p.1 - bottom) as u16]).collect();
    let drawing = Drawing::outline(&numbers);
    match figure(&drawing) {
        Err(number) => fault(number),
        Ok(figure) if figure.empty() => fault(5),
        Ok(_) => Ok(Boundary { drawing, shift: (left, bottom) }),
    }
}

/// Corners, shift in x and y, offset; the corners in the front of the list; or the faults, or 14.
pub fn told_read(element: &[u8], list: &mut [u16]) -> Told {
    match boundary(element) {
        Err(fault) => Told::of(fault.number, &[0, 0, 0, fault.at]),
        Ok(found) if list.len() < found.drawing.corners.len() => Told::refused(14),
        Ok(found) => {
            let corners = &found.drawing.corners;
            list[..corners.len()].copy_from_slice(corners);
            Told::done(&[corners.len() as u64 / 2, found.shift.0 as u64, found.shift.1 as u64])
        }
    }
}

/// Shots, cost, sliver length, cuts, shift in x and y, offset, by the rule of preset 0; or the faults, or 6
/// or 7.
pub fn told_fracture(element: &[u8], table: &mut [u32], list: &mut [u16]) -> Told {
    match boundary(element) {
        Err(fault) => Told::of(fault.number, &[0, 0, 0, 0, 0, 0, fault.at]),
        Ok(found) => {
            let told = call::fracture(&found.drawing, PRESETS[0].0, PRESETS[0].1, table, list);
            let [shots, cost, sliver, cuts, ..] = told.numbers;
            let shift = if told.number == 0 { found.shift } else { (0, 0) };
            Told::of(told.number, &[shots, cost, sliver, cuts, shift.0 as u64, shift.1 as u64])
        }
    }
}
