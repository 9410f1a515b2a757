//! Boundary elements of GDSII streams, sound and damaged (Item 2).

use crate::outlines;
use crate::seeded::Seeded;

pub type Point = (i32, i32);

/// An L at (-50, 1000): the worked element's drawing.
pub const L: [Point; 6] = [(-50, 1000), (50, 1000), (50, 1020), (10, 1020), (10, 1080), (-50, 1080)];

/// Stairs of 32 corners across the origin.
pub fn stairs() -> Vec<Point> {
    let mut points = vec![(-400, -300)];
    for k in 0..15 {
        let x = -400 + 55 * (15 - k);
        points.extend([(x, -300 + 41 * k), (x, -300 + 41 * (k + 1))]);
    }
    points.push((-400, 315));
    points
}

/// A plate of 65,535 nm in the far corner of what coordinates reach.
pub const PLATE: [Point; 4] = [
    (-2_147_483_648, 2_147_418_112),
    (-2_147_418_113, 2_147_418_112),
    (-2_147_418_113, 2_147_483_647),
    (-2_147_483_648, 2_147_483_647),
];

/// A record: its length, its type and data type, its content.
pub fn record(kind: u8, form: u8, content: &[u8]) -> Vec<u8> {
    let size = (4 + content.len()) as u16;
    [&size.to_be_bytes()[..], &[kind, form], content].concat()
}

pub fn xy(points: &[Point]) -> Vec<u8> {
    points.iter().flat_map(|p| [p.0.to_be_bytes(), p.1.to_be_bytes()].concat()).collect()
}

/// The records of an element with these points, the closing one among them, on a layer of a datatype.
pub fn records(points: &[Point], layer: u16, datatype: u16) -> Vec<Vec<u8>> {
    vec![
        record(0x08, 0x00, &[]),
        record(0x0d, 0x02, &layer.to_be_bytes()),
        record(0x0e, 0x02, &datatype.to_be_bytes()),
        record(0x10, 0x03, &xy(points)),
        record(0x11, 0x00, &[]),
    ]
}

/// The element of a ring: its first point comes again at the end.
pub fn element(ring: &[Point]) -> Vec<u8> {
    records(&closed(ring), 7, 2).concat()
}

pub fn closed(ring: &[Point]) -> Vec<Point> {
    ring.iter().chain(ring.first()).copied().collect()
}

/// A place for a drawing of this extent: near 0, at the ends of what 32 bits hold, or anywhere.
fn shift(s: &mut Seeded, extent: u16) -> i32 {
    let (lowest, highest) = (i32::MIN as i64, i32::MAX as i64 - extent as i64);
    let near = s.within(0, 200_000) as i64 - 100_000;
    let any = lowest + (s.any() % (highest - lowest + 1) as u64) as i64;
    s.pick(&[0, near, near, any, lowest, highest, -1, -(extent as i64)]).clamp(lowest, highest) as i32
}

/// The ring of an outline of any sort, sound or bad, somewhere.
fn ring(s: &mut Seeded) -> Vec<Point> {
    let sort = s.below(outlines::SORTS.len());
    let drawing = if s.once_in(4) { outlines::bad(s) } else { outlines::of_sort(s, sort) };
    let most = |odd: usize| drawing.corners.iter().skip(odd).step_by(2).copied().max().unwrap_or(0);
    let (x, y) = (shift(s, most(0)), shift(s, most(1)));
    drawing.corners.chunks_exact(2).map(|c| (x + c[0] as i32, y + c[1] as i32)).collect()
}

/// An element: mostly one that reads well, with or without the records that may be left out; now and
/// then points that are not closed, too far apart, or too many.
pub fn any(s: &mut Seeded) -> Vec<u8> {
    let mut points = closed(&ring(s));
    match s.below(16) {
        0 => {
            points.pop();
        }
        1 if !points.is_empty() => {
            let (at, far) = (s.below(points.len()), s.any() as i32);
            points[at].0 = far;
        }
        2 if !points.is_empty() => {
            let (at, by) = (s.below(points.len()), s.pick(&[65_535, 65_536, -65_535, -65_536]));
            points[at].1 = points[at].1.wrapping_add(by);
        }
        3 => {
            let more = s.within(33, 8_191);
            points = (0..more).map(|k| (k as i32 * 7, (k % 2) as i32)).collect();
            points.push(points[0]);
            points.truncate(8_191);
        }
        _ => {}
    }
    let mut all = records(&points, s.any() as u16, s.any() as u16);
    if s.once_in(4) {
        let plex = s.any() as u32;
        all.insert(1, record(0x2f, 0x03, &plex.to_be_bytes()));
    }
    if s.once_in(4) {
        let flags = s.any() as u16;
        all.insert(1, record(0x26, 0x01, &flags.to_be_bytes()));
    }
    all.concat()
}

/// The ways to damage an element.
pub const DAMAGES: usize = 8;

/// An element damaged at a byte (0 to its length) in one of these ways.
pub fn damaged(s: &mut Seeded, element: &[u8], at: usize, way: usize) -> Vec<u8> {
    let mut new = element.to_vec();
    let here = at < element.len();
    match way {
        0 => new.truncate(at),
        1 if here => new[at] ^= 1 << s.below(8),
        2 if here => new[at] = s.below(256) as u8,
        3 if here => {
            new.remove(at);
        }
        4 => new.insert(at, s.pick(&[0, 1, 4, 0x10, 0x80, 0xff])),
        // a whole record too many: an element's own, or another
        5 => {
            let kinds = [(0x08, 0x00, 0), (0x26, 0x01, 2), (0x2f, 0x03, 4), (0x0d, 0x02, 2), (0x0e, 0x02, 2), (0x11, 0x00, 0), (0x2b, 0x02, 2)];
            let (kind, form, size) = s.pick(&kinds);
            new.splice(at..at, record(kind, form, &vec![0; size]));
        }
        // four bytes of one value, as a broken transfer leaves them
        6 => {
            let byte = s.pick(&[0, 0xff]);
            let end = (at + 4).min(new.len());
            new[at..end].fill(byte);
        }
        _ => {
            let more = s.within(1, 6);
            for _ in 0..more {
                new.push(s.pick(&[0, 0, 4, 8, 0xff]));
            }
        }
    }
    new
}
