//! Figures of several rings. As with outlines, the rings are drawn on line numbers first and then
//! stretched to places together, so that they stay within, beside or on each other in every size.

use crate::outlines::{self, alternating, damage as damage_ring, walk, Shape};
use crate::seeded::Seeded;
use law::Drawing;

/// The sorts of figure, with their names for a report.
pub const SORTS: [(&str, fn(&mut Seeded) -> Vec<Shape>); 10] = [
    ("frames with windows", windows),
    ("rings in rings", nested),
    ("touching squares", touching),
    ("crossing rectangles", crossing),
    ("rings drawn again", again),
    ("outlines with windows anywhere", punched),
    ("walks over walks", walks),
    ("16 by 16 lines", sixteen),
    ("eight rectangles", eight),
    ("layout-like figures", layout_like),
];

/// The sort of what a layout has.
pub const LAYOUT_LIKE: usize = 9;

/// Rings that a figure has at most, and corners in all.
const MOST_RINGS: usize = 8;
const MOST_CORNERS: usize = 32;

fn rectangle(left: i32, bottom: i32, right: i32, top: i32) -> Shape {
    vec![(left, bottom), (right, bottom), (right, top), (left, top)]
}

/// A rectangle somewhere on lines 0 to `top`.
fn any_rectangle(s: &mut Seeded, top: usize) -> Shape {
    let mut span = || {
        let low = s.below(top);
        (low as i32, s.within(low + 1, top) as i32)
    };
    let ((left, right), (bottom, high)) = (span(), span());
    rectangle(left, bottom, right, high)
}

/// A rectangle strictly within the square of 10 whose low corner is (x, y).
fn window(s: &mut Seeded, x: i32, y: i32) -> Shape {
    let (left, right) = (s.within(1, 4) as i32, s.within(5, 9) as i32);
    let (bottom, top) = (s.within(1, 4) as i32, s.within(5, 9) as i32);
    rectangle(x + left, y + bottom, x + right, y + top)
}

/// A frame with one to seven windows in columns and rows.
fn windows(s: &mut Seeded) -> Vec<Shape> {
    let (columns, rows) = s.pick(&[(1, 1), (1, 1), (2, 1), (1, 3), (2, 2), (5, 1), (3, 2), (7, 1)]);
    let mut rings = vec![rectangle(0, 0, 10 * columns, 10 * rows)];
    for column in 0..columns {
        for row in 0..rows {
            rings.push(window(s, 10 * column, 10 * row));
        }
    }
    rings
}

/// Rectangles one in the other, up to eight deep; each may share sides with the one around it.
fn nested(s: &mut Seeded) -> Vec<Shape> {
    let (mut left, mut bottom, mut right, mut top) = (0, 0, 20, 20);
    let apart = s.once_in(2);
    let mut rings = Vec::new();
    for _ in 0..s.within(2, MOST_RINGS) {
        rings.push(rectangle(left, bottom, right, top));
        let mut step = || if apart { 1 } else { s.below(2) as i32 };
        left += step();
        bottom += step();
        right -= step();
        top -= step();
    }
    rings
}

/// Squares of a chessboard: side by side, corner to corner, or apart.
fn touching(s: &mut Seeded) -> Vec<Shape> {
    let side = s.within(2, 4) as i32;
    let mut squares: Vec<Shape> = (0..side * side)
        .map(|square| (square % side, square / side))
        .map(|(x, y)| rectangle(x, y, x + 1, y + 1))
        .collect();
    s.shuffle(&mut squares);
    squares.truncate(s.within(2, MOST_RINGS));
    squares
}

/// Rectangles that lie over each other any way.
fn crossing(s: &mut Seeded) -> Vec<Shape> {
    let top = s.within(2, 12);
    (0..s.within(2, MOST_RINGS)).map(|_| any_rectangle(s, top)).collect()
}

/// A ring drawn two times and more, by itself (nothing is left of it, or it is as drawn once) or with
/// another ring.
fn again(s: &mut Seeded) -> Vec<Shape> {
    let turns = s.pick(&[2, 2, 2, 4, 5]);
    let lines = s.within(3, 6);
    let ring = walk(&alternating(s, turns, lines), &alternating(s, turns, lines));
    let mut rings = vec![ring.clone(); s.within(2, (MOST_CORNERS / ring.len()).min(MOST_RINGS))];
    if s.once_in(2) && rings.len() < MOST_RINGS && rings.len() * ring.len() + 4 <= MOST_CORNERS {
        rings.push(any_rectangle(s, 4));
    }
    rings
}

/// An outline of the scope's sorts with rectangles in its frame, inside it or not.
fn punched(s: &mut Seeded) -> Vec<Shape> {
    let outline = loop {
        let sort = s.below(6);
        let shape = outlines::SORTS[sort].1(s);
        if shape.len() + 4 <= MOST_CORNERS {
            break shape;
        }
    };
    let ends = |list: Vec<i32>| (*list.iter().min().unwrap(), *list.iter().max().unwrap());
    let (left, right) = ends(outline.iter().map(|p| p.0).collect());
    let (bottom, top) = ends(outline.iter().map(|p| p.1).collect());
    let most = ((MOST_CORNERS - outline.len()) / 4).min(MOST_RINGS - 1);
    let mut rings = vec![outline];
    for _ in 0..s.within(1, most.min(3)) {
        let mut span = |low: i32, high: i32| {
            let from = s.within(0, (high - low) as usize - 1);
            (low + from as i32, low + s.within(from + 1, (high - low) as usize) as i32)
        };
        let ((x_low, x_high), (y_low, y_high)) = (span(left, right), span(bottom, top));
        rings.push(rectangle(x_low, y_low, x_high, y_high));
    }
    rings
}

/// So many turns shared out to so many rings, two and more to each.
fn shares(s: &mut Seeded, turns: usize, rings: usize) -> Vec<usize> {
    let mut list = vec![2; rings];
    for _ in 2 * rings..turns {
        list[s.below(rings)] += 1;
    }
    list
}

/// Closed walks over the same lines, few or many.
fn walks(s: &mut Seeded) -> Vec<Shape> {
    let rings = s.within(2, MOST_RINGS);
    let turns = s.within(2 * rings, MOST_CORNERS / 2);
    let (n, m) = (s.within(3, 10), s.within(3, 10));
    shares(s, turns, rings)
        .into_iter()
        .map(|turns| walk(&alternating(s, turns, n), &alternating(s, turns, m)))
        .collect()
}

/// Every line of 16 by 16 is touched by one ring alone.
fn sixteen(s: &mut Seeded) -> Vec<Shape> {
    let rings = s.within(2, MOST_RINGS);
    let mut xs: Vec<i32> = (0..16).collect();
    let mut ys = xs.clone();
    s.shuffle(&mut xs);
    s.shuffle(&mut ys);
    shares(s, 16, rings)
        .into_iter()
        .map(|turns| walk(&xs.split_off(xs.len() - turns), &ys.split_off(ys.len() - turns)))
        .collect()
}

/// Eight rectangles in a row, none on another, each as high and as wide as it likes.
fn eight(s: &mut Seeded) -> Vec<Shape> {
    (0..8)
        .map(|k| {
            let bottom = s.below(6) as i32;
            let high = s.pick(&[5, 5, bottom + 1, 9]).max(bottom + 1);
            rectangle(10 * k, bottom, 10 * k + s.within(3, 7) as i32, high)
        })
        .collect()
}

/// What layout people draw: a frame with an opening, or with an island in it; an L or a skyline with
/// contact holes; a block with holes of one size in line.
fn layout_like(s: &mut Seeded) -> Vec<Shape> {
    match s.below(5) {
        0 => vec![rectangle(0, 0, 10, 10), window(s, 0, 0)],
        1 => vec![rectangle(0, 0, 16, 16), rectangle(2, 2, 14, 14), window(s, 3, 3)],
        2 => {
            let foot = vec![(0, 0), (40, 0), (40, 10), (10, 10), (10, 30), (0, 30)];
            vec![foot, window(s, 0, 0), window(s, 0, 10), window(s, 20, 0)]
        }
        3 => {
            let (low, high, last) = (s.within(11, 14) as i32, s.within(15, 18) as i32, s.within(11, 14) as i32);
            let mut rings =
                vec![vec![(0, 0), (30, 0), (30, last), (20, last), (20, high), (10, high), (10, low), (0, low)]];
            for hole in 0..s.within(1, 3) as i32 {
                rings.push(window(s, 10 * hole, 0));
            }
            rings
        }
        _ => {
            let count = s.within(2, 4) as i32;
            let block = rectangle(0, 0, 10 * count, 10);
            let holes = (0..count).map(|hole| rectangle(10 * hole + 3, 3, 10 * hole + 7, 7));
            [block].into_iter().chain(holes).collect()
        }
    }
}

/// A figure of a sort (its place in `SORTS`).
pub fn of_sort(s: &mut Seeded, sort: usize) -> Drawing {
    let rings = SORTS[sort].1(s);
    outlines::placed(s, &rings)
}

/// A sound figure turned bad in one way or two.
pub fn bad(s: &mut Seeded) -> Drawing {
    let sort = s.below(SORTS.len());
    let mut drawing = of_sort(s, sort);
    for _ in 0..s.pick(&[1, 1, 2]) {
        match drawing.apart() {
            Ok(rings) if s.once_in(2) => {
                let mut rings: Vec<Vec<u16>> = rings.iter().map(|ring| ring.to_vec()).collect();
                damage_rings(s, &mut rings);
                drawing = Drawing::of(&rings);
            }
            _ => damage_lengths(s, &mut drawing),
        }
    }
    drawing
}

/// Rings turned bad; the ring lengths beside them follow.
fn damage_rings(s: &mut Seeded, rings: &mut Vec<Vec<u16>>) {
    let (one, other) = (s.below(rings.len()), s.below(rings.len()));
    match s.below(8) {
        // an edge slanted in one ring, two neighbours in line in another, whichever comes first
        0 | 1 => {
            flatten(&mut rings[one]);
            slant(s, &mut rings[other]);
        }
        // one of the two alone
        2 => flatten(&mut rings[one]),
        3 => slant(s, &mut rings[one]),
        // what happens to outlines, with its change of length
        4 | 5 => damage_ring(s, &mut rings[one]),
        // a ring too many, of corners or of rings
        6 => rings.insert(one, rings[other].clone()),
        // a slanted edge in one ring, three corners in another
        _ => {
            slant(s, &mut rings[one]);
            rings[other].truncate(6);
        }
    }
}

/// All corners of a ring at one height: 4, and never 3.
fn flatten(ring: &mut [u16]) {
    let y = ring[1];
    ring.iter_mut().skip(1).step_by(2).for_each(|place| *place = y);
}

/// A corner moved both ways: 3, but for rings of 1 nm.
fn slant(s: &mut Seeded, ring: &mut [u16]) {
    let corner = s.below(ring.len() / 2);
    ring[2 * corner] ^= 1;
    ring[2 * corner + 1] ^= 1;
}

/// Ring lengths, or the length of the list, turned bad.
fn damage_lengths(s: &mut Seeded, drawing: &mut Drawing) {
    let Drawing { corners, rings } = drawing;
    let count = rings.len();
    let (one, other) = if count > 0 { (s.below(count), s.below(count)) } else { (0, 0) };
    match s.below(12) {
        // a length that no ring has
        0 | 1 if count > 0 => rings[one] = s.pick(&[0, 1, 2, 3, 33, 64, 255, 256, 32_767, 32_768, 65_535]),
        // a length beside the right one; a corner that changes rings
        2 if count > 0 => rings[one] = if s.once_in(2) { rings[one].wrapping_sub(1) } else { rings[one].wrapping_add(1) },
        3 if count > 0 => {
            rings[one] = rings[one].wrapping_sub(1);
            rings[other] = rings[other].wrapping_add(1);
        }
        // lengths whose sum is right if it wraps at 16 bits
        4 => rings.extend([65_535, 1]),
        5 if count > 0 => {
            rings.push(rings[one].wrapping_add(1));
            rings[one] = 65_535;
        }
        6 if count > 0 => {
            rings[one] = rings[one].wrapping_add(32_768);
            rings[other] = rings[other].wrapping_add(32_768);
        }
        // no ring, a ring of no corners, more than eight
        7 => match s.below(3) {
            0 => rings.clear(),
            1 => rings.insert(one, 0),
            _ => {
                let more = s.within(9, 20);
                rings.resize(more, 4);
                if s.once_in(2) {
                    corners.resize(2 * rings.iter().map(|&length| length as usize).sum::<usize>().min(100), 7);
                }
            }
        },
        // lengths that count numbers; two rings told as one
        8 if s.once_in(2) => rings.iter_mut().for_each(|length| *length = length.wrapping_mul(2)),
        8 if count > 1 => {
            let last = rings.pop().unwrap();
            rings[count - 2] = rings[count - 2].wrapping_add(last);
        }
        // numbers lost from the list, or too many
        9 => corners.truncate(s.within(0, corners.len())),
        10 => {
            let more = s.within(1, 5);
            corners.resize(corners.len() + more, 7);
        }
        // any lengths at all
        _ => {
            let top = s.pick(&[5, 9, 33, 34, 65_536]);
            *rings = (0..s.within(0, 10)).map(|_| s.below(top) as u16).collect();
        }
    }
}
