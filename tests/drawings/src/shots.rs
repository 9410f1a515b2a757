//! Lists of shots to join: four numbers for each, sound and bad.

use crate::seeded::Seeded;

pub const SORTS: [&str; 5] = ["a divided square", "shots side by side", "few places", "anywhere", "repeats"];

/// A list of shots of a sort, with area all of them.
pub fn of_sort(s: &mut Seeded, sort: usize) -> Vec<u16> {
    let mut shots = match sort {
        0 => divided(s),
        1 => side_by_side(s),
        2 => (0..s.within(0, 24)).map(|_| shot(s, 0, 5)).collect(),
        3 => (0..s.within(0, 24)).map(|_| shot(s, 0, 65_535)).collect(),
        _ => {
            let few: Vec<[u16; 4]> = (0..s.within(1, 5)).map(|_| shot(s, 65_530, 65_535)).collect();
            (0..s.within(0, 24)).map(|_| few[s.below(few.len())]).collect()
        }
    };
    if s.once_in(3) {
        s.shuffle(&mut shots);
    }
    shots.concat()
}

/// A list of any sort; now and then a bad one.
pub fn any(s: &mut Seeded) -> Vec<u16> {
    let sort = s.below(SORTS.len());
    let mut list = of_sort(s, sort);
    if s.once_in(5) {
        spoil(s, &mut list);
    }
    list
}

/// Cuts a list within a shot, or takes the area from one.
fn spoil(s: &mut Seeded, list: &mut Vec<u16>) {
    if list.is_empty() || s.once_in(3) {
        for _ in 0..s.within(1, 3) {
            list.push(s.below(10) as u16);
        }
        return;
    }
    let at = 4 * s.below(list.len() / 4) + s.below(2);
    match s.below(3) {
        0 => list[at] = list[at + 2],
        1 => list.swap(at, at + 2),
        _ => list[at + 2] = list[at],
    }
}

/// Two places that differ, in order.
fn span(s: &mut Seeded, low: usize, high: usize) -> (u16, u16) {
    let a = s.within(low, high - 1);
    (a as u16, s.within(a + 1, high) as u16)
}

fn shot(s: &mut Seeded, low: usize, high: usize) -> [u16; 4] {
    let ((x, u), (y, v)) = (span(s, low, high), span(s, low, high));
    [x, y, u, v]
}

fn lines(s: &mut Seeded, count: usize) -> Vec<u16> {
    let mut at = s.below(100) as u16;
    (0..count)
        .map(|_| {
            at += s.within(1, 90) as u16;
            at
        })
        .collect()
}

/// A square divided by some lines, in rows from the bottom; some parts are left out.
fn divided(s: &mut Seeded) -> Vec<[u16; 4]> {
    let (across, up) = (s.within(2, 7), s.within(2, 7));
    let (xs, ys) = (lines(s, across), lines(s, up));
    let missing = s.pick(&[2, 4, 1_000]);
    let mut shots = Vec::new();
    for y in ys.windows(2) {
        for x in xs.windows(2) {
            if !s.once_in(missing) {
                shots.push([x[0], y[0], x[1], y[1]]);
            }
        }
    }
    shots
}

/// Each beside the one before it, on one of its four sides: an end in common, or none, or a point.
fn side_by_side(s: &mut Seeded) -> Vec<[u16; 4]> {
    let mut shots = vec![[30_000, 30_000, 30_040, 30_020]];
    for _ in 0..s.within(0, 24) {
        let near = shots[s.below(shots.len())];
        let deep = s.within(1, 60) as u16;
        let along = |s: &mut Seeded, low: u16, high: u16| {
            let (from, to) = (low - s.pick(&[0, 0, 5, high - low]), high + s.pick(&[0, 0, 5]));
            match s.below(4) {
                0 => (low, to),
                1 => (from, high),
                2 => (from, low.max(from + 1)),
                _ => (from, to),
            }
        };
        let (x, y) = (along(s, near[0], near[2]), along(s, near[1], near[3]));
        shots.push(match s.below(4) {
            0 => [near[2], y.0, near[2] + deep, y.1],
            1 => [near[0] - deep, y.0, near[0], y.1],
            2 => [x.0, near[3], x.1, near[3] + deep],
            _ => [x.0, near[1] - deep, x.1, near[1]],
        });
    }
    shots
}
