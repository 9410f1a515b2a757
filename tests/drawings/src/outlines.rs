//! Outlines of every sort. A shape is drawn on line numbers first and then stretched to places, so
//! that every shape comes in every size; it may then be turned, mirrored and started elsewhere.

use crate::seeded::Seeded;
use law::Drawing;

/// Corners of a ring on whole numbers that need not be places yet.
pub type Shape = Vec<(i32, i32)>;

/// The sorts of outline, with their names for a report.
pub const SORTS: [(&str, fn(&mut Seeded) -> Shape); 10] = [
    ("rectangles and Ls", few_corners),
    ("skylines", skyline),
    ("bumped rectangles", bumped),
    ("combs", comb),
    ("spirals", spiral),
    ("staircases", staircase),
    ("crossing walks", crossing),
    ("touching walks", touching),
    ("16 by 16 lines", sixteen),
    ("drawn back over themselves", doubled),
];

fn few_corners(s: &mut Seeded) -> Shape {
    let (x, y) = (s.within(1, 3) as i32, s.within(1, 3) as i32);
    if s.once_in(2) {
        vec![(0, 0), (x, 0), (x, y), (0, y)]
    } else {
        vec![(0, 0), (x + 1, 0), (x + 1, 1), (x, 1), (x, y + 1), (0, y + 1)]
    }
}

/// A profile above the ground line, and one below it.
fn skyline(s: &mut Seeded) -> Shape {
    let columns = s.within(1, 7) as i32;
    let mut shape = Shape::new();
    let side = |shape: &mut Shape, s: &mut Seeded, from: i32, to: i32, sign: i32| {
        let step = if from < to { 1 } else { -1 };
        let mut x = from;
        let mut last = 0;
        while x != to {
            let mut height = s.within(1, 7) as i32;
            if height == last {
                height += 1;
            }
            shape.push((x, sign * height));
            shape.push((x + step, sign * height));
            last = height;
            x += step;
        }
    };
    side(&mut shape, s, 0, columns, 1);
    if s.once_in(2) {
        shape.push((columns, 0));
        shape.push((0, 0));
    } else {
        side(&mut shape, s, columns, 0, -1);
    }
    shape
}

/// A rectangle with bumps and dents, which may cross each other.
fn bumped(s: &mut Seeded) -> Shape {
    let mut shape: Shape = vec![(0, 0), (40, 0), (40, 40), (0, 40)];
    let reach = s.pick(&[4, 10, 38, 60]);
    for _ in 0..s.within(1, 7) {
        let at = s.below(shape.len());
        let (p, q) = (shape[at], shape[(at + 1) % shape.len()]);
        let (from, to) = if p.1 == q.1 { (p.0, q.0) } else { (p.1, q.1) };
        if (to - from).abs() < 4 {
            continue;
        }
        let step = (to - from).signum();
        let room = (to - from).abs() as usize;
        let u = s.within(1, room - 2);
        let v = s.within(u + 1, room - 1);
        let (u, v) = (from + step * u as i32, from + step * v as i32);
        let out = s.pick(&[-1, 1]) * s.within(1, reach) as i32;
        let new = if p.1 == q.1 {
            [(u, p.1), (u, p.1 + out), (v, p.1 + out), (v, p.1)]
        } else {
            [(p.0, u), (p.0 + out, u), (p.0 + out, v), (p.0, v)]
        };
        for (place, corner) in new.into_iter().enumerate() {
            shape.insert(at + 1 + place, corner);
        }
    }
    shape
}

fn comb(s: &mut Seeded) -> Shape {
    let teeth = s.within(2, 8) as i32;
    let even = s.once_in(3);
    let mut shape = vec![(0, 0)];
    for tooth in 0..teeth {
        let top = if even { 10 } else { s.within(2, 9) as i32 };
        let root = 1;
        shape.push((2 * tooth, if tooth == 0 { top } else { root }));
        if tooth > 0 {
            shape.push((2 * tooth, top));
        }
        shape.push((2 * tooth + 1, top));
        if tooth + 1 < teeth {
            shape.push((2 * tooth + 1, root));
        }
    }
    shape.push((2 * teeth - 1, 0));
    shape
}

fn spiral(s: &mut Seeded) -> Shape {
    let turns = s.within(2, 15) as i32;
    let side = 2 * (turns / 2) + 6;
    let outer = |n: i32| {
        let (ring, turn) = ((n - 1).div_euclid(4), (n - 1).rem_euclid(4));
        match turn {
            0 => (side - 2 * ring, 2 * ring),
            1 => (side - 2 * ring, side - 2 * ring),
            2 => (2 * ring, side - 2 * ring),
            _ => (2 * ring, 2 * ring + 2),
        }
    };
    let inner = |n: i32| {
        let (x, y) = outer(n);
        match (n - 1).rem_euclid(4) {
            0 => (x - 1, y + 1),
            1 => (x - 1, y - 1),
            2 => (x + 1, y - 1),
            _ => (x + 1, y + 1),
        }
    };
    let mut shape = vec![(0, 0)];
    for n in 1..turns {
        shape.push(outer(n));
    }
    // the end, as long as the outer arm goes
    let (end, back) = (outer(turns), inner(turns - 1));
    shape.push(end);
    shape.push(if (turns - 1) % 2 == 0 { (end.0, back.1) } else { (back.0, end.1) });
    for n in (1..turns).rev() {
        shape.push(inner(n));
    }
    shape.push((0, 1));
    shape
}

fn staircase(s: &mut Seeded) -> Shape {
    let steps = s.within(2, 15) as i32;
    let mut shape = vec![(0, 0)];
    for step in 0..steps {
        shape.push((steps - step, step));
        shape.push((steps - step, step + 1));
    }
    shape.push((0, steps));
    shape
}

/// A closed walk with a vertical edge for each x given, one x and one y each turn.
pub fn walk(xs: &[i32], ys: &[i32]) -> Shape {
    let count = xs.len();
    (0..count).flat_map(|i| [(xs[i], ys[i]), (xs[(i + 1) % count], ys[i])]).collect()
}

/// So many numbers below `lines`, neighbours (last and first too) different.
pub fn alternating(s: &mut Seeded, count: usize, lines: usize) -> Vec<i32> {
    loop {
        let list: Vec<i32> = (0..count).map(|_| s.below(lines) as i32).collect();
        if (0..count).all(|i| list[i] != list[(i + 1) % count]) {
            return list;
        }
    }
}

fn crossing(s: &mut Seeded) -> Shape {
    let count = s.within(2, 12);
    let (n, m) = (s.within(3, 14), s.within(3, 14));
    let (xs, ys) = (alternating(s, count, n), alternating(s, count, m));
    walk(&xs, &ys)
}

/// Few lines and many corners, so that edges lie on edges and corners meet.
fn touching(s: &mut Seeded) -> Shape {
    let count = 2 * s.within(1, 6);
    let (n, m) = (s.within(2, 4), s.within(2, 4));
    let (xs, ys) = (alternating(s, count, n), alternating(s, count, m));
    walk(&xs, &ys)
}

fn sixteen(s: &mut Seeded) -> Shape {
    let mut xs: Vec<i32> = (0..16).collect();
    let mut ys = xs.clone();
    s.shuffle(&mut xs);
    s.shuffle(&mut ys);
    walk(&xs, &ys)
}

/// A shape once and once more, or there and back: all cells are left outside, or only some.
fn doubled(s: &mut Seeded) -> Shape {
    let (x, y) = (s.within(1, 5) as i32, s.within(1, 5) as i32);
    let square = [(0, 0), (x, 0), (x, y), (0, y)];
    match s.below(3) {
        0 => square.iter().cycle().take(4 * s.within(2, 8)).copied().collect(),
        1 => vec![(0, 0), (x, 0), (x, y), (x + 1, y), (x + 1, 0), (x, 0), (x, y), (0, y)],
        _ => {
            let shape = touching(s);
            if shape.len() > 16 {
                return shape;
            }
            shape.iter().chain(shape.iter()).copied().collect()
        }
    }
}

/// So many places in rising order: close together, in steps near the thresholds in use, or far
/// apart up to the largest place.
pub fn places(s: &mut Seeded, count: usize) -> Vec<u16> {
    const STEPS: [usize; 16] = [1, 1, 2, 4, 5, 6, 9, 10, 11, 20, 24, 25, 26, 49, 50, 100];
    let mut list: Vec<usize> = Vec::new();
    let sort = s.below(5);
    let even = s.pick(&STEPS);
    let mut at = if s.once_in(2) { 0 } else { s.below(300) };
    for _ in 0..count {
        list.push(at);
        at += match sort {
            0 => 1,
            1 => s.within(1, 3),
            2 => s.pick(&STEPS),
            3 => even,
            _ => s.within(1, 4000),
        };
    }
    if s.once_in(8) {
        // up against the largest place
        let shift = 65_535 - list[count - 1];
        list.iter_mut().for_each(|place| *place += shift);
    }
    if s.once_in(16) {
        list[count - 1] = 65_535;
    }
    list.into_iter().map(|place| place as u16).collect()
}

/// The shapes at places, each a ring of one figure: all stretched, turned and mirrored together; each
/// started anywhere, in either direction; in any order.
pub fn placed(s: &mut Seeded, shapes: &[Shape]) -> Drawing {
    let lines = |values: Vec<i32>| {
        let mut sorted = values;
        sorted.sort();
        sorted.dedup();
        sorted
    };
    let xs = lines(shapes.iter().flatten().map(|p| p.0).collect());
    let ys = lines(shapes.iter().flatten().map(|p| p.1).collect());
    let (x_places, y_places) = (places(s, xs.len()), places(s, ys.len()));
    let (flip_x, flip_y, swap) = (s.once_in(2), s.once_in(2), s.once_in(2));
    let at = |sorted: &Vec<i32>, list: &Vec<u16>, value: i32, flip: bool| {
        let line = sorted.binary_search(&value).unwrap();
        if flip {
            let (low, high) = (list[0], list[list.len() - 1]);
            high - (list[line] - low)
        } else {
            list[line]
        }
    };
    let mut rings: Vec<Vec<u16>> = Vec::new();
    for shape in shapes {
        let mut corners: Vec<(u16, u16)> = shape
            .iter()
            .map(|p| (at(&xs, &x_places, p.0, flip_x), at(&ys, &y_places, p.1, flip_y)))
            .map(|(x, y)| if swap { (y, x) } else { (x, y) })
            .collect();
        let start = s.below(corners.len());
        corners.rotate_left(start);
        if s.once_in(2) {
            corners.reverse();
        }
        rings.push(corners.into_iter().flat_map(|(x, y)| [x, y]).collect());
    }
    s.shuffle(&mut rings);
    Drawing::of(&rings)
}

/// An outline of a sort (its place in `SORTS`).
pub fn of_sort(s: &mut Seeded, sort: usize) -> Drawing {
    let shape = SORTS[sort].1(s);
    placed(s, &[shape])
}

/// A sound outline turned bad in one way or two, or a list of any length.
pub fn bad(s: &mut Seeded) -> Drawing {
    let sort = s.below(SORTS.len());
    let mut list = of_sort(s, sort).corners;
    for _ in 0..s.pick(&[1, 1, 2]) {
        damage(s, &mut list);
    }
    Drawing::outline(&list)
}

/// The corners of one ring turned bad in one way.
pub fn damage(s: &mut Seeded, list: &mut Vec<u16>) {
    let count = list.len() / 2;
    let corner = if count > 0 { s.below(count) } else { 0 };
    match s.below(10) {
        // a length that is odd, too short or too long
        0 => list.truncate(s.within(0, list.len())),
        1 => list.push(s.below(100) as u16),
        2 => {
            let more = s.within(1, 70);
            for _ in 0..more {
                list.push(s.below(100) as u16);
            }
        }
        // one coordinate moved: a slanted edge, an edge of no length, or a line gone
        3 if count > 0 => {
            let at = s.below(list.len());
            list[at] = if s.once_in(2) { s.below(65_536) as u16 } else { list[s.below(list.len())] };
        }
        // both coordinates of a corner moved
        4 if count > 0 => {
            list[2 * corner] ^= 1;
            list[2 * corner + 1] ^= 1;
        }
        // a corner said twice
        5 if count > 0 => {
            let (x, y) = (list[2 * corner], list[2 * corner + 1]);
            list.splice(2 * corner..2 * corner, [x, y]);
        }
        // a corner in the middle of an edge: two neighbours change the same coordinate
        6 if count > 1 => {
            let next = (corner + 1) % count;
            let (x, y) = (list[2 * corner], list[2 * corner + 1]);
            let (u, v) = (list[2 * next], list[2 * next + 1]);
            let middle = [((x as u32 + u as u32) / 2) as u16, ((y as u32 + v as u32) / 2) as u16];
            list.splice(2 * corner + 2..2 * corner + 2, middle);
        }
        // a corner left out
        7 if count > 0 => {
            list.drain(2 * corner..2 * corner + 2);
        }
        // two corners exchanged
        8 if count > 1 => {
            let other = s.below(count);
            list.swap(2 * corner, 2 * other);
            list.swap(2 * corner + 1, 2 * other + 1);
        }
        // numbers of no sense at all
        _ => {
            let length = s.within(0, 70);
            let top = s.pick(&[2, 3, 10, 65_536]);
            *list = (0..length).map(|_| s.below(top) as u16).collect();
        }
    }
}

/// A rule for a drawing: often at or beside a width that it has, sometimes out of range.
pub fn rule(s: &mut Seeded, drawing: &Drawing) -> (u32, u32) {
    let corners = &drawing.corners;
    let threshold = match s.below(8) {
        0 => 0,
        1 => s.pick(&[25, 10, 5, 50]),
        2 => s.within(0, 1000) as u32,
        3 => 1000,
        4 if s.once_in(6) => s.pick(&[1001, 65_536, 1 << 20, u32::MAX]),
        _ if corners.len() >= 4 => {
            // the width between two places of the drawing, or one to either side of it
            let way = s.below(2);
            let count = corners.len() / 2;
            let (i, j) = (s.below(count), s.below(count));
            let width = corners[2 * i + way].abs_diff(corners[2 * j + way]) as u32;
            (width + s.below(3) as u32).saturating_sub(1).min(1000)
        }
        _ => 25,
    };
    let weight = match s.below(6) {
        0 => 0,
        1 => s.pick(&[40, 100, 200, 20]),
        2 => 1000,
        3 if s.once_in(6) => s.pick(&[1001, 4096, u32::MAX]),
        4 => s.within(1, 12) as u32,
        _ => s.within(0, 1000) as u32,
    };
    (threshold, weight)
}
