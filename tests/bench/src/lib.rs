//! The lines of the benchmark and their drawings.

use drawings::document::{B, FRAMED, JOGS, L, W2};
use drawings::seeded::Seeded;
use drawings::{figures, outlines};
use law::{Calls, Drawing, Law};

/// A line of the table: its name and its drawings.
pub struct Line {
    pub name: &'static str,
    pub drawings: Vec<Drawing>,
}

/// 32 corners, 16 lines each way.
fn staircase() -> Drawing {
    let mut corners = vec![0, 0];
    for step in 0..15u16 {
        corners.extend([(15 - step) * 30, step * 40, (15 - step) * 30, (step + 1) * 40]);
    }
    corners.extend([0, 600]);
    Drawing::outline(&corners)
}

/// A crossing walk over 16 by 16 lines.
fn walk(seed: u64) -> Drawing {
    let mut s = Seeded::new(seed);
    let shape = outlines::SORTS[8].1(&mut s);
    let corners: Vec<u16> = shape.iter().flat_map(|&(x, y)| [x as u16 * 20 + 5, y as u16 * 30 + 5]).collect();
    Drawing::outline(&corners)
}

/// The seed of the walk with most mixed pieces, as `most_mixed` finds it.
const WORST: u64 = 42;

/// Of many crossing walks the one with most mixed pieces: its seed.
fn most_mixed() -> u64 {
    let mixed = |&seed: &u64| {
        let figure = law::figure::figure(&walk(seed)).unwrap();
        let fracture = law::cutting::Fracture::new(&figure, 25, 40);
        fracture.pieces().into_iter().filter(|&p| fracture.kind(p) == law::cutting::Kind::Mixed).count()
    };
    (0..300).max_by_key(mixed).unwrap()
}

/// The first 200 drawings that can be fractured.
fn two_hundred(mut next: impl FnMut() -> Drawing) -> Vec<Drawing> {
    let mut list = Vec::new();
    while list.len() < 200 {
        let drawing = next();
        if Law.fracture(&drawing, 25, 40, &mut vec![0; 14_400], &mut vec![0; 900]).number == 0 {
            list.push(drawing);
        }
    }
    list
}

/// Layout-like outlines: what a mask has, mostly rectangles, Ls, skylines, combs, bumped rectangles.
pub fn layout() -> Vec<Drawing> {
    let mut s = Seeded::new(200);
    two_hundred(|| {
        let sort = s.pick(&[0, 0, 0, 1, 1, 2, 2, 3, 4, 5]);
        outlines::of_sort(&mut s, sort)
    })
}

/// Layout-like figures with windows: frames, blocks and Ls with openings, rings in rings.
fn layout_with_windows() -> Vec<Drawing> {
    let mut s = Seeded::new(201);
    two_hundred(|| {
        let sort = s.pick(&[figures::LAYOUT_LIKE, figures::LAYOUT_LIKE, figures::LAYOUT_LIKE, 0, 1]);
        figures::of_sort(&mut s, sort)
    })
}

/// The frame with a window of the scope.
fn framed() -> Drawing {
    Drawing { corners: FRAMED.to_vec(), rings: vec![4, 4] }
}

/// The figures that the guard counts, by a word for each; made in no time, so that it can count them slowly.
pub fn guarded() -> [(&'static str, Drawing); 5] {
    [
        ("L", Drawing::outline(&L)),
        ("B", Drawing::outline(&B)),
        ("frame", framed()),
        ("staircase", staircase()),
        ("16-by-16", walk(WORST)),
    ]
}

/// A frame with a window and a jog at each corner: a pinwheel cuts it into four.
fn jogs() -> Drawing {
    Drawing { corners: JOGS.to_vec(), rings: vec![12, 4] }
}

/// The lines of the table of fractures by pinwheels.
pub fn wheel_lines() -> Vec<Line> {
    vec![
        Line { name: "L, 3 by 3 lines", drawings: vec![Drawing::outline(&L)] },
        Line { name: "frame with a window, 4 by 4 lines", drawings: vec![framed()] },
        Line { name: "W2, 5 by 5 lines", drawings: vec![Drawing::outline(&W2)] },
        Line { name: "frame with jogs, 6 by 6 lines", drawings: vec![jogs()] },
        Line { name: "staircase, 32 corners", drawings: vec![staircase()] },
        Line { name: "16 by 16 lines, most pieces mixed", drawings: vec![walk(WORST)] },
        Line { name: "200 layout-like outlines", drawings: layout() },
        Line { name: "200 layout-like figures with windows", drawings: layout_with_windows() },
    ]
}

/// All lines of the table of fractures.
pub fn lines() -> Vec<Line> {
    assert_eq!(most_mixed(), WORST, "another walk has more mixed pieces");
    vec![
        Line { name: "L, 3 by 3 lines", drawings: vec![Drawing::outline(&L)] },
        Line { name: "B, 3 by 4 lines", drawings: vec![Drawing::outline(&B)] },
        Line { name: "staircase, 32 corners", drawings: vec![staircase()] },
        Line { name: "16 by 16 lines, most pieces mixed", drawings: vec![walk(WORST)] },
        Line { name: "200 layout-like outlines", drawings: layout() },
        Line { name: "frame with a window", drawings: vec![framed()] },
        Line { name: "200 layout-like figures with windows", drawings: layout_with_windows() },
    ]
}
