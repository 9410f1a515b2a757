//! Divided shots compared: the scope's rows, largest sides around each end of their range, lists of every
//! length around the limit, the full square, and many seeded drawings in both modes; small ones unit square
//! by unit square.

use crate::fractures::covers;
use crate::progress::{Progress, Tally};
use crate::room::{Left, Room};
use crate::Plan;
use drawings::document::B;
use drawings::seeded::Seeded;
use drawings::{figures, outlines};
use law::division::{bad_largest, divided, ends};
use law::figure::figure;
use law::{Calls, Drawing, Law, Told};
use std::sync::atomic::{AtomicUsize, Ordering};

/// One fracture with a largest side.
struct Case<'a> {
    pinwheels: bool,
    drawing: &'a Drawing,
    rule: (u32, u32),
    largest: u32,
    table: &'a [u32],
    list: &'a [u16],
}

impl Case<'_> {
    fn by(&self, calls: &dyn Calls) -> Left {
        let (threshold, weight) = self.rule;
        Left::lend(self.table, self.list, |table, list| {
            calls.fracture_divided(self.pinwheels, self.drawing, threshold, weight, self.largest, table, list)
        })
    }

    fn said(&self) -> String {
        format!(
            "divided: {:?}\n  rule {:?}, largest {}, pinwheels {}, table {}, list {}",
            self.drawing, self.rule, self.largest, self.pinwheels, self.table.len(), self.list.len()
        )
    }

    /// Compares the library with the law; gives the law's answer and list.
    fn compare(&self, plan: &Plan, progress: &Progress) -> (Told, Room<u16>) {
        let right = self.by(&Law);
        if let Some(library) = plan.library {
            right.hold("the library", &self.by(library), &|| self.said());
            progress.same();
        }
        (right.told, right.list)
    }
}

/// A drawing, rule and largest side, and what they give: shots, cost, sliver length and the list.
struct Row {
    corners: &'static [u16],
    rule: (u32, u32),
    largest: u32,
    told: [u64; 3],
    list: &'static [u16],
}

const ROWS: [Row; 7] = [
    Row { corners: &B, rule: (25, 40), largest: 200, told: [4, 4000, 0], list: &[0, 0, 200, 50, 0, 50, 105, 150, 105, 50, 210, 150, 0, 150, 200, 200] },
    Row { corners: &B, rule: (25, 40), largest: 210, told: [3, 3000, 0], list: &[0, 0, 200, 50, 0, 50, 210, 150, 0, 150, 200, 200] },
    Row { corners: &[0, 0, 500, 0, 500, 20, 0, 20], rule: (25, 40), largest: 200, told: [3, 43_000, 1000], list: &[0, 0, 167, 20, 167, 0, 334, 20, 334, 0, 500, 20] },
    Row { corners: &[0, 0, 401, 0, 401, 10, 0, 10], rule: (0, 40), largest: 200, told: [3, 3000, 0], list: &[0, 0, 134, 10, 134, 0, 268, 10, 268, 0, 401, 10] },
    Row { corners: &[5, 7, 407, 7, 407, 209, 5, 209], rule: (25, 40), largest: 200, told: [6, 6000, 0], list: &[5, 7, 139, 108, 139, 7, 273, 108, 273, 7, 407, 108, 5, 108, 139, 209, 139, 108, 273, 209, 273, 108, 407, 209] },
    Row { corners: &[0, 0, 201, 0, 201, 201, 0, 201], rule: (25, 40), largest: 200, told: [4, 4000, 0], list: &[0, 0, 101, 101, 101, 0, 201, 101, 0, 101, 101, 201, 101, 101, 201, 201] },
    Row { corners: &[0, 0, 200, 0, 200, 200, 0, 200], rule: (25, 40), largest: 200, told: [1, 1000, 0], list: &[0, 0, 200, 200] },
];

/// The scope's rows, in both modes, in lists of every length up to beyond what is needed.
pub fn rows(plan: &Plan, progress: &Progress) {
    let (table, marks) = (vec![7; 14_400], vec![9; 64]);
    for row in &ROWS {
        let drawing = Drawing::outline(row.corners);
        for pinwheels in [false, true] {
            for length in 0..row.list.len() + 6 {
                let case = Case { pinwheels, drawing: &drawing, rule: row.rule, largest: row.largest, table: &table, list: &marks[..length] };
                let (told, list) = case.compare(plan, progress);
                if length < row.list.len() {
                    assert_eq!(told, Told::of(7, &[row.told[0]]), "{drawing:?}");
                } else {
                    assert_eq!((told.number, &told.numbers[..3]), (0, &row.told[..]), "{drawing:?}");
                    assert_eq!(&list.held()[..row.list.len()], row.list, "{drawing:?}");
                }
            }
        }
    }
    // the frame's entry is the cost before division
    let bar = Drawing::outline(ROWS[2].corners);
    let mut entry = [0; 1];
    assert_eq!(Law.fracture_divided(false, &bar, 25, 40, 200, &mut entry, &mut [0; 12]).number, 0);
    assert_eq!(entry, [41_000]);
    progress.done(format!("divided: {} rows, each in lists of every length", ROWS.len()));
}

/// Largest sides at each end of their range, beside every other refusal: 1, then 19, then 2 to 7.
pub fn ranges(plan: &Plan, progress: &Progress) {
    let right = [
        (25, 199, 19), (25, 200, 0), (101, 201, 19), (101, 202, 0), (1000, 1999, 19), (1000, 2000, 0), (0, 65_535, 0), (0, 65_536, 19),
        (1001, 3, 1), (u32::MAX, 200, 1), (25, 0, 19), (25, u32::MAX, 19), (1 << 31, 200, 1),
    ];
    let (table, list) = (vec![7; 14_400], vec![9; 900]);
    let square = Drawing::outline(&[0, 0, 100, 0, 100, 100, 0, 100]);
    for (threshold, largest, number) in right {
        let case = Case { pinwheels: false, drawing: &square, rule: (threshold, 40), largest, table: &table, list: &list };
        assert_eq!(case.compare(plan, progress).0.number, number, "threshold {threshold}, largest {largest}");
    }
    // two short corners, slanted, straight on, nothing inside; and short tables and lists
    let faulty: [(&[u16], u32); 5] = [
        (&[0, 0], 2),
        (&[0, 0, 10, 5, 10, 10, 0, 10], 3),
        (&[0, 0, 5, 0, 10, 0, 10, 10, 0, 10, 0, 5], 4),
        (&[0, 0, 1, 0, 1, 1, 0, 1, 0, 0, 1, 0, 1, 1, 0, 1], 5),
        (&B, 0),
    ];
    let mut count = right.len();
    for (corners, number) in faulty {
        let drawing = Drawing::outline(corners);
        for (weight, largest) in [(40, 200), (40, 3), (1001, 200), (1001, 3)] {
            for entries in [0, 17, 18, 14_400] {
                for numbers in [0, 11, 12, 15, 16, 900] {
                    for pinwheels in [false, true] {
                        let case = Case { pinwheels, drawing: &drawing, rule: (25, weight), largest, table: &table[..entries], list: &list[..numbers] };
                        let said = if weight > 1000 {
                            1
                        } else if largest == 3 {
                            19
                        } else if number > 0 {
                            number
                        } else if entries < 18 {
                            6
                        } else if numbers < 16 {
                            7
                        } else {
                            0
                        };
                        assert_eq!(case.compare(plan, progress).0.number, said, "{drawing:?}, largest {largest}, table {entries}, list {numbers}");
                        count += 1;
                    }
                }
            }
        }
    }
    progress.done(format!("divided: {count} fractures around the range and beside every refusal"));
}

/// One side in every length, by some largest sides: the fewest parts that fit, at most 1 nm apart, longer first.
pub fn sides(plan: &Plan, progress: &Progress) {
    let mut count = 0;
    for largest in [200, 201, 255, 256, 257, 1000, 9_999, 32_767, 32_768, 65_534, 65_535] {
        for side in (1..=65_535u16).filter(|side| side % 61 == 0 || (*side as u32 + 2) % largest < 5) {
            let ends = ends(0, side, largest);
            let parts: Vec<u32> = ends.windows(2).map(|e| (e[1] - e[0]) as u32).collect();
            assert!(parts.windows(2).all(|p| p[0] >= p[1]) && parts[0] - parts[parts.len() - 1] <= 1);
            assert!(parts[0] <= largest && (parts.len() as u32 - 1) * largest < side as u32);
            let drawing = Drawing::outline(&[0, 0, side, 0, side, 1, 0, 1]);
            let case = Case { pinwheels: false, drawing: &drawing, rule: (0, 40), largest, table: &[7], list: &vec![9; 4 * parts.len() + 3] };
            let (told, list) = case.compare(plan, progress);
            assert_eq!(told, Told::done(&[parts.len() as u64, 1000 * parts.len() as u64, 0, 0]));
            assert!(list.held().chunks(4).zip(ends.windows(2)).all(|(s, e)| s == [e[0], 0, e[1], 1]));
            count += 1;
        }
    }
    progress.done(format!("divided: {count} sides"));
}

/// The full square: 107,584 shots at 200 nm, more than 16 bits count, and other counts around 65,536.
pub fn full_square(plan: &Plan, progress: &Progress) {
    let drawing = Drawing::outline(&[0, 0, 65_535, 0, 65_535, 65_535, 0, 65_535]);
    let list = vec![9; 467_856];
    for (largest, shots) in [(200, 107_584u64), (255, 66_049), (256, 65_536), (257, 65_025), (65_535, 1)] {
        for numbers in [list.len(), 4 * shots as usize, 4 * shots as usize - 1, 4 * (shots as usize & 0xffff), 900] {
            let case = Case { pinwheels: false, drawing: &drawing, rule: (25, 40), largest, table: &[7; 3], list: &list[..numbers] };
            let told = case.compare(plan, progress).0;
            let right = if numbers < 4 * shots as usize { Told::of(7, &[shots]) } else { Told::done(&[shots, 1000 * shots, 0, 0]) };
            assert_eq!(told, right, "largest {largest}, list {numbers}");
        }
    }
    progress.done("divided: the full square, 107,584 shots at 200 nm".into());
}

/// A largest side: at an end of its range or just beyond, around a side of the drawing, or any.
fn any_largest(s: &mut Seeded, drawing: &Drawing, threshold: u32) -> u32 {
    let least = 200.max(2 * threshold.min(1000));
    let top = drawing.corners.iter().max().copied().unwrap_or(0) as u32;
    let around = s.within(1, 6) as u32;
    match s.below(8) {
        0 => least - 1,
        1 | 2 => least,
        3 => s.pick(&[65_535, 65_536, 65_534]),
        4 => least + s.below(100) as u32,
        5 | 6 => (top / around + s.below(3) as u32).saturating_sub(1),
        _ => s.within(0, 65_600) as u32,
    }
}

/// What is counted of the drawings from seeds, by every thread.
struct Counts {
    tally: Tally,
    parted: AtomicUsize,
    shots: AtomicUsize,
    squares: AtomicUsize,
}

/// A drawing from a seed, perhaps drawn out to several times its size.
fn any_drawing(s: &mut Seeded) -> Drawing {
    let (outline, several) = (s.below(outlines::SORTS.len()), s.below(figures::SORTS.len()));
    let mut drawing = match s.below(16) {
        0 => figures::bad(s),
        1..=8 => outlines::of_sort(s, outline),
        _ => figures::of_sort(s, several),
    };
    let top = drawing.corners.iter().max().copied().unwrap_or(0).max(1);
    let most = (u16::MAX / top).max(1);
    let times = s.pick(&[1, 1, 2, 3, 7, most]).min(most);
    drawing.corners.iter_mut().for_each(|place| *place *= times);
    drawing
}

/// The drawing of a turn, in a list that the last one left: too short, one short, and long enough.
fn one_drawing(plan: &Plan, turn: usize, list: &mut [u16], counts: &Counts, progress: &Progress) {
    let mut s = Seeded::new(plan.seed << 32 | 0xd1f1 << 16 | turn as u64);
    let drawing = any_drawing(&mut s);
    let rule = outlines::rule(&mut s, &drawing);
    let largest = any_largest(&mut s, &drawing, rule.0);
    let pieces = figure(&drawing).map_or(100, |f| f.pieces());
    let pinwheels = pieces <= 1300 && s.once_in(2);
    let table = vec![turn as u32; s.pick(&[pieces, pieces, pieces, pieces + 5, pieces.saturating_sub(1)])];
    let case = |numbers: usize| Case { pinwheels, drawing: &drawing, rule, largest, table: &table, list: &list[..numbers] };
    let told = case(0).compare(plan, progress).0;
    counts.tally.told(told.number);
    assert!(told.number != 19 || bad_largest(rule.0, largest));
    if told.number != 7 {
        return;
    }
    let needed = 4 * told.numbers[0] as usize;
    case(needed - 1).compare(plan, progress);
    let long = case(needed + s.below(20));
    let (told, its) = long.compare(plan, progress);
    counts.tally.told(told.number);
    hold_division(&long, told, &its.held()[..needed], counts);
    if drawing.corners.iter().all(|&place| place < 900) && s.once_in(4) {
        covers(&drawing, rule, Some(largest), told, its.held());
        counts.squares.fetch_add(1, Ordering::Relaxed);
    }
    list[..its.held().len()].copy_from_slice(its.held());
}

/// Holds a divided list to what is listed before division, each shot divided.
fn hold_division(case: &Case, told: Told, list: &[u16], counts: &Counts) {
    assert_eq!(told.number, 0);
    let mut whole = vec![0; 900];
    let before = before_division(case.pinwheels, case.drawing, case.rule, &mut whole);
    let shots = whole.chunks(4).take(before.numbers[0] as usize);
    let parts: Vec<u16> = shots.flat_map(|s| divided(&[s[0], s[1], s[2], s[3]], case.largest)).flatten().collect();
    assert_eq!(list, &parts[..]);
    assert_eq!((told.numbers[2], told.numbers[3]), (before.numbers[2], before.numbers[3]));
    counts.shots.fetch_add(list.len() / 4, Ordering::Relaxed);
    counts.parted.fetch_add((before.numbers[0] < told.numbers[0]) as usize, Ordering::Relaxed);
}

/// Many seeded drawings, some of them drawn out to several times their size, in both modes.
pub fn drawings(plan: &Plan, progress: &Progress) {
    let total = plan.jobs / 4;
    let none = || AtomicUsize::new(0);
    let counts = Counts { tally: Tally::new(), parted: none(), shots: none(), squares: none() };
    let list = || vec![0xffffu16; 500_000];
    plan.turns_with("divided drawings", total, progress, list, |list, turn| one_drawing(plan, turn, list, &counts, progress));
    let Counts { tally, parted, shots, squares } = counts;
    let (parted, squares) = (parted.into_inner(), squares.into_inner());
    tally.all_shown(&[0, 1, 2, 6, 7, 19], total >= 10_000);
    assert!(total < 10_000 || (parted > 1000 && squares > 100), "{parted} with divided shots, {squares} held to their unit squares");
    progress.done(format!(
        "divided: {total} drawings from seeds, answers by number {tally}; {parted} with divided shots, {} shots; {squares} held to their unit squares",
        shots.into_inner()
    ));
}

/// The fracture before division, by the scope.
fn before_division(pinwheels: bool, drawing: &Drawing, rule: (u32, u32), list: &mut [u16]) -> Told {
    let mut table = vec![0; 14_400];
    if pinwheels {
        Law.fracture_pinwheel(drawing, rule.0, rule.1, &mut table, list)
    } else {
        Law.fracture(drawing, rule.0, rule.1, &mut table, list)
    }
}
