//! Same drawing, same shots, on the library itself: figures from seeds, each redrawn (every ring from each of its corners,
//! every ring the other way round, the rings in another order), moved to all four edges of the range, and under dearer
//! rules. Answers and both buffers are compared whole, what lies beyond what is written among them.

use crate::progress::Progress;
use crate::room::{marks, Left};
use crate::{Library, Plan};
use drawings::seeded::Seeded;
use drawings::{figures, outlines};
use law::{Drawing, Told};
use std::sync::atomic::{AtomicUsize, Ordering};

/// The rings of a drawing whose lengths announce just its corners, each as pairs; none of another.
fn rings(drawing: &Drawing) -> Option<Vec<Vec<[u16; 2]>>> {
    let total: usize = drawing.rings.iter().map(|&n| n as usize).sum();
    if drawing.corners.len() != 2 * total {
        return None;
    }
    let mut rest = drawing.corners.chunks(2).map(|c| [c[0], c[1]]);
    Some(drawing.rings.iter().map(|&n| rest.by_ref().take(n as usize).collect()).collect())
}

fn drawn(rings: &[Vec<[u16; 2]>]) -> Drawing {
    Drawing {
        corners: rings.iter().flatten().flatten().copied().collect(),
        rings: rings.iter().map(|r| r.len() as u16).collect(),
    }
}

/// Every ring from each of its corners and the other way round, and the rings in the other order and shuffled.
fn redrawn(rings: &[Vec<[u16; 2]>], s: &mut Seeded) -> Vec<Drawing> {
    let mut all = Vec::new();
    for k in 0..rings.len() {
        for first in 0..rings[k].len() {
            let mut other = rings.to_vec();
            other[k].rotate_left(first);
            all.push(drawn(&other));
            other[k].reverse();
            all.push(drawn(&other));
        }
    }
    let mut order = rings.to_vec();
    order.reverse();
    all.push(drawn(&order));
    s.shuffle(&mut order);
    order.iter_mut().for_each(|r| r.reverse());
    all.push(drawn(&order));
    all
}

/// The drawing moved so that its lowest or its highest place in x, and in y, lies at the edge of the range, with the move.
fn moved(rings: &[Vec<[u16; 2]>]) -> Vec<(Drawing, [i32; 2])> {
    let places = |a: usize| rings.iter().flatten().map(move |c| c[a] as i32);
    let (Some(left), Some(right)) = (places(0).min(), places(0).max()) else { return Vec::new() };
    let (bottom, top) = (places(1).min().unwrap_or(0), places(1).max().unwrap_or(0));
    let mut all = Vec::new();
    for dx in [-left, 65_535 - right] {
        for dy in [-bottom, 65_535 - top] {
            let to = |c: &[u16; 2]| [(c[0] as i32 + dx) as u16, (c[1] as i32 + dy) as u16];
            all.push((drawn(&rings.iter().map(|r| r.iter().map(to).collect()).collect::<Vec<_>>()), [dx, dy]));
        }
    }
    all
}

/// A figure from a seed, by a rule, and the lengths of what is lent: table and list.
struct Figure {
    library: Library,
    drawing: Drawing,
    rule: (u32, u32),
    room: (usize, usize),
}

impl Figure {
    /// What a fracture leaves in buffers that are lent with the same contents each time.
    fn fracture(&self, drawing: &Drawing, (threshold, weight): (u32, u32)) -> Left {
        let (table, list) = (marks(self.room.0, 0), marks(self.room.1, 0));
        Left::lend(&table, &list, |table, list| self.library.fracture(drawing, threshold, weight, table, list))
    }

    /// Redrawn it leaves the same; gives how often it was.
    fn hold_redrawn(&self, left: &Left, rings: &[Vec<[u16; 2]>], s: &mut Seeded) -> usize {
        let all = redrawn(rings, s);
        for other in &all {
            let said = || format!("{:?} by {:?}, redrawn as {other:?}", self.drawing, self.rule);
            left.hold("the library", &self.fracture(other, self.rule), &said);
        }
        all.len()
    }

    /// Moved it leaves the same, its shots moved; gives how often it was.
    fn hold_moved(&self, left: &Left, rings: &[Vec<[u16; 2]>]) -> usize {
        let all = moved(rings);
        let written = if left.told.number == 0 { 4 * left.told.numbers[0] as usize } else { 0 };
        for (other, by) in &all {
            let mut again = self.fracture(other, self.rule);
            for (n, place) in again.list.lent()[..written].iter_mut().enumerate() {
                *place = (*place as i32 - by[n % 2]) as u16;
            }
            left.hold("the library", &again, &|| format!("{:?} by {:?}, moved by {by:?}", self.drawing, self.rule));
        }
        all.len()
    }

    /// By a dearer rule no entry and no cost is lower; gives whether that rule was not refused.
    fn hold_dearer(&self, left: &Left, s: &mut Seeded) -> bool {
        let (drawing, rule) = (&self.drawing, self.rule);
        let dearer = (s.within(rule.0 as usize, 1_000) as u32, s.within(rule.1 as usize, 1_000) as u32);
        let other = self.fracture(drawing, dearer);
        if other.told.number == 0 {
            assert!(left.told.numbers[1] <= other.told.numbers[1], "{drawing:?}: {rule:?} costs more than {dearer:?}");
            let mut entries = left.table.held().iter().zip(other.table.held());
            assert!(entries.all(|(entry, by_dearer)| entry <= by_dearer), "{drawing:?}: an entry by {dearer:?} is lower");
        }
        other.told.number == 0
    }
}

fn any_drawing(s: &mut Seeded, turn: usize) -> Drawing {
    let (outline, figure) = (s.below(outlines::SORTS.len()), s.below(figures::SORTS.len()));
    match turn % 8 {
        0 => figures::bad(s),
        1 | 2 | 3 => outlines::of_sort(s, outline),
        _ => figures::of_sort(s, figure),
    }
}

pub fn figures(plan: &Plan, progress: &Progress) {
    let Some(library) = plan.library else { return };
    let total = plan.outlines / 20;
    let [accepted, redrawings, moves, pairs] = [0; 4].map(AtomicUsize::new);
    let add = |count: &AtomicUsize, more: usize| count.fetch_add(more, Ordering::Relaxed);
    plan.turns("figures drawn otherwise", total, progress, |turn| {
        let mut s = Seeded::new(plan.seed << 32 | 0x5a3e << 16 | turn as u64);
        let drawing = any_drawing(&mut s, turn);
        let Some(rings) = rings(&drawing) else { return };
        let rule = outlines::rule(&mut s, &drawing);
        let room = (s.pick(&[14_400, 14_400, 14_400, 100]), s.pick(&[900, 900, 900, 15]));
        let figure = Figure { library, drawing, rule, room };
        let left = figure.fracture(&figure.drawing, rule);
        add(&redrawings, figure.hold_redrawn(&left, &rings, &mut s));
        add(&moves, figure.hold_moved(&left, &rings));
        if left.told.number == 0 {
            add(&accepted, 1);
            add(&pairs, figure.hold_dearer(&left, &mut s) as usize);
        }
        progress.same();
    });
    let [accepted, redrawings, moves, pairs] = [accepted, redrawings, moves, pairs].map(AtomicUsize::into_inner);
    assert!(total < 1_000 || (accepted > total / 4 && accepted < total && pairs > total / 8), "figures of one sort alone");
    progress.done(format!(
        "same drawing, same shots: {total} figures from seeds, {accepted} accepted; {redrawings} times redrawn, {moves} times moved, {pairs} times by a dearer rule"
    ));
}

/// L, drawn and moved in some ways: its corners, and the shots by 25, 40.
const DRAWN: [([u16; 12], [u16; 8]); 6] = [
    ([0, 0, 100, 0, 100, 20, 60, 20, 60, 80, 0, 80], [0, 0, 60, 80, 60, 0, 100, 20]),
    ([60, 20, 60, 80, 0, 80, 0, 0, 100, 0, 100, 20], [0, 0, 60, 80, 60, 0, 100, 20]),
    ([0, 80, 60, 80, 60, 20, 100, 20, 100, 0, 0, 0], [0, 0, 60, 80, 60, 0, 100, 20]),
    ([100, 20, 100, 0, 0, 0, 0, 80, 60, 80, 60, 20], [0, 0, 60, 80, 60, 0, 100, 20]),
    ([7, 13, 107, 13, 107, 33, 67, 33, 67, 93, 7, 93], [7, 13, 67, 93, 67, 13, 107, 33]),
    (
        [65435, 65455, 65535, 65455, 65535, 65475, 65495, 65475, 65495, 65535, 65435, 65535],
        [65435, 65455, 65495, 65535, 65495, 65455, 65535, 65475],
    ),
];

/// Its cost by a threshold and a weight, dearer and dearer in either.
const DEARER: [(u32, u32, u64); 12] = [
    (25, 0, 2000),
    (25, 1, 2080),
    (25, 10, 2800),
    (25, 39, 5120),
    (25, 40, 5200),
    (25, 41, 5280),
    (25, 100, 10000),
    (20, 40, 2000),
    (21, 40, 5200),
    (60, 40, 5200),
    (61, 40, 10800),
    (101, 40, 10800),
];

/// The worked rows of Item 14, as numbers: L drawn otherwise, moved, and by dearer rules; and two rings that are refused
/// alike whichever comes first.
pub fn rows(plan: &Plan, progress: &Progress) {
    let Some(library) = plan.library else { return };
    let fracture = |rings: &[&[u16]], rule| {
        let drawing = Drawing { corners: rings.concat(), rings: rings.iter().map(|r| r.len() as u16 / 2).collect() };
        let figure = Figure { library, drawing, rule, room: (9, 8) };
        progress.same();
        figure.fracture(&figure.drawing, rule)
    };
    for (corners, shots) in &DRAWN {
        let left = fracture(&[corners], (25, 40));
        assert_eq!(left.told, Told::done(&[2, 5200, 80, 4]), "{corners:?}");
        assert_eq!(left.table.held(), [3400, 1000, 1000, 6600, 5200, 1000, 4200, 4200, 0], "{corners:?}");
        assert_eq!(left.list.held(), shots, "{corners:?}");
    }
    for (threshold, weight, cost) in DEARER {
        let told = fracture(&[&DRAWN[0].0], (threshold, weight)).told;
        assert_eq!((told.number, told.numbers[1]), (0, cost), "{threshold} {weight}");
    }
    let (one, other): (&[u16], &[u16]) = (&[0, 0, 10, 0, 20, 0, 20, 10, 0, 10], &[0, 0, 10, 0, 10, 10, 5, 5]);
    for rings in [[one, other], [other, one]] {
        assert_eq!(fracture(&rings, (25, 40)).told, Told::refused(3), "{rings:?}");
    }
    progress.done("same drawing, same shots: the worked rows".into());
}
