//! One edge and its shots compared: the worked rows, buffers of every length around the limit, and figures
//! from seeds, of one ring and of several, each with the list of its own fracture and with other lists.

use crate::progress::{Progress, Tally};
use crate::room::{lend_both, marks};
use crate::{Library, Plan};
use drawings::seeded::Seeded;
use drawings::{figures, outlines};
use law::edge::{self, edges, landing, side, Run};
use law::figure::figure;
use law::{Calls, Drawing, Law, Told};
use std::sync::atomic::{AtomicUsize, Ordering};

/// Asks both for an edge with a buffer of this length, and gives the answer and the runs.
fn ask(library: Library, drawing: &Drawing, edge: usize, shots: &[u16], length: usize, progress: &Progress) -> (Told, Vec<Run>) {
    let said = || format!("edge {edge} of {drawing:?} with {shots:?} and {length} numbers");
    let (told, runs) =
        lend_both(library, &marks(length, edge as u64), &said, |calls, runs| calls.edge(drawing, edge, shots, runs));
    progress.same();
    (told, runs.held()[..4 * told.numbers[0] as usize].chunks(4).map(|r| [r[0], r[1], r[2], r[3]]).collect())
}

/// Room for the list of any fracture without a largest side.
const AMPLE: usize = 60;

/// A figure, the rule whose fracture gives the shot list, where one does, the list, and of some edges the runs.
struct Row {
    rings: Vec<Vec<u16>>,
    rule: Option<(u32, u32)>,
    shots: Vec<u16>,
    edges: Vec<(usize, Vec<Run>)>,
}

fn square(left: u16, bottom: u16, right: u16, top: u16) -> Vec<u16> {
    vec![left, bottom, right, bottom, right, top, left, top]
}

/// The drawings of the worked table.
fn l() -> Vec<u16> {
    vec![0, 0, 100, 0, 100, 20, 60, 20, 60, 80, 0, 80]
}

fn b() -> Vec<u16> {
    vec![0, 0, 200, 0, 200, 50, 210, 50, 210, 150, 200, 150, 200, 200, 0, 200]
}

/// 15 rows of 30 nm, their right ends at 200 and 210 by turns.
fn rows15() -> Vec<u16> {
    let mut corners = vec![0, 0];
    for row in 0..15u16 {
        let right = if row % 2 == 0 { 200 } else { 210 };
        corners.extend([right, 30 * row, right, 30 * row + 30]);
    }
    corners.extend([0, 450]);
    corners
}

/// The scope's rule, and the one by which nothing is a sliver.
const SCOPE: Option<(u32, u32)> = Some((25, 40));
const PLAIN: Option<(u32, u32)> = Some((0, 40));

fn one(rings: &[Vec<u16>], rule: Option<(u32, u32)>, shots: &[u16], edges: &[(usize, &[Run])]) -> Row {
    Row {
        rings: rings.to_vec(),
        rule,
        shots: shots.to_vec(),
        edges: edges.iter().map(|(k, runs)| (*k, runs.to_vec())).collect(),
    }
}

fn table() -> Vec<Row> {
    let own = [0, 0, 60, 80, 60, 0, 100, 20];
    let left: Vec<Run> = (0..15).map(|k| [30 * k, 30 * k + 30, k + 1, 1]).collect();
    let row_shots: Vec<u16> = (0..15u16).flat_map(|k| [0, 30 * k, if k % 2 == 0 { 200 } else { 210 }, 30 * k + 30]).collect();
    vec![
        one(&[l()], SCOPE, &own, &[
            (0, &[[0, 60, 1, 3], [60, 100, 2, 3]]), (1, &[[0, 20, 2, 2]]), (2, &[[60, 100, 2, 4]]), (3, &[[20, 80, 1, 2]]),
            (4, &[[0, 60, 1, 4]]), (5, &[[0, 80, 1, 1]]),
        ]),
        one(&[b()], SCOPE, &[0, 0, 200, 50, 0, 50, 210, 150, 0, 150, 200, 200], &[
            (0, &[[0, 200, 1, 3]]), (1, &[[0, 50, 1, 2]]), (2, &[[200, 210, 2, 3]]), (3, &[[50, 150, 2, 2]]), (4, &[[200, 210, 2, 4]]),
            (5, &[[150, 200, 3, 2]]), (6, &[[0, 200, 3, 4]]), (7, &[[0, 50, 1, 1], [50, 150, 2, 1], [150, 200, 3, 1]]),
        ]),
        one(&[b()], Some((25, 9)), &[0, 0, 200, 200, 200, 50, 210, 150], &[(3, &[[50, 150, 2, 2]]), (7, &[[0, 200, 1, 1]])]),
        one(&[b()], None, &[0, 0, 200, 50, 0, 50, 105, 150, 105, 50, 210, 150, 0, 150, 200, 200], &[
            (2, &[[200, 210, 3, 3]]), (3, &[[50, 150, 3, 2]]), (7, &[[0, 50, 1, 1], [50, 150, 2, 1], [150, 200, 4, 1]]),
        ]),
        one(&[square(0, 0, 100, 100), square(30, 30, 70, 70)], SCOPE, &[0, 0, 30, 100, 30, 0, 70, 30, 30, 70, 70, 100, 70, 0, 100, 100], &[
            (0, &[[0, 30, 1, 3], [30, 70, 2, 3], [70, 100, 4, 3]]), (1, &[[0, 100, 4, 2]]),
            (2, &[[0, 30, 1, 4], [30, 70, 3, 4], [70, 100, 4, 4]]), (3, &[[0, 100, 1, 1]]),
            (4, &[[30, 70, 2, 4]]), (5, &[[30, 70, 4, 1]]), (6, &[[30, 70, 3, 3]]), (7, &[[30, 70, 1, 2]]),
        ]),
        one(&[square(0, 0, 10, 10), square(10, 0, 20, 10)], PLAIN, &[0, 0, 20, 10], &[
            (1, &[[0, 10, 0, 0]]), (7, &[[0, 10, 0, 0]]), (0, &[[0, 10, 1, 3]]), (4, &[[10, 20, 1, 3]]), (5, &[[0, 10, 1, 2]]),
        ]),
        one(&[square(0, 0, 20, 20), square(20, 5, 30, 15)], PLAIN, &[0, 0, 20, 20, 20, 5, 30, 15], &[
            (1, &[[0, 5, 1, 2], [5, 15, 0, 0], [15, 20, 1, 2]]), (7, &[[5, 15, 0, 0]]), (4, &[[20, 30, 2, 3]]),
        ]),
        one(&[square(0, 0, 10, 10), square(0, 0, 10, 10), square(0, 0, 10, 10)], PLAIN, &[0, 0, 10, 10], &[
            (0, &[[0, 10, 1, 3]]), (4, &[[0, 10, 1, 3]]), (8, &[[0, 10, 1, 3]]), (1, &[[0, 10, 1, 2]]), (5, &[[0, 10, 1, 2]]),
            (9, &[[0, 10, 1, 2]]), (3, &[[0, 10, 1, 1]]), (7, &[[0, 10, 1, 1]]), (11, &[[0, 10, 1, 1]]),
        ]),
        one(&[vec![0, 0, 10, 0, 10, 20, 20, 20, 20, 10, 0, 10]], PLAIN, &[0, 0, 10, 10, 10, 10, 20, 20], &[
            (1, &[[0, 10, 1, 2], [10, 20, 2, 1]]), (4, &[[0, 10, 1, 4], [10, 20, 2, 3]]), (0, &[[0, 10, 1, 3]]), (2, &[[10, 20, 2, 4]]),
        ]),
        one(&[square(0, 0, 20, 20), square(10, 10, 30, 30)], PLAIN, &[0, 0, 10, 20, 10, 0, 20, 10, 10, 20, 20, 30, 20, 10, 30, 30], &[
            (1, &[[0, 10, 2, 2], [10, 20, 4, 1]]), (2, &[[0, 10, 1, 4], [10, 20, 3, 3]]),
            (4, &[[10, 20, 2, 4], [20, 30, 4, 3]]), (7, &[[10, 20, 1, 2], [20, 30, 3, 1]]),
        ]),
        one(&[rows15()], SCOPE, &row_shots, &[(31, &left)]),
        one(&[l()], None, &[0, 0, 100, 80], &[(0, &[[0, 100, 1, 3]]), (2, &[[60, 100, 0, 4]]), (3, &[[20, 80, 0, 2]])]),
        one(&[l()], None, &[0, 0, 100, 80, 0, 0, 60, 80], &[(3, &[[20, 80, 2, 2]]), (5, &[[0, 80, 1, 1]])]),
        one(&[l()], None, &[0, 0, 60, 40, 0, 30, 60, 80, 60, 0, 100, 20], &[
            (3, &[[20, 40, 1, 2], [40, 80, 2, 2]]), (5, &[[0, 40, 1, 1], [40, 80, 2, 1]]),
        ]),
        one(&[l()], None, &[], &[(0, &[[0, 100, 0, 3]])]),
    ]
}

/// The worked table: the law against it, and the library against the law; then every length of the buffer
/// around the limit, and the refusals with their order.
pub fn rows(plan: &Plan, progress: &Progress) {
    let Some(library) = plan.library else { return };
    for row in table() {
        let drawing = Drawing::of(&row.rings);
        if let Some((threshold, weight)) = row.rule {
            let (mut costs, mut list) = (vec![0; 14_400], vec![0; 900]);
            let told = library.fracture(&drawing, threshold, weight, &mut costs, &mut list);
            assert_eq!((told.number, &list[..4 * told.numbers[0] as usize]), (0, &row.shots[..]), "the shots of {drawing:?}");
        }
        for (edge, runs) in row.edges {
            let (told, found) = ask(library, &drawing, edge, &row.shots, AMPLE, progress);
            assert_eq!((told, &found), (Told::done(&[runs.len() as u64]), &runs), "edge {edge} of {drawing:?}");
            for length in 0..4 * runs.len() + 5 {
                let (told, _) = ask(library, &drawing, edge, &row.shots, length, progress);
                assert_eq!(told.number, if length < 4 * runs.len() { 14 } else { 0 });
            }
        }
    }
    let (drawing, own) = (Drawing::outline(&l()), [0, 0, 60, 80, 60, 0, 100, 20]);
    let refused = |drawing: &Drawing, edge: usize, shots: &[u16], number: u32| {
        for length in [0, AMPLE] {
            assert_eq!(ask(library, drawing, edge, shots, length, progress).0, Told::refused(number));
        }
    };
    for edge in [6, 7, 32, 1 << 31, 1 << 63, usize::MAX] {
        refused(&drawing, edge, &own, 23);
        refused(&drawing, edge, &own[..7], 21);
    }
    let short = Drawing { corners: l(), rings: vec![5] };
    refused(&short, 6, &own[..7], 2);
    for numbers in 1..8 {
        let number = if numbers % 4 == 0 { 14 } else { 21 };
        assert_eq!(ask(library, &drawing, 0, &own[..numbers], 0, progress).0, Told::refused(number));
    }
    for bad in [[5, 0, 5, 9], [6, 0, 5, 9], [0, 5, 9, 5], [0, 6, 9, 5]] {
        refused(&drawing, 0, &[&own[..], &bad].concat(), 21);
    }
    refused(&Drawing::of(&[square(0, 0, 10, 10), square(0, 0, 10, 10)]), 0, &[], 5);
    refused(&Drawing::outline(&[0, 0, 9, 0, 9, 9, 1, 9]), 99, &own[..7], 3);
    refused(&Drawing::outline(&[0, 0, 4, 0, 9, 0, 9, 9, 0, 9]), 99, &own[..7], 4);
    progress.done("edges: the worked rows, every length of the buffer, the order of refusals".into());
}

/// A shot list that is no fracture's: any rectangles, some of them along the figure's lines.
fn any_list(s: &mut Seeded, drawing: &Drawing) -> Vec<u16> {
    let count = s.pick(&[0, 1, 2, 5, 20]);
    let mut list = Vec::new();
    for _ in 0..count {
        let place = |s: &mut Seeded, axis: usize| -> u16 {
            let corners = drawing.corners.len() / 2;
            let near = if corners == 0 { 0 } else { drawing.corners[2 * s.below(corners) + axis] };
            let far = (s.any() % 65_536) as u16;
            s.pick(&[near, near, near, near.saturating_add(1), near.saturating_sub(1), far])
        };
        let (a, b, c, d) = (place(s, 0), place(s, 1), place(s, 0), place(s, 1));
        if a != c && b != d {
            list.extend([a.min(c), b.min(d), a.max(c), b.max(d)]);
        }
    }
    list
}

/// A shot list: of the figure's own fracture, that changed, or any other; now and then a bad one.
pub fn shot_list(s: &mut Seeded, drawing: &Drawing) -> Vec<u16> {
    let (mut table, mut list) = (vec![0; 14_400], vec![0; 900]);
    let (threshold, weight) = outlines::rule(s, drawing);
    let told = Law.fracture(drawing, threshold, weight, &mut table, &mut list);
    list.truncate(if told.number == 0 { 4 * told.numbers[0] as usize } else { 0 });
    match s.below(8) {
        0 | 1 => any_list(s, drawing),
        2 => [any_list(s, drawing), list].concat(),
        3 => {
            // another order, and one shot missing
            let mut shots: Vec<[u16; 4]> = list.chunks(4).map(|c| [c[0], c[1], c[2], c[3]]).collect();
            s.shuffle(&mut shots);
            shots.pop();
            shots.concat()
        }
        4 if !list.is_empty() => {
            let at = s.below(list.len());
            list[at] = (s.any() % 65_536) as u16;
            list
        }
        5 if s.once_in(3) => {
            list.extend([1, 2, 3]);
            list
        }
        _ => list,
    }
}

/// What the theorems say of a figure and the list of its own fracture: walls are edges, every wall ends up on
/// one shot, and the lengths of the edges on each side of a shot are its exposed lengths, the last of edges
/// drawn over each other having the stretch. Nanometre by nanometre, for small figures.
fn theorems(drawing: &Drawing, shots: &[u16]) {
    let figure = figure(drawing).unwrap();
    let all = edges(drawing).unwrap();
    let (wide, high) = (*figure.xs.last().unwrap(), *figure.ys.last().unwrap());
    let mut exposed = vec![[0usize; 5]; shots.len() / 4 + 1];
    let mut had = exposed.clone();
    for (upright, places, along) in [(true, wide, high), (false, high, wide)] {
        for at in 0..=places {
            for k in 0..along {
                let over = |e: &&edge::Edge| e.upright() == upright && e.lies().0 == at && e.lies().1 <= k && k < e.lies().2;
                let drawn = all.iter().filter(over).count();
                let (shot, wall) = landing(&figure, shots, upright, at, k);
                assert_eq!(drawn % 2 == 1, wall > 0, "{drawing:?}");
                assert_eq!(shot > 0, wall > 0, "{drawing:?} with {shots:?}");
                for (i, s) in shots.chunks(4).enumerate() {
                    let holds = |x: u16, y: u16| s[0] <= x && x < s[2] && s[1] <= y && y < s[3];
                    if wall > 0 && side(holds, upright, at, k) == wall {
                        assert_eq!(shot, i + 1, "{drawing:?} with {shots:?}");
                        exposed[i + 1][wall] += 1;
                    }
                }
            }
        }
    }
    // edge by edge: of edges drawn over each other the last has the stretch
    for (number, edge) in all.iter().enumerate() {
        let (at, low, high) = edge.lies();
        for k in low..high {
            let over = |e: &edge::Edge| e.upright() == edge.upright() && e.lies().0 == at && e.lies().1 <= k && k < e.lies().2;
            let (shot, wall) = landing(&figure, shots, edge.upright(), at, k);
            if wall > 0 && !all[number + 1..].iter().any(over) {
                had[shot][wall] += 1;
            }
        }
    }
    assert_eq!(exposed, had, "{drawing:?} with {shots:?}");
    for edge in &all {
        let (at, low, high) = edge.lies();
        let mut long: Vec<Run> = Vec::new();
        for k in low..high {
            let (shot, wall) = landing(&figure, shots, edge.upright(), at, k);
            match long.last_mut() {
                Some(run) if run[2..] == [shot, wall] => run[1] += 1,
                _ => long.push([k as usize, k as usize + 1, shot, wall]),
            }
        }
        assert_eq!(long, edge::runs(&figure, shots, *edge), "{edge:?} of {drawing:?} with {shots:?}");
        assert!(long.len() <= 15);
    }
}

/// Every edge of figures from seeds, and one number past the last.
pub fn figures(plan: &Plan, progress: &Progress) {
    let Some(library) = plan.library else { return };
    let total = plan.outlines / 4;
    let tally = Tally::new();
    let (small, long, none) = (AtomicUsize::new(0), AtomicUsize::new(0), AtomicUsize::new(0));
    plan.turns("edges of figures", total, progress, |turn| {
        let mut s = Seeded::new(plan.seed << 32 | 0xed6e << 16 | turn as u64);
        let (outline_sort, figure_sort) = (s.below(outlines::SORTS.len()), s.below(figures::SORTS.len()));
        let drawing = match s.below(16) {
            0 => outlines::bad(&mut s),
            1 => figures::bad(&mut s),
            2..=6 => outlines::of_sort(&mut s, outline_sort),
            _ => figures::of_sort(&mut s, figure_sort),
        };
        let shots = shot_list(&mut s, &drawing);
        for edge in 0..=drawing.corners.len() / 2 {
            let few = s.within(0, 24);
            let length = s.pick(&[AMPLE + 2 * shots.len(), AMPLE + 2 * shots.len(), few]);
            let (told, runs) = ask(library, &drawing, edge, &shots, length, progress);
            tally.told(told.number);
            long.fetch_max(runs.len(), Ordering::Relaxed);
            none.fetch_add(runs.iter().filter(|run| run[2] == 0).count(), Ordering::Relaxed);
        }
        let (mut table, mut list) = (vec![0; 14_400], vec![0; 900]);
        if drawing.corners.iter().all(|&place| place < 400) && s.once_in(8) {
            let told = Law.fracture(&drawing, 25, 40, &mut table, &mut list);
            if told.number == 0 {
                theorems(&drawing, &list[..4 * told.numbers[0] as usize]);
                small.fetch_add(1, Ordering::Relaxed);
            }
        }
    });
    tally.all_shown(&[0, 2, 3, 4, 5, 14, 21, 23], total >= 5_000);
    let (none, small) = (none.into_inner(), small.into_inner());
    assert!(total < 5_000 || (none > 0 && small > 0), "{none} runs on no shot, {small} small figures");
    progress.done(format!(
        "edges of {total} figures from seeds, answers by number {tally}; {} runs at most, {none} on no shot; {small} small figures nanometre by nanometre",
        long.into_inner()
    ));
}
