//! docs/WALK.md, the fourth mistake: a job of two figures in which the costs that the first left in the table
//! would have steered the first cut of the second.

use law::{bytes, Calls, Drawing, Law};

const RULE: (u32, u32) = (25, 40);

/// A block of 200 by 200 nm with a nose of 100 nm height on its right, so many nm long.
fn block(nose: u16) -> Drawing {
    let tip = 200 + nose;
    Drawing::outline(&[0, 0, 200, 0, 200, 50, tip, 50, tip, 150, 200, 150, 200, 200, 0, 200])
}

/// The number of a pair of so many lines, and the entry of a piece of the 3 by 4 lines of a block.
fn pair(lines: usize, low: usize, high: usize) -> usize {
    low * (2 * lines - low - 1) / 2 + (high - low - 1)
}

fn entry(a: usize, c: usize, b: usize, d: usize) -> usize {
    pair(3, a, c) * 6 + pair(4, b, d)
}

/// What the cuts of the frame cost by a table: x line 1, y line 1, y line 2.
fn cuts(table: &[u32]) -> [u32; 3] {
    let both = |low: usize, high: usize| table[low] + table[high];
    [
        both(entry(0, 1, 0, 3), entry(1, 2, 0, 3)),
        both(entry(0, 2, 0, 1), entry(0, 2, 1, 3)),
        both(entry(0, 2, 0, 2), entry(0, 2, 2, 3)),
    ]
}

fn fractured(drawing: &Drawing) -> (u64, u64, Vec<u32>, Vec<u16>) {
    let (mut table, mut list) = (vec![0; 18], vec![0; 24]);
    let told = Law.fracture(drawing, RULE.0, RULE.1, &mut table, &mut list);
    assert_eq!(told.number, 0);
    list.truncate(4 * told.numbers[0] as usize);
    (told.numbers[0], told.numbers[1], table, list)
}

#[test]
fn costs_kept() {
    let (shots, cost, left, _) = fractured(&block(40));
    assert_eq!((shots, cost), (2, 2000));
    assert_eq!(cuts(&left), [2000, 3000, 3000], "by these the frame is cut at x line 1");
    let (shots, cost, own, list) = fractured(&block(10));
    assert_eq!((shots, cost), (3, 3000));
    assert_eq!(cuts(&own), [6000, 3000, 3000], "and by its own at y line 1");
    assert_eq!(list, [0, 0, 200, 50, 0, 50, 210, 150, 0, 150, 200, 200]);
    // cut at x line 1, its two parts would be shots: the block, and the nose as a sliver
    assert_eq!((own[entry(0, 1, 0, 3)], own[entry(1, 2, 1, 2)]), (1000, 5000));
}

#[test]
fn its_job() {
    let job = include_bytes!("../../walk/noses.job");
    let written = [bytes::header(RULE.0, RULE.1, 2), bytes::written_outline(&block(40)), bytes::written_outline(&block(10))];
    assert_eq!(job[..], written.concat());
}
