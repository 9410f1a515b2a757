//! The largest shot (Item 9): each shot of a fracture divided into parts that fit.

use crate::call::{fracture, fracture_pinwheel};
use crate::cutting::Shot;
use crate::drawing::Drawing;
use crate::Told;

/// 19: the largest side runs from 200 or twice the threshold, whichever is more, to 65,535.
pub fn bad_largest(threshold: u32, largest: u32) -> bool {
    !(200.max(2 * threshold)..=65_535).contains(&largest)
}

/// Where the parts of a side begin and end: the fewest that fit, differing by at most 1 nm, longer ones
/// first. Each takes its share of what is left, rounded up.
pub fn ends(low: u16, high: u16, largest: u32) -> Vec<u16> {
    let side = (high - low) as u32;
    let mut count = 1;
    while count * largest < side {
        count += 1;
    }
    let mut ends = vec![low];
    let mut left = side;
    for parts in (1..=count).rev() {
        let part = (left + parts - 1) / parts;
        assert!(0 < part && part <= largest);
        left -= part;
        ends.push(high - left as u16);
    }
    ends
}

/// The parts of a shot: rows from the bottom, left to right in a row.
pub fn divided(shot: &Shot, largest: u32) -> Vec<Shot> {
    let (xs, ys) = (ends(shot[0], shot[2], largest), ends(shot[1], shot[3], largest));
    let mut parts = Vec::new();
    for y in ys.windows(2) {
        for x in xs.windows(2) {
            parts.push([x[0], y[0], x[1], y[1]]);
        }
    }
    parts
}

/// A fracture by straight cuts or by pinwheels too, its shots divided; or 1, 19, 2 to 7.
pub fn fracture_divided(
    pinwheels: bool, drawing: &Drawing, threshold: u32, weight: u32, largest: u32, table: &mut [u32], list: &mut [u16],
) -> Told {
    if threshold <= 1000 && weight <= 1000 && bad_largest(threshold, largest) {
        return Told::refused(19);
    }
    // before division, with room for every shot
    let mut aside = vec![0; 900];
    let told = if pinwheels {
        fracture_pinwheel(drawing, threshold, weight, table, &mut aside)
    } else {
        fracture(drawing, threshold, weight, table, &mut aside)
    };
    if told.number != 0 {
        assert_ne!(told.number, 7);
        return told;
    }
    let [shots, _, sliver, cuts, ..] = told.numbers;
    let whole = aside.chunks(4).take(shots as usize);
    let parts: Vec<Shot> = whole.flat_map(|s| divided(&[s[0], s[1], s[2], s[3]], largest)).collect();
    if list.len() < 4 * parts.len() {
        return Told::of(7, &[parts.len() as u64]);
    }
    for (place, part) in parts.iter().enumerate() {
        list[4 * place..4 * place + 4].copy_from_slice(part);
    }
    let count = parts.len() as u64;
    assert!(count <= 116_964);
    Told::done(&[count, 1000 * count + weight as u64 * sliver, sliver, cuts])
}
