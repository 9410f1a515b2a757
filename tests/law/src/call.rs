//! The fracture calls and the presets.

use crate::cutting::Fracture;
use crate::drawing::Drawing;
use crate::figure::figure;
use crate::Told;

/// Threshold and weight of presets 0 to 3.
pub const PRESETS: [(u32, u32); 4] = [(25, 40), (10, 100), (5, 200), (50, 20)];

/// The rule of a fracture that names none (Item 7).
pub const DEFAULT: (u32, u32) = PRESETS[1];

pub fn preset(number: u32) -> Told {
    match PRESETS.get(number as usize) {
        Some(&(threshold, weight)) => Told::done(&[threshold as u64, weight as u64]),
        None => Told::refused(15),
    }
}

/// Shots, cost, sliver length and cuts weighed, the table and the list filled from the front; or 1 to 7.
pub fn fracture(drawing: &Drawing, threshold: u32, weight: u32, table: &mut [u32], list: &mut [u16]) -> Told {
    fracture_by(false, drawing, threshold, weight, table, list)
}

/// The same by pinwheels beside straight cuts.
pub fn fracture_pinwheel(drawing: &Drawing, threshold: u32, weight: u32, table: &mut [u32], list: &mut [u16]) -> Told {
    fracture_by(true, drawing, threshold, weight, table, list)
}

fn fracture_by(
    pinwheels: bool, drawing: &Drawing, threshold: u32, weight: u32, table: &mut [u32], list: &mut [u16],
) -> Told {
    if threshold > 1000 || weight > 1000 {
        return Told::refused(1);
    }
    let figure = match figure(drawing) {
        Ok(figure) => figure,
        Err(number) => return Told::refused(number),
    };
    if figure.empty() {
        return Told::refused(5);
    }
    if table.len() < figure.pieces() {
        return Told::refused(6);
    }
    let mut fracture = if pinwheels {
        Fracture::with_pinwheels(&figure, threshold, weight)
    } else {
        Fracture::new(&figure, threshold, weight)
    };
    for (entry, piece) in fracture.pieces().into_iter().enumerate() {
        table[entry] = fracture.judge(piece).1;
    }
    let frame = fracture.frame();
    let shots = fracture.shots(frame);
    if list.len() < 4 * shots.len() {
        return Told::of(7, &[shots.len() as u64]);
    }
    for (place, &piece) in shots.iter().enumerate() {
        list[4 * place..4 * place + 4].copy_from_slice(&fracture.shot(piece));
    }
    let sliver: u64 = shots.iter().map(|&p| fracture.sliver(p) as u64).sum();
    let cost: u64 = shots.iter().map(|&p| fracture.charge(p) as u64).sum();
    assert_eq!(cost, fracture.judge(frame).1 as u64, "the list's cost is the frame's");
    assert!(cost <= 2_097_345_000);
    Told::done(&[shots.len() as u64, cost, sliver, fracture.weighed()])
}

/// The cuts that a fracture weighs, told ahead; or 2 to 5.
pub fn cuts(drawing: &Drawing) -> Told {
    match figure(drawing) {
        Err(number) => Told::refused(number),
        Ok(figure) if figure.empty() => Told::refused(5),
        // no rule counts here
        Ok(figure) => Told::done(&[Fracture::new(&figure, 0, 0).weighed()]),
    }
}
