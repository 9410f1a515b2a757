//! One edge and its shots: which shot each stretch of 1 nm of an edge ends up on.

use crate::drawing::Drawing;
use crate::figure::{figure, Figure};
use crate::Told;
use std::collections::BTreeSet;

/// A run of stretches: from, to, the number of the shot from 1 or 0, the side of the figure or 0.
pub type Run = [usize; 4];

/// An edge as it is drawn, from a corner to the next of its ring.
#[derive(Clone, Copy, PartialEq, Eq, Debug)]
pub struct Edge {
    pub from: (u16, u16),
    pub to: (u16, u16),
}

impl Edge {
    pub fn upright(self) -> bool {
        self.from.0 == self.to.0
    }

    /// Its place, and its low end and high end along it.
    pub fn lies(self) -> (u16, u16, u16) {
        let (at, a, b) =
            if self.upright() { (self.from.0, self.from.1, self.to.1) } else { (self.from.1, self.from.0, self.to.0) };
        (at, a.min(b), a.max(b))
    }
}

/// The edges of all rings, by the corners that they leave.
pub fn edges(drawing: &Drawing) -> Result<Vec<Edge>, u32> {
    let mut all = Vec::new();
    for ring in drawing.apart()? {
        let count = ring.len() / 2;
        let corner = |k: usize| (ring[2 * (k % count)], ring[2 * (k % count) + 1]);
        all.extend((0..count).map(|k| Edge { from: corner(k), to: corner(k + 1) }));
    }
    Ok(all)
}

/// The side of what `holds` says that a stretch lies on: by the square beyond it and the one before it;
/// left of 0 and below 0 there is none. 1 left, 2 right, 3 bottom, 4 top, 0 none.
pub fn side(holds: impl Fn(u16, u16) -> bool, upright: bool, at: u16, k: u16) -> usize {
    let square = |p: u16| if upright { holds(p, k) } else { holds(k, p) };
    let first = if upright { 1 } else { 3 };
    match (at.checked_sub(1).is_some_and(square), square(at)) {
        (false, true) => first,
        (true, false) => first + 1,
        _ => 0,
    }
}

/// Where a stretch ends up: the shot's number and the side.
pub fn landing(figure: &Figure, shots: &[u16], upright: bool, at: u16, k: u16) -> (usize, usize) {
    let wall = side(|x, y| figure.covers(x, y), upright, at, k);
    let holds = |s: &[u16], x: u16, y: u16| s[0] <= x && x < s[2] && s[1] <= y && y < s[3];
    let found = shots.chunks(4).position(|s| wall > 0 && side(|x, y| holds(s, x, y), upright, at, k) == wall);
    (found.map_or(0, |i| i + 1), wall)
}

/// The runs of an edge: one stretch of each part between neighbouring places where a corner lies or a shot
/// ends is asked, and parts that end up alike are put together.
pub fn runs(figure: &Figure, shots: &[u16], edge: Edge) -> Vec<Run> {
    let (at, low, high) = edge.lies();
    let upright = edge.upright();
    let lines = if upright { &figure.ys } else { &figure.xs };
    let ends = shots.iter().skip(usize::from(upright)).step_by(2);
    let places: BTreeSet<u16> = lines.iter().chain(ends).copied().filter(|&p| low < p && p < high).chain([low, high]).collect();
    let places: Vec<u16> = places.into_iter().collect();
    let mut made: Vec<Run> = Vec::new();
    for part in places.windows(2) {
        let (shot, wall) = landing(figure, shots, upright, at, part[0]);
        match made.last_mut() {
            Some(run) if run[2..] == [shot, wall] => run[1] = part[1] as usize,
            _ => made.push([part[0] as usize, part[1] as usize, shot, wall]),
        }
    }
    made
}

/// 21: no multiple of four, or a shot with no area.
pub fn bad_shots(shots: &[u16]) -> bool {
    shots.len() % 4 != 0 || shots.chunks(4).any(|s| s[2] <= s[0] || s[3] <= s[1])
}

/// The runs of edge number `edge`, or 2 to 5, 21, 23.
pub fn walked(drawing: &Drawing, edge: usize, shots: &[u16]) -> Result<Vec<Run>, u32> {
    let figure = figure(drawing)?;
    if figure.empty() {
        return Err(5);
    }
    if bad_shots(shots) {
        return Err(21);
    }
    let edge = *edges(drawing)?.get(edge).ok_or(23u32)?;
    Ok(runs(&figure, shots, edge))
}

pub fn told_edge(drawing: &Drawing, edge: usize, shots: &[u16], lent: &mut [usize]) -> Told {
    match walked(drawing, edge, shots) {
        Err(number) => Told::refused(number),
        Ok(runs) if lent.len() < 4 * runs.len() => Told::refused(14),
        Ok(runs) => {
            lent[..4 * runs.len()].copy_from_slice(runs.as_flattened());
            Told::done(&[runs.len() as u64])
        }
    }
}
