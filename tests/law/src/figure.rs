//! From a drawing to a figure: refusals 2 to 4, the lines, and which cells are inside.

use crate::drawing::Drawing;
use std::collections::BTreeSet;

/// An edge of a ring, from a corner to the next.
#[derive(Clone, Copy, Debug)]
struct Edge {
    from: (u16, u16),
    to: (u16, u16),
}

impl Edge {
    /// Which of its coordinates it changes.
    fn changes(self) -> (bool, bool) {
        (self.from.0 != self.to.0, self.from.1 != self.to.1)
    }
}

/// A vertical edge: its x, and its span in y.
#[derive(Clone, Copy, Debug)]
struct Wall {
    x: u16,
    low: u16,
    high: u16,
}

/// A drawing whose edges are sound: its lines in rising order, and the vertical edges of all rings.
pub struct Figure {
    pub xs: Vec<u16>,
    pub ys: Vec<u16>,
    walls: Vec<Wall>,
    /// inside, column by column: the cell (i, j) is bit j of column i
    columns: Vec<u32>,
}

/// The edges of a ring; the last corner joins the first.
fn edges(ring: &[u16]) -> Vec<Edge> {
    let points: Vec<(u16, u16)> = ring.chunks(2).map(|p| (p[0], p[1])).collect();
    points.iter().zip(points.iter().cycle().skip(1)).map(|(&from, &to)| Edge { from, to }).collect()
}

/// 3 of one ring: an edge changes both coordinates.
fn slanted(ring: &[Edge]) -> bool {
    ring.iter().any(|edge| edge.changes() == (true, true))
}

/// 4 of one ring: an edge changes neither, or two neighbours (last and first too) the same one.
fn unturned(ring: &[Edge]) -> bool {
    ring.iter().any(|edge| edge.changes() == (false, false))
        || ring.iter().zip(ring.iter().cycle().skip(1)).any(|(edge, next)| edge.changes() == next.changes())
}

/// The figure of a drawing, or the refusal 2, 3 or 4, each over all rings before the next.
pub fn figure(drawing: &Drawing) -> Result<Figure, u32> {
    let rings: Vec<Vec<Edge>> = drawing.apart()?.into_iter().map(edges).collect();
    if rings.iter().any(|ring| slanted(ring)) {
        return Err(3);
    }
    if rings.iter().any(|ring| unturned(ring)) {
        return Err(4);
    }
    let edges = rings.concat();
    let xs: BTreeSet<u16> = edges.iter().map(|edge| edge.from.0).collect();
    let ys: BTreeSet<u16> = edges.iter().map(|edge| edge.from.1).collect();
    let walls = edges
        .iter()
        .filter(|edge| edge.from.0 == edge.to.0)
        .map(|&Edge { from, to }| Wall { x: from.0, low: from.1.min(to.1), high: from.1.max(to.1) })
        .collect();
    let mut made = Figure {
        xs: xs.into_iter().collect(),
        ys: ys.into_iter().collect(),
        walls,
        columns: Vec::new(),
    };
    let columns = (0..made.xs.len() - 1)
        .map(|i| {
            (0..made.ys.len() - 1)
                .filter(|&j| made.covers(made.xs[i], made.ys[j]))
                .fold(0, |bits, j| bits | 1 << j)
        })
        .collect();
    made.columns = columns;
    Ok(made)
}

impl Figure {
    /// Whether the unit square with its low corner at (x, y) is inside: a ray to the left from it
    /// meets an odd number of vertical edges, whatever rings they are of.
    pub fn covers(&self, x: u16, y: u16) -> bool {
        self.walls.iter().filter(|w| w.x <= x && w.low <= y && y < w.high).count() % 2 == 1
    }

    /// Whether the cell of column i and row j is inside; there are none beyond the frame.
    pub fn inside(&self, i: isize, j: isize) -> bool {
        i >= 0 && j >= 0 && (i as usize) < self.columns.len() && j < 32 && self.columns[i as usize] >> j & 1 == 1
    }

    pub fn empty(&self) -> bool {
        self.columns.iter().all(|&bits| bits == 0)
    }

    /// How many pieces there are.
    pub fn pieces(&self) -> usize {
        let pairs = |lines: usize| lines * (lines - 1) / 2;
        pairs(self.xs.len()) * pairs(self.ys.len())
    }
}
