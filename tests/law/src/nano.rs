//! The cost of a figure once more, nanometre by nanometre: a ring holds a set of unit squares, a
//! figure has those that an odd number of its rings hold, a piece is four places, an exposed stretch
//! a unit edge. Only for small figures; it holds `cutting` to account.

use crate::drawing::Drawing;
use std::collections::HashMap;

pub type Place = u16;

/// The unit squares of a figure, from the raw corners.
pub struct Squares {
    side: usize,
    filled: Vec<bool>,
    pub xs: Vec<Place>,
    pub ys: Vec<Place>,
}

/// A piece by its places: x low, y low, x high, y high.
pub type Span = [Place; 4];

/// The unit squares that one ring holds by itself, of side x side: square (u, v) at u * side + v.
fn held(ring: &[u16], side: usize) -> Vec<bool> {
    let mut held = vec![false; side * side];
    let count = ring.len() / 2;
    for edge in 0..count {
        let (x, y) = (ring[2 * edge], ring[2 * edge + 1]);
        let next = (edge + 1) % count;
        let (x_next, y_next) = (ring[2 * next], ring[2 * next + 1]);
        if x == x_next {
            // a vertical edge turns over every unit square to its right
            for v in y.min(y_next)..y.max(y_next) {
                for u in x as usize..side {
                    held[u * side + v as usize] ^= true;
                }
            }
        }
    }
    held
}

impl Squares {
    /// Of a drawing whose edges are sound.
    pub fn new(drawing: &Drawing) -> Squares {
        let side = *drawing.corners.iter().max().unwrap() as usize + 1;
        let mut holders = vec![0; side * side];
        let mut from = 0;
        for &length in &drawing.rings {
            let to = from + 2 * length as usize;
            let ring = held(&drawing.corners[from..to], side);
            holders.iter_mut().zip(ring).for_each(|(count, held)| *count += held as usize);
            from = to;
        }
        let filled = holders.into_iter().map(|count| count % 2 == 1).collect();
        let every = |from: usize| {
            let mut places: Vec<Place> = drawing.corners.iter().skip(from).step_by(2).copied().collect();
            places.sort();
            places.dedup();
            places
        };
        Squares { side, filled, xs: every(0), ys: every(1) }
    }

    pub fn filled(&self, x: i32, y: i32) -> bool {
        let side = self.side as i32;
        x >= 0 && y >= 0 && x < side && y < side && self.filled[(x * side + y) as usize]
    }

    /// How many unit squares of a span are filled.
    pub fn area(&self, [x0, y0, x1, y1]: Span) -> usize {
        let mut sum = 0;
        for x in x0..x1 {
            for y in y0..y1 {
                sum += self.filled(x as i32, y as i32) as usize;
            }
        }
        sum
    }

    /// The sliver length of a span, one unit edge after the other.
    pub fn sliver(&self, [x0, y0, x1, y1]: Span, threshold: u32) -> u32 {
        let bare = |x: i32, y: i32, x_across: i32, y_across: i32| (self.filled(x, y) && !self.filled(x_across, y_across)) as u32;
        let (l, b, r, t) = (x0 as i32, y0 as i32, x1 as i32, y1 as i32);
        let (width, height) = ((r - l) as u32, (t - b) as u32);
        let (mut beside, mut along) = (0, 0);
        for y in b..t {
            beside += bare(l, y, l - 1, y) + bare(r - 1, y, r, y);
        }
        for x in l..r {
            along += bare(x, b, x, b - 1) + bare(x, t - 1, x, t);
        }
        // the longer sides count, if the shorter ones are below the threshold
        if width.min(height) >= threshold {
            0
        } else if width == height {
            beside.max(along)
        } else if height > width {
            beside
        } else {
            along
        }
    }
}

/// The cost of a span and its shots in order.
pub fn cut(squares: &Squares, rule: (u32, u32), span: Span, known: &mut HashMap<Span, (u64, Vec<Span>)>) -> (u64, Vec<Span>) {
    if let Some(answer) = known.get(&span) {
        return answer.clone();
    }
    let [x0, y0, x1, y1] = span;
    let area = squares.area(span);
    let answer = if area == 0 {
        (0, Vec::new())
    } else if area == (x1 - x0) as usize * (y1 - y0) as usize {
        (1000 + rule.1 as u64 * squares.sliver(span, rule.0) as u64, vec![span])
    } else {
        let mut halves = Vec::new();
        for &x in squares.xs.iter().filter(|&&x| x0 < x && x < x1) {
            halves.push(([x0, y0, x, y1], [x, y0, x1, y1]));
        }
        for &y in squares.ys.iter().filter(|&&y| y0 < y && y < y1) {
            halves.push(([x0, y0, x1, y], [x0, y, x1, y1]));
        }
        let mut answers: Vec<(u64, Vec<Span>)> = Vec::new();
        for (low, high) in halves {
            let (low, high) = (cut(squares, rule, low, known), cut(squares, rule, high, known));
            answers.push((low.0 + high.0, [low.1, high.1].concat()));
        }
        let least = answers.iter().map(|a| a.0).min().unwrap();
        answers.into_iter().find(|a| a.0 == least).unwrap()
    };
    known.insert(span, answer.clone());
    answer
}
