//! Costs and verdicts of the pieces of a figure, by a recursion from a piece down to its parts.

use crate::figure::Figure;
use std::cmp::Ordering;

/// A piece lies between the x lines a < c and the y lines b < d.
#[derive(Clone, Copy, PartialEq, Eq, Hash, Debug)]
pub struct Piece {
    pub a: usize,
    pub c: usize,
    pub b: usize,
    pub d: usize,
}

/// The piece at its place: x low, y low, x high, y high.
pub type Shot = [u16; 4];

#[derive(Clone, Copy, PartialEq, Eq, Debug)]
pub enum Kind {
    Outside,
    Full,
    Mixed,
}

/// The first and the second term of the paper's equation (3).
#[derive(Clone, Copy, PartialEq, Eq, Debug)]
pub enum Turn {
    First,
    Second,
}

#[derive(Clone, Copy, PartialEq, Eq, Debug)]
pub enum Verdict {
    Outside,
    Shot,
    CutAtX(usize),
    CutAtY(usize),
    /// a pinwheel by its x lines j < l and its y lines k < m
    Wheel(Turn, [usize; 4]),
}

/// A figure under a rule, with the verdict and cost of each piece as far as they are known.
pub struct Fracture<'a> {
    pub figure: &'a Figure,
    threshold: u32,
    weight: u32,
    pinwheels: bool,
    known: Vec<Option<(Verdict, u32)>>,
}

impl<'a> Fracture<'a> {
    /// By straight cuts alone.
    pub fn new(figure: &'a Figure, threshold: u32, weight: u32) -> Self {
        Fracture { figure, threshold, weight, pinwheels: false, known: vec![None; 1 << 16] }
    }

    /// By pinwheels too.
    pub fn with_pinwheels(figure: &'a Figure, threshold: u32, weight: u32) -> Self {
        Fracture { pinwheels: true, ..Fracture::new(figure, threshold, weight) }
    }

    /// The cuts of a piece in the order of ties: straight ones, then pinwheels where they are allowed.
    pub fn cuts(&self, p: Piece) -> impl Iterator<Item = Verdict> {
        cuts(p).chain(if self.pinwheels { wheels(p) } else { Vec::new() })
    }

    pub fn frame(&self) -> Piece {
        Piece { a: 0, c: self.figure.xs.len() - 1, b: 0, d: self.figure.ys.len() - 1 }
    }

    /// Every piece, in the order of the cost table: pairs (0,1), (0,2), .., (1,2), ..; x before y.
    pub fn pieces(&self) -> Vec<Piece> {
        let (n, m) = (self.figure.xs.len(), self.figure.ys.len());
        let mut all = Vec::new();
        for a in 0..n {
            for c in a + 1..n {
                for b in 0..m {
                    for d in b + 1..m {
                        all.push(Piece { a, c, b, d });
                    }
                }
            }
        }
        all
    }

    pub fn kind(&self, p: Piece) -> Kind {
        let mut seen = [false; 2];
        for i in p.a..p.c {
            for j in p.b..p.d {
                seen[self.figure.inside(i as isize, j as isize) as usize] = true;
            }
        }
        match seen {
            [_, false] => Kind::Outside,
            [false, true] => Kind::Full,
            [true, true] => Kind::Mixed,
        }
    }

    /// Exposed length along an x line, between the y lines b and d: `within` and `across` are the
    /// columns on the two sides of it.
    fn exposed_along_x(&self, within: isize, across: isize, b: usize, d: usize) -> u32 {
        (b..d)
            .filter(|&j| self.figure.inside(within, j as isize) && !self.figure.inside(across, j as isize))
            .map(|j| (self.figure.ys[j + 1] - self.figure.ys[j]) as u32)
            .sum()
    }

    /// The same along a y line.
    fn exposed_along_y(&self, within: isize, across: isize, a: usize, c: usize) -> u32 {
        (a..c)
            .filter(|&i| self.figure.inside(i as isize, within) && !self.figure.inside(i as isize, across))
            .map(|i| (self.figure.xs[i + 1] - self.figure.xs[i]) as u32)
            .sum()
    }

    /// The cuts weighed: over every piece with cells of both sorts, the lines strictly between its ends.
    pub fn weighed(&self) -> u64 {
        let within = |p: &Piece| (p.c - p.a - 1 + p.d - p.b - 1) as u64;
        self.pieces().into_iter().filter(|&p| self.kind(p) == Kind::Mixed).map(|p| within(&p)).sum()
    }

    /// The sliver length of a piece as a shot. Where both extents are below the threshold only the two
    /// longer sides count; of a square the pair with the greater exposed length (Item 4).
    pub fn sliver(&self, p: Piece) -> u32 {
        let (a, c, b, d) = (p.a as isize, p.c as isize, p.b as isize, p.d as isize);
        let [x_low, y_low, x_high, y_high] = self.shot(p);
        let (width, height) = ((x_high - x_low) as u32, (y_high - y_low) as u32);
        let upright = self.exposed_along_x(a, a - 1, p.b, p.d) + self.exposed_along_x(c - 1, c, p.b, p.d);
        let level = self.exposed_along_y(b, b - 1, p.a, p.c) + self.exposed_along_y(d - 1, d, p.a, p.c);
        match (width < self.threshold, height < self.threshold) {
            (false, false) => 0,
            (true, false) => upright,
            (false, true) => level,
            (true, true) => match width.cmp(&height) {
                Ordering::Less => upright,
                Ordering::Greater => level,
                Ordering::Equal => upright.max(level),
            },
        }
    }

    pub fn charge(&self, p: Piece) -> u32 {
        1000 + self.weight * self.sliver(p)
    }

    pub fn shot(&self, p: Piece) -> Shot {
        let f = self.figure;
        [f.xs[p.a], f.ys[p.b], f.xs[p.c], f.ys[p.d]]
    }

    /// The verdict and the cost of a piece.
    pub fn judge(&mut self, p: Piece) -> (Verdict, u32) {
        let place = p.a << 12 | p.c << 8 | p.b << 4 | p.d;
        if let Some(answer) = self.known[place] {
            return answer;
        }
        let answer = match self.kind(p) {
            Kind::Outside => (Verdict::Outside, 0),
            Kind::Full => (Verdict::Shot, self.charge(p)),
            Kind::Mixed => {
                let mut best = None;
                for cut in self.cuts(p) {
                    let cost = parts(p, cut).map(|part| self.judge(part).1).sum();
                    // the first of equals stays
                    if best.map_or(true, |(_, least)| cost < least) {
                        best = Some((cut, cost));
                    }
                }
                best.expect("a mixed piece has two cells, so a line between its ends")
            }
        };
        self.known[place] = Some(answer);
        answer
    }

    /// The shots of a piece: by itself, or those of its parts in their order.
    pub fn shots(&mut self, p: Piece) -> Vec<Piece> {
        match self.judge(p).0 {
            Verdict::Outside => Vec::new(),
            Verdict::Shot => vec![p],
            cut => parts(p, cut).flat_map(|part| self.shots(part)).collect(),
        }
    }
}

/// The straight cuts of a piece in the order of ties: vertical before horizontal, low before high.
pub fn cuts(p: Piece) -> impl Iterator<Item = Verdict> {
    (p.a + 1..p.c).map(Verdict::CutAtX).chain((p.b + 1..p.d).map(Verdict::CutAtY))
}

/// The pinwheels of a piece in the order of ties: the first turn before the second, then by j, l, k, m.
pub fn wheels(p: Piece) -> Vec<Verdict> {
    let mut all = Vec::new();
    for turn in [Turn::First, Turn::Second] {
        for j in p.a + 1..p.c {
            for l in j + 1..p.c {
                for k in p.b + 1..p.d {
                    all.extend((k + 1..p.d).map(|m| Verdict::Wheel(turn, [j, l, k, m])));
                }
            }
        }
    }
    all
}

/// The low and the high part of a straight cut; the arms of a pinwheel, in the paper's order, and its inner piece.
pub fn parts(p: Piece, cut: Verdict) -> impl Iterator<Item = Piece> {
    let piece = |a, c, b, d| Piece { a, c, b, d };
    let Piece { a, c, b, d } = p;
    let (all, count) = match cut {
        Verdict::CutAtX(line) => ([piece(a, line, b, d), piece(line, c, b, d), p, p, p], 2),
        Verdict::CutAtY(line) => ([piece(a, c, b, line), piece(a, c, line, d), p, p, p], 2),
        Verdict::Wheel(Turn::First, [j, l, k, m]) => {
            ([piece(a, l, b, k), piece(l, c, b, m), piece(a, j, k, d), piece(j, c, m, d), piece(j, l, k, m)], 5)
        }
        Verdict::Wheel(Turn::Second, [j, l, k, m]) => {
            ([piece(a, j, b, m), piece(j, c, b, k), piece(a, l, m, d), piece(l, c, k, d), piece(j, l, k, m)], 5)
        }
        Verdict::Outside | Verdict::Shot => panic!("no cut"),
    };
    all.into_iter().take(count)
}
