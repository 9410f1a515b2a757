//! Every cutting of a figure: each way to cut a piece along lines, and in the manner of a pinwheel where the
//! fracture allows it, again and again, until no piece is mixed. A piece that is wholly inside is kept whole; one that is wholly outside may be cut. For small figures only: 3 by 3 cells have
//! 1,241 ways to be cut into pieces, 3 by 4 have 32,905, 4 by 4 have 2,594,401.

use crate::cutting::{parts, Fracture, Kind, Piece};
use std::collections::HashMap;
use std::rc::Rc;

/// The price of every cutting of a piece: the sum of the charges of its shots.
pub fn prices(fracture: &Fracture, p: Piece, known: &mut HashMap<Piece, Rc<Vec<u64>>>) -> Rc<Vec<u64>> {
    if let Some(all) = known.get(&p) {
        return all.clone();
    }
    let mut all = match fracture.kind(p) {
        Kind::Outside => vec![0],
        Kind::Full => vec![fracture.charge(p) as u64],
        Kind::Mixed => Vec::new(),
    };
    for cut in fracture.cuts(p).filter(|_| fracture.kind(p) != Kind::Full) {
        let mut sums = vec![0];
        for part in parts(p, cut) {
            let of_part = prices(fracture, part, known);
            sums = sums.iter().flat_map(|sum| of_part.iter().map(move |price| sum + price)).collect();
        }
        all.extend(sums);
    }
    let all = Rc::new(all);
    known.insert(p, all.clone());
    all
}
