//! The independent implementation held to account: small figures against the reckoning by unit
//! squares, ring by ring, and against every cutting. (The documents' rows are the comparison's.)

use law::cutting::Fracture;
use law::every::prices;
use law::figure::figure;
use law::nano::{cut, Squares};
use law::Drawing;
use std::collections::HashMap;

/// A number from a seed.
fn any(state: &mut u64) -> usize {
    *state = state.wrapping_mul(6_364_136_223_846_793_005).wrapping_add(1_442_695_040_888_963_407);
    (*state >> 33) as usize
}

/// A closed walk over a few places.
fn walk(state: &mut u64, turns: usize, top: usize) -> Vec<u16> {
    loop {
        let xs: Vec<u16> = (0..turns).map(|_| (any(state) % top) as u16).collect();
        let ys: Vec<u16> = (0..turns).map(|_| (any(state) % top) as u16).collect();
        if (0..turns).all(|i| xs[i] != xs[(i + 1) % turns] && ys[i] != ys[(i + 1) % turns]) {
            return (0..turns).flat_map(|i| [xs[i], ys[i], xs[(i + 1) % turns], ys[i]]).collect();
        }
    }
}

/// So many walks, of at most 7 turns each and 16 in all, now and then the one before it again.
fn walks(state: &mut u64, rings: usize, top: usize) -> Vec<Vec<u16>> {
    let mut all: Vec<Vec<u16>> = Vec::new();
    let mut left = 16;
    for ring in 0..rings {
        // the rings to come take two turns at least
        let most = (left - 2 * (rings - ring - 1)).min(7);
        let turns = 2 + any(state) % (most - 1);
        let again = all.last().filter(|last| last.len() / 4 <= most && any(state) % 6 == 0).cloned();
        let walked = again.unwrap_or_else(|| walk(state, turns, top));
        left -= walked.len() / 4;
        all.push(walked);
    }
    all
}

/// One ring, or two to eight in every other round.
fn rings_of(state: &mut u64, round: usize) -> usize {
    if round % 2 == 0 {
        1
    } else {
        2 + any(state) % 7
    }
}

#[test]
fn by_unit_squares() {
    let mut state = 1;
    for round in 0..3000 {
        let rings = rings_of(&mut state, round);
        // several rings on few lines: they shall meet, and nobody reckons 16 by 16 lines this way
        let top = 3 + any(&mut state) % if rings == 1 { 16 } else { 7 };
        let drawing = Drawing::of(&walks(&mut state, rings, top));
        let rule = ((any(&mut state) % 8) as u32, (any(&mut state) % 1001) as u32);
        let figure = figure(&drawing).unwrap();
        let mut fracture = Fracture::new(&figure, rule.0, rule.1);
        let squares = Squares::new(&drawing);
        let mut known = HashMap::new();
        for piece in fracture.pieces() {
            let (cost, shots) = cut(&squares, rule, fracture.shot(piece), &mut known);
            assert_eq!(cost, fracture.judge(piece).1 as u64, "round {round}, {drawing:?}, {rule:?}");
            let mine: Vec<_> = fracture.shots(piece).into_iter().map(|p| fracture.shot(p)).collect();
            assert_eq!(shots, mine, "round {round}, {drawing:?}, {rule:?}");
        }
    }
}

/// A unit square is inside a figure when it is inside an odd number of its rings, each drawn alone.
#[test]
fn an_odd_number_of_rings() {
    let mut state = 3;
    let mut windows = 0;
    for round in 0..3000 {
        let (rings, top) = (2 + any(&mut state) % 7, 3 + any(&mut state) % 10);
        let rings = walks(&mut state, rings, top);
        let whole = figure(&Drawing::of(&rings)).unwrap();
        let alone: Vec<_> = rings.iter().map(|ring| figure(&Drawing::outline(ring)).unwrap()).collect();
        for x in 0..top as u16 {
            for y in 0..top as u16 {
                let holders = alone.iter().filter(|ring| ring.covers(x, y)).count();
                assert_eq!(whole.covers(x, y), holders % 2 == 1, "round {round}, ({x}, {y}) of {rings:?}");
                windows += (holders == 2) as usize;
            }
        }
    }
    assert!(windows > 10_000, "only {windows} squares within two rings");
}

/// The order of the rings, the first corner of each and its direction say nothing.
#[test]
fn rings_in_any_order() {
    let mut state = 4;
    for round in 0..500 {
        let (count, top) = (2 + any(&mut state) % 7, 3 + any(&mut state) % 10);
        let rings = walks(&mut state, count, top);
        let figure_of = |rings: &[Vec<u16>]| figure(&Drawing::of(rings)).unwrap();
        let right = figure_of(&rings);
        let mut turned = rings.clone();
        turned.rotate_left(any(&mut state) % count);
        turned.swap(0, any(&mut state) % count);
        for ring in turned.iter_mut() {
            let corners = ring.len() / 2;
            ring.rotate_left(2 * (any(&mut state) % corners));
            if any(&mut state) % 2 == 0 {
                // backwards: reversed, each corner is y, x
                ring.reverse();
                ring.chunks_mut(2).for_each(|corner| corner.swap(0, 1));
            }
        }
        let told = figure_of(&turned);
        assert_eq!((&told.xs, &told.ys), (&right.xs, &right.ys), "round {round}, {rings:?}");
        for x in 0..top as u16 {
            for y in 0..top as u16 {
                assert_eq!(told.covers(x, y), right.covers(x, y), "round {round}, ({x}, {y}) of {rings:?}");
            }
        }
    }
}

#[test]
fn no_cutting_is_cheaper() {
    let mut state = 2;
    let mut compared = 0;
    for round in 0..2000 {
        let top = 3 + any(&mut state) % 2;
        let rings = rings_of(&mut state, round);
        let mut drawing = Drawing::of(&walks(&mut state, rings, top));
        drawing.corners.iter_mut().for_each(|place| *place *= 7);
        let rule = ((any(&mut state) % 30) as u32, (any(&mut state) % 300) as u32);
        let figure = figure(&drawing).unwrap();
        let mut fracture = Fracture::new(&figure, rule.0, rule.1);
        let frame = fracture.frame();
        let all = prices(&fracture, frame, &mut HashMap::new());
        compared += all.len();
        let least = *all.iter().min().unwrap();
        assert_eq!(least, fracture.judge(frame).1 as u64, "round {round}, {drawing:?}, {rule:?}");
    }
    println!("{compared} cuttings");
}

/// The same with pinwheels among the cuts; some figures are cheaper so, and none is dearer.
#[test]
fn no_cutting_with_pinwheels_is_cheaper() {
    let mut state = 5;
    let (mut compared, mut cheaper) = (0, 0);
    for round in 0..600 {
        let rings = rings_of(&mut state, round);
        let mut drawing = Drawing::of(&walks(&mut state, rings, 4));
        drawing.corners.iter_mut().for_each(|place| *place *= 7);
        let rule = ((any(&mut state) % 30) as u32, (any(&mut state) % 300) as u32);
        let figure = figure(&drawing).unwrap();
        let mut fracture = Fracture::with_pinwheels(&figure, rule.0, rule.1);
        let frame = fracture.frame();
        let all = prices(&fracture, frame, &mut HashMap::new());
        compared += all.len();
        let (least, cost) = (*all.iter().min().unwrap(), fracture.judge(frame).1);
        assert_eq!(least, cost as u64, "round {round}, {drawing:?}, {rule:?}");
        let straight = Fracture::new(&figure, rule.0, rule.1).judge(frame).1;
        assert!(cost <= straight, "round {round}, {drawing:?}, {rule:?}");
        cheaper += (cost < straight) as usize;
    }
    println!("{compared} cuttings, {cheaper} of 600 figures cheaper by pinwheels");
}

/// Every cutting of W2 (Item 8), of 4 by 4 cells: the cheapest with pinwheels is one, and costs less than every straight one.
#[test]
fn a_pinwheel_is_cheaper() {
    let corners = [
        100, 60, 40, 60, 40, 0, 110, 0, 110, 80, 100, 80, 100, 20, 70, 20, 70, 60, 10, 60, 10, 100, 100, 100,
    ];
    let figure = figure(&Drawing::outline(&corners)).unwrap();
    let least = |fracture: &Fracture| *prices(fracture, fracture.frame(), &mut HashMap::new()).iter().min().unwrap();
    assert_eq!(least(&Fracture::new(&figure, 25, 40)), 11_200);
    assert_eq!(least(&Fracture::with_pinwheels(&figure, 25, 40)), 10_800);
}

/// Refusals 2 to 4 as the scope orders them: each over all rings before the next.
#[test]
fn refusals_over_all_rings() {
    let square = [0, 0, 100, 0, 100, 100, 0, 100];
    let window = [30, 30, 70, 30, 70, 70, 30, 70];
    let slanted = [0, 0, 10, 0, 10, 10, 5, 5];
    let straight = [0, 0, 10, 0, 20, 0, 20, 10, 0, 10];
    let corner = [0, 0, 10, 0, 10, 10];
    let number = |drawing: &Drawing| figure(drawing).err().unwrap_or(0);
    let of = |rings: &[&[u16]]| number(&Drawing::of(rings));
    assert_eq!(of(&[&square, &window]), 0);
    assert_eq!(of(&[&straight, &slanted]), 3);
    assert_eq!(of(&[&slanted, &straight]), 3);
    assert_eq!(of(&[&square, &straight]), 4);
    assert_eq!(of(&[&slanted, &corner]), 2);
    assert_eq!(of(&[]), 2);
    assert_eq!(of(&[&square[..]; 8]), 0);
    assert_eq!(of(&[&square[..]; 9]), 2);
    let lengths = |rings: &[u16], rings_of: &[&[u16]]| {
        number(&Drawing { rings: rings.to_vec(), ..Drawing::of(rings_of) })
    };
    // frame and window as one ring; lengths that count numbers; a sum that would wrap to the right one
    assert_eq!(lengths(&[8], &[&square, &window]), 3);
    assert_eq!(lengths(&[8], &[&square]), 2);
    assert_eq!(lengths(&[5, u16::MAX], &[&square]), 2);
    for length in [0, 1, 2, 3, 5, 33, u16::MAX] {
        assert_eq!(lengths(&[length], &[&square]), 2, "a square as a ring of {length}");
        assert_eq!(lengths(&[4, length], &[&square, &window]), 2, "a window as a ring of {length}");
    }
}

/// Joining is told by the corners of the union: for all pairs of shots on a small sheet that is what the scope
/// says of their sides.
#[test]
fn joining_by_corners_is_joining_by_sides() {
    let spans: Vec<(u16, u16)> = (0..5).flat_map(|a| (a + 1..6).map(move |b| (a, b))).collect();
    let shots: Vec<[u16; 4]> = spans.iter().flat_map(|x| spans.iter().map(move |y| [x.0, y.0, x.1, y.1])).collect();
    let touch = |end: u16, start: u16, a: (u16, u16), b: (u16, u16)| {
        end == start && a.0.max(b.0) < a.1.min(b.1) && (a.0 == b.0 || a.1 == b.1)
    };
    let beside = |a: &[u16; 4], b: &[u16; 4]| touch(a[2], b[0], (a[1], a[3]), (b[1], b[3]));
    let below = |a: &[u16; 4], b: &[u16; 4]| touch(a[3], b[1], (a[0], a[2]), (b[0], b[2]));
    let mut joined = 0;
    for a in &shots {
        for b in &shots {
            let sides = beside(a, b) || beside(b, a) || below(a, b) || below(b, a);
            assert_eq!(law::joining::can_be_joined(a, b), sides, "{a:?} {b:?}");
            joined += sides as usize;
        }
    }
    assert!(joined > 1_000, "{joined}");
}
