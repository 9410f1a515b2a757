//! What tests/guard/run counts or times: fractures of the guarded figures by the rule 25, 40.
//!
//!     calls FIGURE N   one figure N times, by the library
//!     calls --figures  calls nothing; prints the name of each figure with the numbers of its corners
//!     calls --time     prints each name with the library's time over that of the C++ baseline by widths: the two take
//!                      turns, and the best of 40 rounds of each counts

use law::{Drawing, Told};
use std::hint::black_box;
use std::time::Instant;

type Fracture<'a> = &'a dyn Fn(&Drawing, &mut [u32], &mut [u16]) -> Told;

const ROUNDS: usize = 40;

/// Table and list, lent whole and not cleared between calls.
struct Buffers {
    table: Vec<u32>,
    list: Vec<u16>,
}

/// So many calls; ns per call.
fn took(fracture: Fracture, drawing: &Drawing, calls: usize, lent: &mut Buffers) -> f64 {
    let start = Instant::now();
    for _ in 0..calls {
        let told = fracture(black_box(drawing), &mut lent.table, &mut lent.list);
        assert!(black_box(told).number == 0);
    }
    start.elapsed().as_secs_f64() * 1e9 / calls as f64
}

/// The time of one fracture over that of another.
fn ratio(of: Fracture, to: Fracture, drawing: &Drawing, lent: &mut Buffers) -> f64 {
    took(of, drawing, 1, lent);
    // a round takes some two milliseconds
    let calls = (2e6 / took(of, drawing, 20, lent)).ceil() as usize;
    let mut best = [f64::MAX; 2];
    for _ in 0..ROUNDS {
        for (best, fracture) in best.iter_mut().zip([of, to]) {
            *best = best.min(took(fracture, drawing, calls, lent));
        }
    }
    best[0] / best[1]
}

/// Ring count, ring lengths, coordinate count, coordinates.
fn numbers(drawing: &Drawing) -> String {
    let counted = |list: &[u16]| list.iter().fold(list.len().to_string(), |text, number| format!("{text} {number}"));
    format!("{} {}", counted(&drawing.rings), counted(&drawing.corners))
}

fn main() {
    let words: Vec<String> = std::env::args().skip(1).collect();
    let words: Vec<&str> = words.iter().map(String::as_str).collect();
    let library = library::library().expect("the library is not linked (PINAREWHEMI_PACKAGE)");
    let ours: Fracture = &|drawing, table, list| library.fracture(drawing, 25, 40, table, list);
    let widths: Fracture = &|drawing, table, list| baseline::baseline_widths(drawing, 25, 40, table, list);
    let mut lent = Buffers { table: vec![0; 14_400], list: vec![0; 900] };
    for (name, drawing) in &bench::guarded() {
        match words[..] {
            ["--figures"] => println!("{name} {}", numbers(drawing)),
            ["--time"] => println!("{name} {:.2}", ratio(ours, widths, drawing, &mut lent)),
            [figure, calls] if figure == *name => {
                took(ours, drawing, calls.parse().expect("a count of calls"), &mut lent);
            }
            [_, _] => {}
            _ => panic!("calls FIGURE N, calls --figures or calls --time"),
        }
    }
}
