//! How long joining takes on long lists: the best of five calls for each.
//!
//! - `square`: the full square divided at 200 nm, 328 by 328 shots, in rows from the bottom, left to right (Item 9)
//! - `odd`: the same with 327 shots in a row, so that each row leaves one over
//! - `shuffled`: the square, its shots in any order
//! - `apart`: as many shots of which no two touch, so that each looks at all the later ones

use drawings::seeded::Seeded;
use law::joining::Joined;
use std::hint::black_box;
use std::time::Instant;

/// A side of 65,535 nm in so many parts that differ by 1 nm at most, longer ones first.
fn parts(count: usize) -> Vec<u16> {
    let (size, longer) = (65_535 / count, 65_535 % count);
    (0..=count).map(|k| (k * size + k.min(longer)) as u16).collect()
}

/// The square in rows, each shot smaller by a margin on its high sides.
fn square(columns: usize, rows: usize, margin: u16) -> Vec<[u16; 4]> {
    let (xs, ys) = (parts(columns), parts(rows));
    let row = |y: &[u16]| -> Vec<[u16; 4]> { xs.windows(2).map(|x| [x[0], y[0], x[1] - margin, y[1] - margin]).collect() };
    ys.windows(2).flat_map(row).collect()
}

fn main() {
    let library = library::library().expect("the library is not linked (PINAREWHEMI_PACKAGE)");
    let mut shuffled = square(328, 328, 0);
    Seeded::new(1).shuffle(&mut shuffled);
    let lists = [
        ("square", square(328, 328, 0)),
        ("odd", square(327, 328, 0)),
        ("shuffled", shuffled),
        ("apart", square(328, 328, 1)),
    ];
    for (name, shots) in lists {
        let list = shots.concat();
        let mut table = vec![Joined { x_low: 0, y_low: 0, x_high: 0, y_high: 0, partner: 0 }; shots.len()];
        let mut best = f64::MAX;
        for _ in 0..5 {
            let start = Instant::now();
            let told = library.join(black_box(&list), &mut table);
            best = best.min(start.elapsed().as_secs_f64());
            assert_eq!(told.number, 0);
            if best > 2.0 {
                break;
            }
        }
        let flashes = table.iter().enumerate().filter(|(i, e)| e.partner >= *i).count();
        println!("{name}: {} shots, {flashes} flashes, {:.4} s", shots.len(), best);
    }
}
