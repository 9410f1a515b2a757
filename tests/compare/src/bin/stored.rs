//! Writes the stored runs of the job program: for each a file NAME.in with its standard input, and
//! NAME.out with what the scope has it print. The runs are kept in tests/stored, and the gate holds
//! those files to what this program writes, and the job program to them.
//!
//!     stored DIR

use drawings::document::{
    ring_faults, B, EIGHT, FRAMED, FRAMED_JOB, FRAMED_PRINTED, FRAMED_PRINTED_AT_40, JOB, L, PRINTED,
};
use drawings::jobs::small;
use drawings::seeded::Seeded;
use drawings::{figures, outlines};
use law::bytes::{header, written_outline};
use law::program::printed;
use law::Drawing;

/// A stored run: its name and its standard input.
type Run = (String, Vec<u8>);

fn job(threshold: u32, weight: u32, outlines: &[Drawing]) -> Vec<u8> {
    let mut bytes = header(threshold, weight, outlines.len() as u32);
    for drawing in outlines {
        bytes.extend(written_outline(drawing));
    }
    bytes
}

/// A sound job of exactly so many bytes: 250 rectangles, their high places as wide as it takes, four
/// coordinates at a time. What is left is made up by the first outline, which then makes no sense and
/// is refused.
fn sized(total: usize) -> Vec<u8> {
    let mut s = Seeded::new(4096);
    let mut list: Vec<Drawing> = (0..250).map(|_| small(&mut s)).collect();
    let mut more = total - job(25, 40, &list).len();
    for drawing in list.iter_mut().skip(1) {
        let bytes = if more >= 8 { 2 } else { more / 4 };
        let wide = |place: u16| [place, place + 1000, place + 20_000][bytes];
        let (x, y) = (wide(drawing.corners[2]), wide(drawing.corners[5]));
        *drawing = Drawing::outline(&[0, 0, x, 0, x, y, 0, y]);
        more -= 4 * bytes;
    }
    for place in list[0].corners.iter_mut().rev().take(more) {
        *place += 300;
    }
    let bytes = job(25, 40, &list);
    assert_eq!(bytes.len(), total);
    bytes
}

const SLANTED: [u16; 8] = [0, 0, 10, 0, 10, 10, 5, 5];
const STRAIGHT: [u16; 10] = [0, 0, 10, 0, 20, 0, 20, 10, 0, 10];

/// Runs of outlines: the scope.
fn outline_runs() -> Vec<Run> {
    let mut s = Seeded::new(7);
    let many: Vec<Drawing> = (0..255).map(|_| small(&mut s)).collect();
    let sorts: Vec<Drawing> = (0..10).map(|sort| outlines::of_sort(&mut s, sort)).collect();
    let mut long = sized(4096);
    long.push(0);
    let (l, b) = (Drawing::outline(&L), Drawing::outline(&B));
    let (slanted, straight) = (Drawing::outline(&SLANTED), Drawing::outline(&STRAIGHT));
    let twice = Drawing::outline(&[0, 0, 1, 0, 1, 1, 0, 1, 0, 0, 1, 0, 1, 1, 0, 1]);
    let runs = vec![
        ("worked", JOB.to_vec()),
        ("no-outlines", job(25, 40, &[])),
        ("refused-outlines", job(25, 40, &[l.clone(), slanted, straight, twice, b.clone()])),
        ("sorts", job(30, 100, &sorts)),
        ("limits-of-the-rule", job(1000, 1000, &[l, b])),
        ("255-outlines", job(50, 20, &many)),
        ("4096-bytes", sized(4096)),
        ("4097-bytes-refused-12", long),
        ("empty-refused-8", vec![]),
        ("ends-refused-8", JOB[..9].to_vec()),
        ("ends-in-a-number-refused-8", vec![0x19, 0x28, 0x01, 0x06, 0x80]),
        ("not-shortest-refused-9", vec![0x19, 0xa8, 0x00, 0x00]),
        ("third-byte-refused-10", vec![0x80, 0x80, 0x80, 0x00]),
        ("threshold-1001-refused-10", vec![0xe9, 0x07, 0x28, 0x00]),
        ("256-outlines-refused-10", vec![0x19, 0x28, 0x80, 0x02]),
        ("three-corners-refused-10", vec![0x19, 0x28, 0x01, 0x03, 0, 0, 1, 0, 1, 1]),
        ("coordinate-65536-refused-10", vec![0x19, 0x28, 0x01, 0x04, 0x80, 0x80, 0x04, 0, 1, 0, 1, 1, 0, 1]),
        ("byte-behind-refused-11", [&JOB[..], &[0]].concat()),
    ];
    runs.into_iter().map(|(name, input)| (name.to_string(), input)).collect()
}

/// Runs of figures with several rings: Item 1.
fn ring_runs() -> Vec<Run> {
    let mut s = Seeded::new(8);
    let sorts: Vec<Drawing> = (0..figures::SORTS.len()).map(|sort| figures::of_sort(&mut s, sort)).collect();
    let (frame, window) = FRAMED.split_at(8);
    let at_40 = [&[0x28][..], &FRAMED_JOB[1..]].concat();
    let touching = Drawing::of(&[[0, 0, 10, 0, 10, 10, 0, 10], [10, 0, 20, 0, 20, 10, 10, 10]]);
    let eight = Drawing { corners: EIGHT.to_vec(), rings: vec![4; 8] };
    let refused = [
        Drawing::of(&[frame, frame]),
        Drawing::of(&[&STRAIGHT[..], &SLANTED]),
        Drawing::of(&[&SLANTED[..], &STRAIGHT]),
        Drawing::of(&[frame, &STRAIGHT]),
        Drawing { corners: vec![0; 64], rings: vec![28, 4] },
        Drawing { corners: (0..32).collect(), rings: vec![7, 9] },
        Drawing::of(&[frame, window]),
    ];
    let mut runs = vec![
        ("frame-with-a-window".to_string(), FRAMED_JOB.to_vec()),
        ("frame-with-a-window-at-40".to_string(), at_40),
        ("window-and-frame".to_string(), job(25, 40, &[Drawing::of(&[window, frame])])),
        ("touching-squares".to_string(), job(25, 40, &[touching])),
        ("eight-squares".to_string(), job(25, 40, &[eight])),
        ("refused-rings".to_string(), job(25, 40, &refused)),
        ("sorts-of-rings".to_string(), job(30, 100, &sorts)),
    ];
    for (name, behind, number, _) in ring_faults() {
        runs.push((format!("{name}-refused-{number}"), [&JOB[..3], &behind].concat()));
    }
    runs
}

/// What is printed of the worked examples, word for word: none of it comes from `law`.
fn worked(name: &str) -> Option<&'static str> {
    match name {
        "worked" => Some(PRINTED),
        "frame-with-a-window" | "window-and-frame" => Some(FRAMED_PRINTED),
        "frame-with-a-window-at-40" => Some(FRAMED_PRINTED_AT_40),
        // one shot of 20 by 10, below 25 both ways: such a fleck is charged once, on its longer sides, 20 + 20 nm of sliver
        "touching-squares" => Some("job 1\noutline 0 shots 1 cost 2600 sliver 40\n0 0 20 10\n"),
        // Item 5: the byte at fault
        "empty-refused-8" => Some("job refused 8 at 0\n"),
        "ends-refused-8" => Some("job refused 8 at 9\n"),
        "ends-in-a-number-refused-8" => Some("job refused 8 at 5\n"),
        "not-shortest-refused-9" => Some("job refused 9 at 2\n"),
        "third-byte-refused-10" => Some("job refused 10 at 2\n"),
        "threshold-1001-refused-10" => Some("job refused 10 at 1\n"),
        "256-outlines-refused-10" => Some("job refused 10 at 3\n"),
        "three-corners-refused-10" => Some("job refused 10 at 3\n"),
        "coordinate-65536-refused-10" => Some("job refused 10 at 6\n"),
        _ => None,
    }
}

fn main() {
    let folder = std::env::args().nth(1).expect("stored DIR");
    std::fs::create_dir_all(&folder).unwrap();
    let runs = [outline_runs(), ring_runs()].concat();
    for (name, input) in &runs {
        let text = printed(input);
        if let Some(right) = worked(name) {
            assert_eq!(text, right, "{name}");
        }
        std::fs::write(format!("{folder}/{name}.in"), input).unwrap();
        std::fs::write(format!("{folder}/{name}.out"), text).unwrap();
    }
    println!("{} stored runs", runs.len());
}
