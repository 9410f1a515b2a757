//! The calls that read a boundary element compared: the scope's rows, elements that other tools wrote,
//! cut at every length and with every byte set to every value, and elements from seeds, sound and damaged.

use crate::progress::{Progress, Tally};
use crate::room::{lend_both, marks, Left};
use crate::{Library, Plan};
use drawings::elements::{any, closed, damaged, element, record, records, stairs, xy, Point, DAMAGES, L, PLATE};
use drawings::seeded::Seeded;
use law::{Calls, Law, Told};

/// Elements as gdspy and KLayout wrote them (tests/gdsii/make.py), and what was drawn.
fn stored() -> Vec<(&'static str, &'static [u8], Vec<Point>)> {
    vec![
        ("gdspy's L", include_bytes!("../../gdsii/gdspy-l.element"), L.to_vec()),
        ("KLayout's L", include_bytes!("../../gdsii/klayout-l.element"), L.to_vec()),
        ("gdspy's stairs", include_bytes!("../../gdsii/gdspy-stairs.element"), stairs()),
        ("KLayout's stairs", include_bytes!("../../gdsii/klayout-stairs.element"), stairs()),
        ("KLayout's plate", include_bytes!("../../gdsii/klayout-plate.element"), PLATE.to_vec()),
    ]
}

/// Reads an element to a list, and fractures it with a table and a list, of these lengths; gives both
/// answers.
fn ask(library: Library, bytes: &[u8], lengths: (usize, usize, usize), seed: u64, progress: &Progress) -> (Told, Told) {
    let said = |call: &str| format!("{call} {bytes:x?} with {lengths:?}");
    let (read, _) = lend_both(library, &marks(lengths.0, seed), &|| said("reading"), |calls, list| calls.gdsii_read(bytes, list));
    let (table, list) = (marks(lengths.1, seed), marks(lengths.2, seed));
    let by = |calls: &dyn Calls| Left::lend(&table, &list, |table, list| calls.gdsii_fracture(bytes, table, list));
    let made = by(&Law);
    made.hold("the library", &by(library), &|| said("fracturing"));
    progress.same_many(2);
    (read, made.told)
}

/// With room for every answer.
const AMPLE: (usize, usize, usize) = (64, 14_400, 900);

/// What a row of the scope says of an element: the number and, of 8, the offset.
fn refused(library: Library, bytes: &[u8], number: u32, offset: u64, progress: &Progress) {
    let (read, made) = ask(library, bytes, AMPLE, 3, progress);
    assert_eq!(read, Told::of(number, &[0, 0, 0, offset]), "{bytes:x?}");
    assert_eq!(made, Told::of(number, &[0, 0, 0, 0, 0, 0, offset]), "{bytes:x?}");
}

fn signed(n: i64) -> u64 {
    n as u64
}

/// The scope's rows: the law against the scope, and the library against the law.
pub fn rows(plan: &Plan, progress: &Progress) {
    let Some(library) = plan.library else { return };
    let l = element(&L);
    assert_eq!(l, include_bytes!("../../gdsii/gdspy-l.element"), "the worked element is what gdspy writes");
    worked(library, &l, progress);
    let flagged = [&l[..4], &record(0x26, 0x01, &[0, 1]), &record(0x2f, 0x03, &[0, 0, 0, 3]), &l[4..]].concat();
    worked(library, &flagged, progress);

    for length in 0..l.len() {
        let begun = [76, 16, 10, 4, 0].into_iter().find(|&start| start <= length).unwrap();
        refused(library, &l[..length], 8, begun as u64, progress);
    }
    for more in [&[0][..], &[0, 4, 8, 0]] {
        refused(library, &[&l[..], more].concat(), 16, 0, progress);
    }
    for (at, byte, number, offset) in [(1, 0, 16, 0), (1, 6, 16, 0), (2, 9, 16, 0), (3, 1, 16, 0), (16, 0x7f, 8, 16)] {
        let mut bad = l.clone();
        bad[at] = byte;
        refused(library, &bad, number, offset, progress);
    }
    let of = |points: &[Point]| records(points, 7, 2).concat();
    refused(library, &of(&[]), 16, 0, progress);
    refused(library, &of(&L[..1]), 2, 0, progress);
    refused(library, &of(&L), 17, 0, progress);
    let wide = [(0, 0), (65_536, 0), (65_536, 10), (0, 10)];
    refused(library, &element(&wide), 18, 0, progress);
    let whole = [(i32::MIN, 0), (i32::MAX, 0), (i32::MAX, 10), (i32::MIN, 10)];
    refused(library, &element(&whole), 18, 0, progress);
    let row: Vec<Point> = (0..101).map(|k| (700 * k, 0)).collect();
    refused(library, &element(&row), 18, 0, progress);
    let row: Vec<Point> = (0..101).map(|k| (7 * k, 0)).collect();
    refused(library, &element(&row), 2, 0, progress);
    refused(library, &element(&[(0, 0), (9, 0), (9, 9), (1, 9)]), 3, 0, progress);
    refused(library, &element(&[(0, 0), (4, 0), (9, 0), (9, 9), (0, 9)]), 4, 0, progress);
    refused(library, &element(&[(0, 0), (9, 0), (0, 0), (0, 9)]), 4, 0, progress);

    let plate = element(&PLATE);
    let (read, made) = ask(library, &plate, AMPLE, 1, progress);
    let shift = [signed(PLATE[0].0.into()), signed(PLATE[0].1.into())];
    assert_eq!(read, Told::done(&[4, shift[0], shift[1]]));
    assert_eq!(made, Told::done(&[1, 1000, 0, 0, shift[0], shift[1]]));
    progress.done("GDSII: the scope's rows".into());
}

/// The worked element, and the same with the records that may be left out.
fn worked(library: Library, bytes: &[u8], progress: &Progress) {
    let (read, made) = ask(library, bytes, AMPLE, 9, progress);
    let shift = [signed(-50), 1000];
    assert_eq!(read, Told::done(&[6, shift[0], shift[1]]));
    assert_eq!(made, Told::done(&[2, 5200, 80, 4, shift[0], shift[1]]));
    let (mut list, mut table, mut shots) = ([0; 12], [0; 9], [0; 8]);
    library.gdsii_read(bytes, &mut list);
    assert_eq!(list, [0, 0, 100, 0, 100, 20, 60, 20, 60, 80, 0, 80]);
    library.gdsii_fracture(bytes, &mut table, &mut shots);
    assert_eq!(shots, [0, 0, 60, 80, 60, 0, 100, 20]);
    for numbers in 0..12 {
        assert_eq!(ask(library, bytes, (numbers, 9, 8), 2, progress).0, Told::refused(14));
    }
    assert_eq!(ask(library, bytes, (12, 8, 8), 2, progress).1, Told::refused(6));
    assert_eq!(ask(library, bytes, (12, 9, 7), 2, progress).1, Told::of(7, &[2]));
}

/// Elements of other tools: shift and corners give back what was drawn; then each cut at every length,
/// and with every byte set to every value.
pub fn others(plan: &Plan, progress: &Progress) {
    let Some(library) = plan.library else { return };
    let mut asked = 0;
    for (name, bytes, drawn) in stored() {
        let mut list = [0u16; 64];
        let told = library.gdsii_read(bytes, &mut list);
        assert_eq!((told.number, told.numbers[0] as usize), (0, drawn.len()), "{name}");
        let back = |k: usize, axis: usize| (told.numbers[1 + axis] as i64 + list[2 * k + axis] as i64) as i32;
        let mut points: Vec<Point> = (0..drawn.len()).map(|k| (back(k, 0), back(k, 1))).collect();
        // a tool may begin at another corner, and go the other way round
        if !points.iter().cycle().skip_while(|&&p| p != drawn[0]).take(drawn.len()).eq(&drawn) {
            points.reverse();
        }
        let turned: Vec<Point> = points.iter().copied().cycle().skip_while(|&p| p != drawn[0]).take(drawn.len()).collect();
        assert_eq!(turned, drawn, "{name}");
        assert_eq!(library.gdsii_fracture(bytes, &mut [0; 14_400], &mut [0; 900]).number, 0, "{name}");
        for length in 0..=bytes.len() {
            let (read, _) = ask(library, &bytes[..length], AMPLE, length as u64, progress);
            assert!(length == bytes.len() || read.number == 8, "{name}, its first {length} bytes: {read:?}");
            asked += 1;
        }
        every_byte(plan, library, name, bytes, progress);
        asked += 256 * bytes.len();
    }
    progress.done(format!("GDSII: {asked} elements made of those by gdspy and KLayout"));
}

/// An element with every byte set to every value.
fn every_byte(plan: &Plan, library: Library, name: &str, bytes: &[u8], progress: &Progress) {
    plan.turns(name, bytes.len(), progress, |at| {
        for byte in 0..=255 {
            let mut damaged = bytes.to_vec();
            damaged[at] = byte;
            ask(library, &damaged, AMPLE, byte.into(), progress);
        }
    });
}

/// Elements from seeds, sound and damaged, with room enough and with too little.
pub fn elements(plan: &Plan, progress: &Progress) {
    let Some(library) = plan.library else { return };
    let total = plan.jobs;
    let tally = Tally::new();
    plan.turns("GDSII elements", total, progress, |turn| {
        let mut s = Seeded::new(plan.seed << 32 | 0x6d51 << 16 | turn as u64);
        let mut bytes = any(&mut s);
        if s.once_in(2) {
            let (at, way) = (s.within(0, bytes.len()), s.below(DAMAGES));
            bytes = damaged(&mut s, &bytes, at, way);
        }
        let few = (s.within(0, 64), s.within(0, 400), s.within(0, 60));
        let rooms = s.pick(&[AMPLE, AMPLE, few]);
        let (read, made) = ask(library, &bytes, rooms, turn as u64, progress);
        tally.told(read.number);
        tally.told(made.number);
    });
    tally.all_shown(&[0, 2, 3, 4, 5, 6, 7, 8, 14, 16, 17, 18], total >= 10_000);
    progress.done(format!("GDSII: {total} elements from seeds, answers by number {tally}"));
}

/// The longest record there is, all of its points right: 2, and nothing is left in the list.
pub fn longest(plan: &Plan, progress: &Progress) {
    let Some(library) = plan.library else { return };
    let ring: Vec<Point> = (0..8_190).map(|k| (k * 8, (k / 2 % 2) * 8)).collect();
    let points = closed(&ring);
    assert_eq!(xy(&points).len() + 4, 65_532);
    refused(library, &records(&points, 0, 0).concat(), 2, 0, progress);
    let open = [&ring[..], &[(1, 1)]].concat();
    refused(library, &records(&open, 0, 0).concat(), 17, 0, progress);
    progress.done("GDSII: records of 8,191 points".into());
}
