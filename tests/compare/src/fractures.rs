//! Fractures compared: the scope's rows, buffers of every length, ring lengths of every value, rings
//! in every order, every cutting of small grids, and many seeded drawings, of one ring and of several,
//! in buffers full of what the last one left.

use crate::progress::{Progress, Tally};
use crate::room::Left;
use crate::{Library, Plan};
use drawings::document::{B, EIGHT, FRAMED, L, NUMBERS, RINGS, ROWS, UNTURNED, W2, WHEELS};
use drawings::seeded::Seeded;
use drawings::{figures, outlines};
use law::cutting::Fracture;
use law::every::prices;
use law::figure::figure;
use law::nano::Squares;
use law::{Calls, Drawing, Law, Told};
use std::collections::HashMap;
use std::sync::atomic::{AtomicUsize, Ordering};

/// A baseline: drawing, threshold, weight, table, list.
type Baseline = fn(&Drawing, u32, u32, &mut [u32], &mut [u16]) -> Told;

/// The baselines by straight cuts, and the one by pinwheels.
const STRAIGHT: [(&str, Baseline); 3] = [
    ("the baseline by heights", baseline::baseline),
    ("the baseline by rows", baseline::baseline_rows),
    ("the baseline by widths", baseline::baseline_widths),
];
const PINWHEEL: [(&str, Baseline); 1] = [("the baseline by pinwheels", baseline::baseline_wheels)];

/// One fracture to compare: the drawing, the rule (none: the default), what is lent.
pub struct Case<'a> {
    pub drawing: &'a Drawing,
    pub rule: Option<(u32, u32)>,
    pub table: &'a [u32],
    pub list: &'a [u16],
}

impl Case<'_> {
    fn by(&self, calls: &dyn Calls) -> Left {
        Left::lend(self.table, self.list, |table, list| match self.rule {
            Some((threshold, weight)) => calls.fracture(self.drawing, threshold, weight, table, list),
            None => calls.fracture_default(self.drawing, table, list),
        })
    }

    fn by_pinwheels(&self, calls: &dyn Calls) -> Left {
        let (threshold, weight) = self.rule.unwrap_or(law::call::DEFAULT);
        Left::lend(self.table, self.list, |table, list| calls.fracture_pinwheel(self.drawing, threshold, weight, table, list))
    }

    fn said(&self, from: &dyn Fn() -> String) -> String {
        format!("{}\n  {:?}\n  rule {:?}, table {}, list {}", from(), self.drawing, self.rule, self.table.len(), self.list.len())
    }

    /// Holds baselines to what is right: answer, cuts, table and list.
    fn hold_baselines(&self, baselines: &[(&str, Baseline)], right: &Left, progress: &Progress, from: &dyn Fn() -> String) {
        let (threshold, weight) = self.rule.unwrap_or(law::call::DEFAULT);
        for (name, baseline) in baselines {
            let its = Left::lend(self.table, self.list, |table, list| baseline(self.drawing, threshold, weight, table, list));
            right.hold(name, &its, &|| self.said(from));
            progress.same();
        }
    }

    /// Compares the library and the baselines by straight cuts with the law; gives what the law left.
    pub fn compare(&self, plan: &Plan, progress: &Progress, from: &dyn Fn() -> String) -> Left {
        let right = self.by(&Law);
        if let Some(library) = plan.library {
            right.hold("the library", &self.by(library), &|| self.said(from));
            progress.same();
            let (ahead, told) = (Law.cuts(self.drawing), library.cuts(self.drawing));
            assert!(told == ahead, "{}: {:?}\n  tells {told:?} ahead and not {ahead:?}", from(), self.drawing);
            assert!(right.told.number != 0 || ahead.numbers[0] == right.told.numbers[3]);
        }
        self.hold_baselines(&STRAIGHT, &right, progress, from);
        right
    }

    /// The same in the pinwheel mode, with its baseline.
    pub fn compare_pinwheel(&self, plan: &Plan, progress: &Progress, from: &dyn Fn() -> String) -> Left {
        let right = self.by_pinwheels(&Law);
        if let Some(library) = plan.library {
            right.hold("the library by pinwheels", &self.by_pinwheels(library), &|| self.said(from));
            progress.same();
        }
        self.hold_baselines(&PINWHEEL, &right, progress, from);
        right
    }
}

/// The rows of pinwheels: the law against the scope in both modes, then the library against the law.
pub fn wheel_rows(plan: &Plan, progress: &Progress) {
    for (row, wheels) in UNTURNED.iter().map(|row| (row, false)).chain(WHEELS.iter().map(|row| (row, true))) {
        let drawing = row.drawing();
        let (table, list) = (vec![7; row.room.0], vec![9; row.room.1]);
        let case = Case { drawing: &drawing, rule: Some(row.rule), table: &table, list: &list };
        let from = || format!("the scope's row: {}", row.name);
        let Left { told, list, .. } =
            if wheels { case.compare_pinwheel(plan, progress, &from) } else { case.compare(plan, progress, &from) };
        let [shots, cost, sliver, ..] = told.numbers;
        assert_eq!((told.number, [shots, cost, sliver]), row.outcome, "{}", from());
        // the cuts are the straight ones in either mode
        assert_eq!(told.numbers[3], if told.number == 0 { Law.cuts(&drawing).numbers[0] } else { 0 }, "{}", from());
        assert_eq!(&list.held()[..row.list.len()], row.list, "{}", from());
    }
    progress.done(format!("pinwheels: {} rows", UNTURNED.len() + WHEELS.len()));
}

/// The scope's stairs over 16 by 16 lines.
fn stairs() -> Drawing {
    let mut corners = vec![0, 0];
    for step in 0..15u16 {
        corners.extend([(15 - step) * 10, step * 10, (15 - step) * 10, (step + 1) * 10]);
    }
    corners.extend([0, 150]);
    Drawing::outline(&corners)
}

/// The worked counts of Item 6.
fn counted() -> Vec<(Drawing, u64)> {
    let two = |corners: &[u16]| Drawing { corners: corners.to_vec(), rings: vec![4, 4] };
    vec![
        (Drawing::outline(&L), 4),
        (Drawing::outline(&B), 13),
        (two(&FRAMED), 32),
        (Drawing::outline(&[0, 0, 10, 0, 10, 20, 20, 20, 20, 10, 0, 10]), 6),
        (two(&[0, 0, 10, 0, 10, 10, 0, 10, 50, 50, 60, 50, 60, 60, 50, 60]), 32),
        (Drawing::outline(&[0, 0, 100, 0, 100, 100, 0, 100]), 0),
        (stairs(), 104_888),
        (Drawing::outline(&W2), 158),
    ]
}

/// The worked rows of Item 7: what a fracture that names no rule gives.
fn by_default() -> [(Drawing, [u64; 3], &'static [u16]); 4] {
    [
        (Drawing::outline(&L), [2, 2000, 0], &[0, 0, 60, 80, 60, 0, 100, 20]),
        (Drawing::outline(&B), [2, 2000, 0], &[0, 0, 200, 200, 200, 50, 210, 150]),
        (Drawing::outline(&[0, 0, 100, 0, 100, 24, 0, 24]), [1, 1000, 0], &[0, 0, 100, 24]),
        (Drawing::outline(&[0, 0, 100, 0, 100, 9, 0, 9]), [1, 21_000, 200], &[0, 0, 100, 9]),
    ]
}

/// The scope's drawings: the law against the scope, then the others against the law.
pub fn rows(plan: &Plan, progress: &Progress) {
    for (drawing, cuts) in counted() {
        assert_eq!(Law.cuts(&drawing), Told::done(&[cuts]), "{drawing:?}");
        let case = Case { drawing: &drawing, rule: Some((25, 40)), table: &[7; 14_400], list: &[9; 900] };
        let told = case.compare(plan, progress, &|| format!("{cuts} cuts")).told;
        assert_eq!((told.number, told.numbers[3]), (0, cuts), "{drawing:?}");
        // refused 7, with no cuts
        let short = Case { list: &[9; 3], ..case };
        assert_eq!(short.compare(plan, progress, &|| format!("{cuts} cuts, a short list")).told.numbers[3], 0);
    }
    for row in ROWS.iter().chain(&RINGS) {
        let drawing = row.drawing();
        let (table, list) = (vec![7; row.room.0], vec![9; row.room.1]);
        let case = Case { drawing: &drawing, rule: Some(row.rule), table: &table, list: &list };
        let Left { told, list, .. } = case.compare(plan, progress, &|| format!("the scope's row: {}", row.name));
        let [shots, cost, sliver, ..] = told.numbers;
        assert_eq!((told.number, [shots, cost, sliver]), row.outcome, "the scope's row: {}", row.name);
        assert_eq!(&list.held()[..row.list.len()], row.list, "the scope's row: {}", row.name);
        let case = Case { drawing: &drawing, rule: None, table: &table, list: list.held() };
        case.compare(plan, progress, &|| format!("the scope's row: {}, no rule named", row.name));
    }
    for (drawing, told, shots) in by_default() {
        let case = Case { drawing: &drawing, rule: None, table: &[7; 14_400], list: &[9; 900] };
        let left = case.compare(plan, progress, &|| format!("no rule named: {drawing:?}"));
        assert_eq!((left.told.number, &left.told.numbers[..3]), (0, &told[..]), "no rule named: {drawing:?}");
        assert_eq!(&left.list.held()[..shots.len()], shots, "no rule named: {drawing:?}");
    }
    for (bytes, number) in NUMBERS {
        let told = Law.number(bytes, 0);
        assert_eq!(told.number, number, "the scope, {bytes:x?}");
        if let Some(library) = plan.library {
            assert_eq!(library.number(bytes, 0), told, "the scope, {bytes:x?}");
            progress.same();
        }
    }
    progress.done(format!("the scope: {} rows; rings: {} rows", ROWS.len() + NUMBERS.len(), RINGS.len()));
}

pub fn presets(plan: &Plan, progress: &Progress) {
    let mut asked: Vec<u32> = (0..300).collect();
    asked.extend([1 << 16, 1 << 31, u32::MAX]);
    for &number in &asked {
        let right = Law.preset(number);
        if number < 4 {
            assert_eq!(right.numbers[0] * right.numbers[1], 1000);
        }
        if let Some(library) = plan.library {
            assert_eq!(library.preset(number), right, "preset {number}");
            progress.same();
        }
    }
    progress.done(format!("presets: {} numbers", asked.len()));
}

/// A drawing of the outlines' sorts and the figures' sorts, told in one row of numbers.
fn of_sort(s: &mut Seeded, sort: usize) -> Drawing {
    match sort.checked_sub(outlines::SORTS.len()) {
        None => outlines::of_sort(s, sort),
        Some(sort) => figures::of_sort(s, sort),
    }
}

const SORTS: usize = outlines::SORTS.len() + figures::SORTS.len();

/// Ring lengths of every value of 16 bits beside the right ones, the length of the list staying or
/// following, and rings of every count: what reckons lengths in too few bits, or adds them up to a
/// number that wraps, takes one of these.
pub fn every_ring_length(plan: &Plan, progress: &Progress) {
    let (table, list) = (vec![7; 14_400], vec![9; 900]);
    let tally = Tally::new();
    let ask = |corners: &[u16], rings: &[u16]| {
        let drawing = Drawing { corners: corners.to_vec(), rings: rings.to_vec() };
        let case = Case { drawing: &drawing, rule: Some((25, 40)), table: &table[..700], list: &list[..64] };
        tally.told(case.compare(plan, progress, &|| "ring lengths".into()).told.number);
    };
    for length in 0..=u16::MAX {
        // most values in one place only; those around a limit in each
        ask(&FRAMED, &[4, length]);
        let near = |limit: u16| length.abs_diff(limit) <= 36;
        if near(0) || near(1 << 8) || near(1 << 15) || near(u16::MAX) {
            ask(&FRAMED, &[length, 4]);
            ask(&FRAMED, &[length, 8u16.wrapping_sub(length)]);
            ask(&FRAMED, &[length, 4, 4u16.wrapping_sub(length)]);
            ask(&FRAMED, &[length]);
            ask(&EIGHT[..2 * (length as usize).min(32)], &[length]);
        }
    }
    for count in 0..=20 {
        for length in 0..=9 {
            ask(&EIGHT, &vec![length; count]);
            ask(&EIGHT[..(2 * count * length as usize).min(64)], &vec![length; count]);
        }
    }
    for numbers in 0..=64 {
        ask(&EIGHT[..numbers], &[4; 8]);
        ask(&EIGHT[..numbers], &vec![4; numbers / 8]);
        ask(&EIGHT[..numbers], &[(numbers / 2) as u16]);
    }
    assert!(tally.of(0) > 10 && tally.of(2) > 60_000 && tally.of(3) > 10, "answers by number {tally}");
    progress.done(format!("ring lengths of every value: {} fractures, answers by number {tally}", tally.sum()));
}

/// Every order of some rings; of more than four only those that begin elsewhere, forwards and backwards.
fn orders(rings: &[Vec<u16>]) -> Vec<Vec<Vec<u16>>> {
    if rings.len() > 4 {
        let turned = |list: &[Vec<u16>]| -> Vec<Vec<Vec<u16>>> {
            (0..list.len()).map(|first| [&list[first..], &list[..first]].concat()).collect()
        };
        let backwards: Vec<Vec<u16>> = rings.iter().rev().cloned().collect();
        return [turned(rings), turned(&backwards)].concat();
    }
    let mut all = vec![Vec::new()];
    for ring in rings {
        // the next ring at every place among those before it
        let longer = |order: &Vec<Vec<u16>>| -> Vec<Vec<Vec<u16>>> {
            (0..=order.len()).map(|at| [&order[..at], &[ring.clone()], &order[at..]].concat()).collect()
        };
        all = all.iter().flat_map(longer).collect();
    }
    all
}

/// The rings of a figure in every order: always the same answer, table and list.
pub fn every_order(plan: &Plan, progress: &Progress) {
    let mut count = 0;
    for seed in 0..300 {
        let mut s = Seeded::new(plan.seed << 32 | 0x04d4 << 16 | seed);
        let drawing = figures::of_sort(&mut s, seed as usize % figures::SORTS.len());
        let rule = outlines::rule(&mut s, &drawing);
        let Ok(drawn) = figure(&drawing) else { panic!("every order, seed {seed}: {drawing:?} is not sound") };
        let (table, list) = (vec![7; drawn.pieces()], vec![9; 900]);
        let rings: Vec<Vec<u16>> = drawing.apart().unwrap().iter().map(|ring| ring.to_vec()).collect();
        let from = || format!("every order, seed {seed}");
        let first = Case { drawing: &drawing, rule: Some(rule), table: &table, list: &list };
        let right = first.compare(plan, progress, &from);
        for order in orders(&rings) {
            let drawing = Drawing::of(&order);
            let case = Case { drawing: &drawing, rule: Some(rule), table: &table, list: &list };
            right.hold("another order", &case.compare(plan, progress, &from), &|| case.said(&from));
            count += 1;
        }
    }
    assert!(count > 0);
    progress.done(format!("rings in every order: {count} fractures"));
}

/// Small drawings with tables and lists of every length up to a few more than enough.
pub fn every_length(plan: &Plan, progress: &Progress) {
    let mut count = 0;
    for seed in 0..260 {
        let mut s = Seeded::new(plan.seed << 32 | 0x1e46 << 16 | seed);
        let drawing = of_sort(&mut s, seed as usize % SORTS);
        let pieces = match figure(&drawing) {
            Ok(figure) if figure.pieces() <= 700 => figure.pieces(),
            _ => continue,
        };
        let rule = outlines::rule(&mut s, &drawing);
        let marks: Vec<u32> = (0..pieces + 3).map(|_| s.any() as u32).collect();
        let places: Vec<u16> = (0..905).map(|_| s.any() as u16).collect();
        let from = || format!("every length, seed {seed}");
        let ample = Case { drawing: &drawing, rule: Some(rule), table: &marks, list: &places };
        let shots = ample.compare(plan, progress, &from).told.numbers[0] as usize;
        for length in 0..=pieces + 3 {
            let case = Case { drawing: &drawing, rule: Some(rule), table: &marks[..length], list: &places };
            case.compare(plan, progress, &from);
            case.compare_pinwheel(plan, progress, &from);
            count += 2;
        }
        for length in 0..=4 * shots + 5 {
            let case = Case { drawing: &drawing, rule: Some(rule), table: &marks, list: &places[..length] };
            case.compare(plan, progress, &from);
            case.compare_pinwheel(plan, progress, &from);
            count += 2;
        }
    }
    assert!(count > 0, "no drawing of few pieces");
    progress.done(format!("tables and lists of every length: {count} fractures"));
}

/// Holds a table to every cutting of its pieces: none is cheaper than what the table says of its piece, and one costs
/// as much. Gives how many cuttings there are.
fn hold_cuttings(fracture: &Fracture, table: &[u32], said: &dyn Fn() -> String) -> usize {
    let (mut known, mut cuttings) = (HashMap::new(), 0);
    for (entry, piece) in fracture.pieces().into_iter().enumerate() {
        let all = prices(fracture, piece, &mut known);
        cuttings += all.len();
        assert_eq!(*all.iter().min().unwrap(), table[entry] as u64, "{}, {piece:?}", said());
    }
    cuttings
}

/// The pieces that pinwheels make cheaper; none is dearer by them.
fn cheaper_entries(straight: &[u32], by_wheels: &[u32]) -> usize {
    assert!(by_wheels.iter().zip(straight).all(|(wheel, straight)| wheel <= straight));
    by_wheels.iter().zip(straight).filter(|(wheel, straight)| wheel < straight).count()
}

/// A drawing that has few lines as a rule: an outline, or a figure of several rings.
fn of_few_lines(s: &mut Seeded) -> Drawing {
    if s.once_in(2) {
        let sort = s.pick(&[0, 0, 1, 2, 6, 7, 7, 9]);
        outlines::of_sort(s, sort)
    } else {
        let sort = s.pick(&[0, 0, 1, 2, 2, 3, 3, 4, 5, 6, 9]);
        figures::of_sort(s, sort)
    }
}

/// The scope's W2, whose frame a pinwheel makes cheaper: the law's tables against every cutting, as grids from
/// seeds hardly ever show such a piece. The rows hold the library to the law on it.
fn w2_cheaper() -> usize {
    let drawing = Drawing::outline(&W2);
    let figure = figure(&drawing).expect("W2 is sound");
    let case = Case { drawing: &drawing, rule: Some((25, 40)), table: &vec![0; figure.pieces()], list: &[0; 900] };
    let (straight, by_wheels) = (case.by(&Law), case.by_pinwheels(&Law));
    hold_cuttings(&Fracture::new(&figure, 25, 40), straight.table.held(), &|| "W2".into());
    hold_cuttings(&Fracture::with_pinwheels(&figure, 25, 40), by_wheels.table.held(), &|| "W2 by pinwheels".into());
    cheaper_entries(straight.table.held(), by_wheels.table.held())
}

/// Every cutting of small grids.
pub fn every_cutting(plan: &Plan, progress: &Progress) {
    let (mut grids, mut ringed, mut cuttings, mut turned) = (0, 0, 0, 0);
    let mut cheaper = w2_cheaper();
    for seed in 0..1500u64 {
        let mut s = Seeded::new(plan.seed << 32 | 0xc077 << 16 | seed);
        let drawing = of_few_lines(&mut s);
        let Ok(figure) = figure(&drawing) else { continue };
        let (columns, rows) = (figure.xs.len() - 1, figure.ys.len() - 1);
        // 4 by 4 cells have over two million cuttings: a few of those
        if figure.empty() || columns.max(rows) > 4 || columns * rows > 12 && seed % 50 > 0 {
            continue;
        }
        let (threshold, weight) = outlines::rule(&mut s, &drawing);
        let (threshold, weight) = (threshold.min(1000), weight.min(1000));
        let table = vec![0; figure.pieces()];
        let case = Case { drawing: &drawing, rule: Some((threshold, weight)), table: &table, list: &[0; 900] };
        let from = || format!("every cutting, seed {seed}, {drawing:?}");
        let straight = case.compare(plan, progress, &from).table;
        cuttings += hold_cuttings(&Fracture::new(&figure, threshold, weight), straight.held(), &from);
        // the same with pinwheels among them: none below 4 lines each way
        if columns.min(rows) > 2 && columns * rows <= 12 {
            let by_wheels = case.compare_pinwheel(plan, progress, &from).table;
            turned += hold_cuttings(&Fracture::with_pinwheels(&figure, threshold, weight), by_wheels.held(), &from);
            cheaper += cheaper_entries(straight.held(), by_wheels.held());
        }
        grids += 1;
        ringed += (drawing.rings.len() > 1) as usize;
        progress.at("every cutting", seed as usize, 1500);
    }
    assert!(ringed > 100, "only {ringed} small grids of several rings");
    assert!(turned > 0 && cheaper > 0, "{turned} cuttings with pinwheels among them, {cheaper} pieces cheaper so");
    progress.done(format!(
        "every cutting of W2 and of {grids} small grids ({ringed} of several rings): {cuttings} cuttings, none cheaper; {turned} with pinwheels among them, {cheaper} pieces cheaper so"
    ));
}

/// The shots against the raw corners, unit square by unit square: each inside square lies in exactly
/// one shot, each other in none; no side is above the largest, if there is one; cost and sliver are reckoned
/// anew from the list.
pub fn covers(drawing: &Drawing, rule: (u32, u32), largest: Option<u32>, told: Told, list: &[u16]) {
    let squares = Squares::new(drawing);
    let top = *drawing.corners.iter().max().unwrap() as usize + 1;
    let shots: Vec<&[u16]> = list.chunks(4).take(told.numbers[0] as usize).collect();
    let mut over = vec![0u32; top * top];
    for s in &shots {
        assert!((s[2] - s[0]).max(s[3] - s[1]) as u32 <= largest.unwrap_or(65_535), "{s:?} of {drawing:?}, largest {largest:?}");
        for x in s[0]..s[2] {
            for y in s[1]..s[3] {
                over[x as usize * top + y as usize] += 1;
            }
        }
    }
    for x in 0..top {
        for y in 0..top {
            assert_eq!(over[x * top + y], squares.filled(x as i32, y as i32) as u32, "cover at ({x}, {y}) of {drawing:?}");
        }
    }
    let sliver: u64 = shots.iter().map(|s| squares.sliver([s[0], s[1], s[2], s[3]], rule.0) as u64).sum();
    assert_eq!(told.numbers[2], sliver, "{drawing:?}, rule {rule:?}, largest {largest:?}");
    assert_eq!(told.numbers[1], 1000 * shots.len() as u64 + rule.1 as u64 * sliver);
}

/// The shots of a drawing from a seed, as the library fractures it; none if it refuses.
pub fn fractured(s: &mut Seeded, library: Library) -> Vec<u16> {
    let (outline, figure) = (s.below(outlines::SORTS.len()), s.below(figures::SORTS.len()));
    let drawing = if s.once_in(2) { outlines::of_sort(s, outline) } else { figures::of_sort(s, figure) };
    let mut list = vec![0; 900];
    let told = library.fracture(&drawing, 25, 40, &mut [0; 14_400], &mut list);
    list.truncate(if told.number == 0 { 4 * told.numbers[0] as usize } else { 0 });
    list
}

/// A length for a lent buffer: ample, just enough, one short, or any.
fn length(s: &mut Seeded, enough: usize, most: usize) -> usize {
    match s.below(16) {
        0 => enough,
        1 => enough.saturating_sub(1),
        2 => s.within(0, enough),
        3 => s.within(enough, most.max(enough) + 20),
        _ => most.max(enough),
    }
}

/// What is counted of the drawings from seeds, by every thread.
struct Counts {
    tally: Tally,
    ringed: AtomicUsize,
    shots: AtomicUsize,
    squares: AtomicUsize,
    turned: AtomicUsize,
    cheaper: AtomicUsize,
}

impl Counts {
    fn new() -> Counts {
        let none = || AtomicUsize::new(0);
        Counts { tally: Tally::new(), ringed: none(), shots: none(), squares: none(), turned: none(), cheaper: none() }
    }
}

/// A drawing from a seed, sound or bad, and its sort.
fn any_drawing(s: &mut Seeded, seed: usize) -> (Drawing, usize) {
    let sort = seed % (SORTS + 7);
    let drawing = match sort.checked_sub(SORTS) {
        None => of_sort(s, sort),
        Some(0..=2) => outlines::bad(s),
        Some(_) => figures::bad(s),
    };
    (drawing, sort)
}

/// The drawing of a seed in the buffers that the last one left.
fn one_drawing(plan: &Plan, seed: usize, (table, list): &mut (Vec<u32>, Vec<u16>), counts: &Counts, progress: &Progress) {
    let add = |count: &AtomicUsize, more: usize| count.fetch_add(more, Ordering::Relaxed);
    let mut s = Seeded::new(plan.seed << 32 | 0x0071 << 24 | seed as u64);
    let (drawing, sort) = any_drawing(&mut s, seed);
    let from = || format!("drawing, seed {seed}, sort {sort}");
    let rule = outlines::rule(&mut s, &drawing);
    let drawn = figure(&drawing).ok();
    assert!(drawn.is_some() || sort >= SORTS, "{}: not sound", from());
    let pieces = drawn.as_ref().map_or(100, |f| f.pieces());
    let cells = drawn.as_ref().map_or(3, |f| (f.xs.len() - 1) * (f.ys.len() - 1));
    let (entries, numbers) = (length(&mut s, pieces, 14_400), length(&mut s, cells, 900));
    let rule = if s.once_in(8) { None } else { Some(rule) };
    let case = Case { drawing: &drawing, rule, table: &table[..entries], list: &list[..numbers] };
    let left = case.compare(plan, progress, &from);
    let told = left.told;
    counts.tally.told(told.number);
    add(&counts.ringed, (told.number == 0 && drawing.rings.len() > 1) as usize);
    add(&counts.shots, told.numbers[0] as usize);
    if told.number == 0 && drawing.corners.iter().all(|&place| place < 200) {
        covers(&drawing, rule.unwrap_or(law::call::DEFAULT), None, told, left.list.held());
        add(&counts.squares, 1);
    }
    // the law tries every pinwheel of every piece: of few lines, and now and then of many
    if pieces <= 1300 || seed % 257 == 0 {
        let its = case.compare_pinwheel(plan, progress, &from).told;
        add(&counts.turned, (its.number == 0) as usize);
        if told.number == 0 && its.number == 0 {
            assert!(its.numbers[1] <= told.numbers[1], "{}", from());
            add(&counts.cheaper, (its.numbers[1] < told.numbers[1]) as usize);
        }
    }
    // what this drawing left is what the next one finds
    table[..entries].copy_from_slice(left.table.held());
    list[..numbers].copy_from_slice(left.list.held());
}

/// Many seeded outlines and figures, sound and bad, each in the buffers that the last one left.
pub fn outlines(plan: &Plan, progress: &Progress) {
    let total = plan.outlines;
    let counts = Counts::new();
    let buffers = || (vec![0xffff_ffffu32; 14_500], vec![0xffffu16; 1000]);
    plan.turns_with("drawings", total, progress, buffers, |lent, seed| one_drawing(plan, seed, lent, &counts, progress));
    let Counts { tally, ringed, shots, squares, turned, cheaper } = counts;
    let (squares, turned, cheaper) = (squares.into_inner(), turned.into_inner(), cheaper.into_inner());
    tally.all_shown(&[0, 1, 2, 3, 4, 5, 6, 7], total >= 10_000);
    assert!(total < 1_000 || (squares > 0 && turned > 0), "{squares} held to their unit squares, {turned} by pinwheels");
    assert!(total < 10_000 || cheaper > 0, "no drawing is cheaper by pinwheels");
    progress.done(format!(
        "drawings, {total} seeds under {}: answers by number {tally}; {} of several rings; {} shots; {squares} held to their unit squares; {turned} by pinwheels too, {cheaper} cheaper so",
        plan.seed,
        ringed.into_inner(),
        shots.into_inner()
    ));
}
