//! Cases with their outcomes, for the C program `replay`, which links the archive that is shipped.
//!
//! The record is a run of 32-bit words, low byte first. A call is its number below and its
//! arguments: lengths, other numbers and the mark of the lent buffers, then bytes (four to a word)
//! or a drawing (its coordinates and then its ring lengths, one to a word); a size that is the
//! largest there is stands as 0xffffffff. Then its outcome, two words for each: the number, the single
//! numbers, a hash over each lent buffer with 16 elements before and beyond it. Calls: 1 preset,
//! 2 fracture, 3 fracture by the default rule, 4 number, 5 job check, 6 job outline, 7 unpack, 8 write
//! header, 9 write outline, 10 read a boundary, 11 fracture one, 12 the end, 23 the runs of an edge, 30 join,
//! 31 cuts ahead, 32 fracture by pinwheels, 50 and 51 the same as 2 and 32 with a largest side,
//! 45 write a CIF text, 46 read one,
//! 40 to 43 opening, appending to, removing from and picking by an index, 44 salvage. A shift has its sign.
//! An entry of a table of pairs is hashed field by field. Its partner, and each number of an edge's runs, is hashed as
//! two words.

use crate::edges::shot_list;
use crate::progress::Progress;
use drawings::jobs::{damaged, outline, sound, DAMAGES};
use drawings::seeded::Seeded;
use drawings::{elements, figures, outlines, shots, texts};
use law::figure::figure;
use law::joining::Joined;
use law::{Calls, Drawing, Law, Told};
use std::io::Write;

const MARGIN: usize = 16;
const OUTLINES: u64 = 6_000;
const JOBS: u64 = 6_000;
const ELEMENTS: u64 = 6_000;
const LISTS: u64 = 6_000;
const EDGES: u64 = 6_000;
const DIVIDED: u64 = 4_000;
const TEXTS: u64 = 6_000;
const INDEXES: u64 = 2_000;

struct Record {
    words: Vec<u32>,
    calls: usize,
}

/// What a lent buffer is made of.
trait Element: Copy {
    /// From a word of the pattern.
    fn of(word: u32) -> Self;

    /// The hash with this element behind it.
    fn mixed(self, hash: u32) -> u32;
}

fn mix(hash: u32, word: u32) -> u32 {
    (hash ^ word).wrapping_mul(16_777_619)
}

/// A number of the machine's size, as two words.
fn mix_wide(hash: u32, number: usize) -> u32 {
    mix(mix(hash, number as u32), (number as u64 >> 32) as u32)
}

macro_rules! numbers {
    ($($number:ident)*) => {$(
        impl Element for $number {
            fn of(word: u32) -> $number {
                (word >> (32 - $number::BITS)) as $number
            }
            fn mixed(self, hash: u32) -> u32 {
                mix(hash, self.into())
            }
        }
    )*};
}
numbers! { u8 u16 u32 }

impl Element for usize {
    fn of(word: u32) -> usize {
        word as usize
    }
    fn mixed(self, hash: u32) -> u32 {
        mix_wide(hash, self)
    }
}

impl Element for Joined {
    fn of(word: u32) -> Joined {
        let (low, high) = (word as u16, (word >> 16) as u16);
        Joined { x_low: low, y_low: high, x_high: !low, y_high: !high, partner: word as usize }
    }
    fn mixed(self, hash: u32) -> u32 {
        let corners = [self.x_low, self.y_low, self.x_high, self.y_high];
        mix_wide(corners.into_iter().fold(hash, |hash, place| mix(hash, place.into())), self.partner)
    }
}

/// A lent buffer filled with its pattern, the margins too.
struct Lent<T>(Vec<T>);

impl<T: Element> Lent<T> {
    fn new(length: usize, mark: u32) -> Lent<T> {
        let pattern = |at: u32| mark.wrapping_add(at.wrapping_mul(2_654_435_761));
        Lent((0..(length + 2 * MARGIN) as u32).map(|at| T::of(pattern(at))).collect())
    }

    /// What is lent, without the margins.
    fn inner(&mut self) -> &mut [T] {
        let end = self.0.len() - MARGIN;
        &mut self.0[MARGIN..end]
    }

    /// Over the margins too.
    fn hash(&self) -> u64 {
        self.0.iter().fold(2_166_136_261, |hash, element| element.mixed(hash)).into()
    }
}

impl Record {
    fn size(&mut self, n: usize) {
        self.words.push(if n == usize::MAX { u32::MAX } else { n as u32 });
    }

    fn bytes(&mut self, bytes: &[u8]) {
        for four in bytes.chunks(4) {
            self.words.push(four.iter().rev().fold(0, |word, &byte| word << 8 | byte as u32));
        }
    }

    fn drawing_lengths(&mut self, drawing: &Drawing) {
        self.size(drawing.corners.len());
        self.size(drawing.rings.len());
    }

    fn drawing(&mut self, drawing: &Drawing) {
        self.words.extend(drawing.corners.iter().chain(&drawing.rings).map(|&number| number as u32));
    }

    fn outcome(&mut self, told: Told, numbers: usize, hashes: &[u64]) {
        let all = [told.number as u64].into_iter().chain(told.numbers[..numbers].iter().copied());
        for value in all.chain(hashes.iter().copied()) {
            self.words.extend([value as u32, (value >> 32) as u32]);
        }
        self.calls += 1;
    }

    /// A fracture: the words of its call before the lengths, and what the law answers and leaves.
    fn fractured(
        &mut self, words: &[u32], drawing: &Drawing, (entries, numbers): (usize, usize), mark: u32,
        by: impl FnOnce(&mut [u32], &mut [u16]) -> Told,
    ) {
        self.words.extend(words);
        self.drawing_lengths(drawing);
        self.size(entries);
        self.size(numbers);
        self.words.push(mark);
        self.drawing(drawing);
        let (mut table, mut list) = (Lent::new(entries, mark), Lent::new(numbers, mark));
        let told = by(table.inner(), list.inner());
        self.outcome(told, 4, &[table.hash(), list.hash()]);
    }

    /// By a rule or by the default rule.
    fn fracture(&mut self, drawing: &Drawing, rule: Option<(u32, u32)>, rooms: (usize, usize), mark: u32) {
        match rule {
            Some((t, w)) => self.fractured(&[2, t, w], drawing, rooms, mark, |table, list| Law.fracture(drawing, t, w, table, list)),
            None => self.fractured(&[3], drawing, rooms, mark, |table, list| Law.fracture_default(drawing, table, list)),
        }
    }

    fn pinwheels(&mut self, drawing: &Drawing, (t, w): (u32, u32), rooms: (usize, usize), mark: u32) {
        self.fractured(&[32, t, w], drawing, rooms, mark, |table, list| Law.fracture_pinwheel(drawing, t, w, table, list));
    }

    fn divided(&mut self, wheels: bool, drawing: &Drawing, (t, w): (u32, u32), largest: u32, rooms: (usize, usize), mark: u32) {
        let call = if wheels { 51 } else { 50 };
        self.fractured(&[call, t, w, largest], drawing, rooms, mark, |table, list| {
            Law.fracture_divided(wheels, drawing, t, w, largest, table, list)
        });
    }

    fn cuts(&mut self, drawing: &Drawing) {
        self.words.push(31);
        self.drawing_lengths(drawing);
        self.drawing(drawing);
        self.outcome(Law.cuts(drawing), 1, &[]);
    }

    fn job(&mut self, job: &[u8], s: &mut Seeded) {
        self.words.push(5);
        self.size(job.len());
        self.bytes(job);
        let told = Law.job_check(job);
        self.outcome(told, 4, &[]);
        let count = told.numbers[2] as usize;
        for k in [s.within(0, count + 1), s.pick(&[0, 254, 255, usize::MAX])] {
            self.words.push(6);
            self.size(job.len());
            self.size(k);
            self.bytes(job);
            let told = Law.job_outline(job, k);
            self.outcome(told, 3, &[]);
            if told.number == 0 {
                let part = told.numbers[0] as usize..(told.numbers[0] + told.numbers[1]) as usize;
                let rooms = s.pick(&[(64, 8), (64, 8), (9, 8), (70, 10), (64, 1), (24, 2)]);
                self.unpack(&job[part.clone()], rooms, k as u32);
                let (at, way) = (s.within(0, part.len()), s.below(DAMAGES));
                self.unpack(&damaged(s, &job[part], at, way), (64, 8), k as u32);
            }
        }
        let any = s.within(0, job.len() + 2);
        let at = s.pick(&[0, job.len(), any, usize::MAX]);
        self.words.push(4);
        self.size(job.len());
        self.size(at);
        self.bytes(job);
        self.outcome(Law.number(job, at), 3, &[]);
    }

    fn unpack(&mut self, part: &[u8], (numbers, lengths): (usize, usize), mark: u32) {
        self.words.push(7);
        self.size(part.len());
        self.size(numbers);
        self.size(lengths);
        self.words.push(mark);
        self.bytes(part);
        let (mut list, mut rings) = (Lent::new(numbers, mark), Lent::new(lengths, mark));
        let told = Law.unpack(part, list.inner(), rings.inner());
        self.outcome(told, 3, &[list.hash(), rings.hash()]);
    }

    fn boundary(&mut self, element: &[u8], (numbers, entries, shots): (usize, usize, usize), mark: u32) {
        self.words.push(10);
        self.size(element.len());
        self.size(numbers);
        self.words.push(mark);
        self.bytes(element);
        let mut list = Lent::new(numbers, mark);
        let told = Law.gdsii_read(element, list.inner());
        self.outcome(told, 4, &[list.hash()]);

        self.words.push(11);
        self.size(element.len());
        self.size(entries);
        self.size(shots);
        self.words.push(mark);
        self.bytes(element);
        let (mut table, mut list) = (Lent::new(entries, mark), Lent::new(shots, mark));
        let told = Law.gdsii_fracture(element, table.inner(), list.inner());
        self.outcome(told, 7, &[table.hash(), list.hash()]);
    }

    fn join(&mut self, list: &[u16], entries: usize, mark: u32) {
        self.words.push(30);
        self.size(list.len());
        self.size(entries);
        self.words.push(mark);
        self.words.extend(list.iter().map(|&number| number as u32));
        let mut table = Lent::new(entries, mark);
        let told = Law.join(list, table.inner());
        self.outcome(told, 1, &[table.hash()]);
    }

    fn edge(&mut self, drawing: &Drawing, edge: usize, shots: &[u16], room: usize, mark: u32) {
        self.words.push(23);
        self.drawing_lengths(drawing);
        self.size(edge);
        self.size(shots.len());
        self.size(room);
        self.words.push(mark);
        self.drawing(drawing);
        self.words.extend(shots.iter().map(|&number| number as u32));
        let mut runs = Lent::new(room, mark);
        let told = Law.edge(drawing, edge, shots, runs.inner());
        self.outcome(told, 1, &[runs.hash()]);
    }

    fn cif_write(&mut self, list: &[u16], room: usize, mark: u32) {
        self.words.push(45);
        self.size(list.len());
        self.size(room);
        self.words.push(mark);
        self.words.extend(list.iter().map(|&number| number as u32));
        let mut out = Lent::new(room, mark);
        let told = Law.cif_write(list, out.inner());
        self.outcome(told, 1, &[out.hash()]);
    }

    fn cif_read(&mut self, text: &[u8], numbers: usize, mark: u32) {
        self.words.push(46);
        self.size(text.len());
        self.size(numbers);
        self.words.push(mark);
        self.bytes(text);
        let mut list = Lent::new(numbers, mark);
        let told = Law.cif_read(text, list.inner());
        self.outcome(told, 2, &[list.hash()]);
    }

    /// All that can be asked of a job and an index of so many entries, with a buffer of so many bytes.
    fn index(&mut self, job: &[u8], drawing: &Drawing, k: usize, (entries, room): (usize, usize), mark: u32) {
        self.words.push(40);
        self.size(job.len());
        self.size(entries);
        self.words.push(mark);
        self.bytes(job);
        let mut index = Lent::new(entries, mark);
        let told = Law.index_open(job, index.inner());
        self.outcome(told, 2, &[index.hash()]);

        self.changed_index(job, Some(drawing), k, (entries, room), mark);
        self.changed_index(job, None, k, (entries, room), mark);

        // by the index as it came in, and as opening left it
        for (mut index, count) in [(Lent::new(entries, mark), entries), (index, told.numbers[0] as usize)] {
            self.words.push(43);
            self.size(job.len());
            self.size(entries);
            self.size(count);
            self.size(k);
            self.bytes(job);
            self.words.extend(index.inner().iter().map(|&entry| entry as u32));
            self.outcome(Law.index_pick(job, index.inner(), count, k), 3, &[]);
        }
    }

    /// A drawing appended to a job and its index, or, where there is none, outline k removed.
    fn changed_index(&mut self, job: &[u8], drawing: Option<&Drawing>, k: usize, (entries, room): (usize, usize), mark: u32) {
        self.words.push(if drawing.is_some() { 41 } else { 42 });
        self.size(job.len());
        match drawing {
            Some(drawing) => self.drawing_lengths(drawing),
            None => self.size(k),
        }
        self.size(entries);
        self.size(room);
        self.words.push(mark);
        self.bytes(job);
        let (mut index, mut out) = (Lent::new(entries, mark), Lent::new(room, mark));
        let told = match drawing {
            Some(drawing) => {
                self.drawing(drawing);
                Law.index_append(job, drawing, index.inner(), out.inner())
            }
            None => Law.index_remove(job, k, index.inner(), out.inner()),
        };
        self.outcome(told, 3, &[index.hash(), out.hash()]);
    }

    fn salvage(&mut self, job: &[u8], room: usize, mark: u32) {
        self.words.push(44);
        self.size(job.len());
        self.size(room);
        self.words.push(mark);
        self.bytes(job);
        let mut out = Lent::new(room, mark);
        let told = Law.salvage(job, out.inner());
        self.outcome(told, 5, &[out.hash()]);
    }

    fn writers(&mut self, s: &mut Seeded) {
        let pick = |s: &mut Seeded| s.pick(&[0, 127, 128, 255, 256, 1000, 1001, u32::MAX]);
        let (threshold, weight, outlines) = (pick(s), pick(s), pick(s));
        let (room, mark) = (s.within(0, 8), s.any() as u32);
        self.words.extend([8, threshold, weight, outlines]);
        self.size(room);
        self.words.push(mark);
        let mut out = Lent::new(room, mark);
        let told = Law.write_header(threshold, weight, outlines, out.inner());
        self.outcome(told, 1, &[out.hash()]);

        let drawing = any_drawing(s);
        let any = s.within(0, 210);
        let room = s.pick(&[210, any]);
        self.words.push(9);
        self.drawing_lengths(&drawing);
        self.size(room);
        self.words.push(mark);
        self.drawing(&drawing);
        let mut out = Lent::new(room, mark);
        let told = Law.write_outline(&drawing, out.inner());
        self.outcome(told, 1, &[out.hash()]);
    }
}

/// A drawing for the writer, which looks at lengths alone: one ring of any numbers; rings as a job
/// may have them, or as it may not.
fn any_drawing(s: &mut Seeded) -> Drawing {
    match s.below(3) {
        0 => {
            let length = s.within(0, 70);
            let top = s.pick(&[2, 128, 129, 16_385, 65_536]);
            Drawing::outline(&(0..length).map(|_| s.below(top) as u16).collect::<Vec<_>>())
        }
        1 => outline(s),
        _ => figures::bad(s),
    }
}

/// A drawing to fracture: of one ring or of several, now and then a bad one.
fn any_figure(s: &mut Seeded) -> Drawing {
    let (outline_sort, figure_sort) = (s.below(outlines::SORTS.len()), s.below(figures::SORTS.len()));
    match s.below(12) {
        0 => outlines::bad(s),
        1 => figures::bad(s),
        2..=6 => outlines::of_sort(s, outline_sort),
        _ => figures::of_sort(s, figure_sort),
    }
}

/// The cases from seeds.
impl Record {
    /// Drawings of every sort, fractured by a rule or by the default rule, and by pinwheels, and their cuts ahead.
    fn drawings(&mut self, seed: u64, progress: &Progress) {
        for turn in 0..OUTLINES {
            let mut s = Seeded::new(seed << 32 | 0x4ec0 << 16 | turn);
            let drawing = any_figure(&mut s);
            let pieces = figure(&drawing).map_or(50, |f| f.pieces());
            let entries = s.pick(&[pieces, pieces, pieces + 3, pieces - 1]);
            let few = s.within(0, 60);
            let numbers = s.pick(&[900, 900, 901, few]);
            let rule = if s.once_in(8) { None } else { Some(outlines::rule(&mut s, &drawing)) };
            let mark = s.any() as u32;
            self.fracture(&drawing, rule, (entries, numbers), mark);
            if let Some(rule) = rule.filter(|_| pieces <= 1300 || turn % 67 == 0) {
                self.pinwheels(&drawing, rule, (entries, numbers), mark);
            }
            self.cuts(&drawing);
            progress.at("recording", turn as usize, OUTLINES as usize);
        }
    }

    /// Jobs, sound and damaged, and the writers.
    fn jobs(&mut self, seed: u64) {
        for turn in 0..JOBS {
            let mut s = Seeded::new(seed << 32 | 0x10b5 << 16 | turn);
            let mut job = sound(&mut s);
            if turn % 4 > 0 {
                let (at, way) = (s.within(0, job.len()), s.below(DAMAGES));
                job = damaged(&mut s, &job, at, way);
            }
            self.job(&job, &mut s);
            self.writers(&mut s);
        }
    }

    /// Boundary elements, sound and damaged.
    fn elements(&mut self, seed: u64) {
        for turn in 0..ELEMENTS {
            let mut s = Seeded::new(seed << 32 | 0x6d52 << 16 | turn);
            let mut element = elements::any(&mut s);
            if turn % 2 > 0 {
                let (at, way) = (s.within(0, element.len()), s.below(elements::DAMAGES));
                element = elements::damaged(&mut s, &element, at, way);
            }
            // the long ones, which fill the record, are the comparison's alone
            if element.len() > 2_000 {
                continue;
            }
            let few = (s.within(0, 64), s.within(0, 300), s.within(0, 60));
            let rooms = s.pick(&[(64, 14_400, 900), few]);
            self.boundary(&element, rooms, turn as u32);
        }
    }

    /// Lists of shots to join.
    fn lists(&mut self, seed: u64) {
        for turn in 0..LISTS {
            let mut s = Seeded::new(seed << 32 | 0x10f2 << 16 | turn);
            let list = shots::any(&mut s);
            let room = list.len() / 4;
            let few = s.within(0, room);
            let entries = s.pick(&[room, room, room + 1, room + 9, few]);
            self.join(&list, entries, turn as u32);
        }
    }

    /// One edge each of drawings, with a shot list.
    fn edges(&mut self, seed: u64) {
        for turn in 0..EDGES {
            let mut s = Seeded::new(seed << 32 | 0xed6f << 16 | turn);
            let drawing = any_figure(&mut s);
            let shots = shot_list(&mut s, &drawing);
            let any = s.within(0, drawing.corners.len() / 2 + 1);
            let edge = s.pick(&[any, any, any, any, usize::MAX]);
            let few = s.within(0, 20);
            let room = s.pick(&[60 + 2 * shots.len(), few]);
            self.edge(&drawing, edge, &shots, room, turn as u32);
        }
    }

    /// Drawings, some of them drawn out, with a largest side.
    fn divided_drawings(&mut self, seed: u64) {
        for turn in 0..DIVIDED {
            let mut s = Seeded::new(seed << 32 | 0xd1f0 << 16 | turn);
            let mut drawing = any_figure(&mut s);
            let most = (u16::MAX / drawing.corners.iter().max().copied().unwrap_or(0).max(1)).max(1);
            let times = s.pick(&[1, 2, 5]).min(most);
            drawing.corners.iter_mut().for_each(|place| *place *= times);
            let pieces = figure(&drawing).map_or(50, |f| f.pieces());
            let rule = outlines::rule(&mut s, &drawing);
            let any = s.within(0, 70_000) as u32;
            let largest = s.pick(&[199, 200, 200, 201, 2 * rule.0.min(1000), 500, 2_000, 65_535, 65_536, any]);
            let few = s.within(0, 60);
            let numbers = s.pick(&[900, 2_000, 20_000, few]);
            let wheels = pieces <= 1300 && s.once_in(2);
            self.divided(wheels, &drawing, rule, largest, (pieces, numbers), turn as u32);
        }
    }

    /// Lists written as CIF texts, and texts read, sound and damaged.
    fn texts(&mut self, seed: u64) {
        for turn in 0..TEXTS {
            let mut s = Seeded::new(seed << 32 | 0xc1f1 << 16 | turn);
            let list = shots::any(&mut s);
            let bytes = if law::cif::bad_shots(&list) { 50 } else { law::cif::text(&list).len() };
            let few = s.within(0, bytes);
            let room = s.pick(&[bytes, bytes + 5, bytes - 1, few]);
            self.cif_write(&list, room, turn as u32);
            let mut text = texts::sound(&mut s);
            let shots = text.iter().filter(|&&byte| byte == b'B').count();
            if turn % 3 > 0 {
                let way = s.below(texts::DAMAGES);
                text = texts::damaged(&mut s, &text, way);
            }
            let few = s.within(0, 4 * shots);
            let numbers = s.pick(&[4 * shots, 4 * shots + 9, few]);
            self.cif_read(&text, numbers, turn as u32);
        }
    }

    /// Jobs and their index, and jobs damaged and saved.
    fn indexes(&mut self, seed: u64) {
        for turn in 0..INDEXES {
            let mut s = Seeded::new(seed << 32 | 0x1de7 << 16 | turn);
            let mut job = sound(&mut s);
            if turn % 4 == 0 {
                let (at, way) = (s.within(0, job.len()), s.below(DAMAGES));
                job = damaged(&mut s, &job, at, way);
            }
            let count = Law.job_check(&job).numbers[2] as usize;
            let drawing = any_drawing(&mut s);
            let (k, few, short) = (s.within(0, count), s.within(0, count), s.within(0, job.len()));
            let rooms = s.pick(&[(255, 4096), (255, 4096), (count + 1, job.len() + 10), (few, 4096), (255, short)]);
            self.index(&job, &drawing, s.pick(&[k, k, k, usize::MAX]), rooms, turn as u32);
            let (at, way) = (s.within(0, job.len()), s.below(DAMAGES));
            self.salvage(&damaged(&mut s, &job, at, way), s.pick(&[4096, 4096, short]), turn as u32);
        }
    }
}

/// Writes the record to a file.
pub fn write(file: &str, seed: u64, progress: &Progress) {
    let mut record = Record { words: Vec::new(), calls: 0 };
    for number in 0..6 {
        record.words.extend([1, number]);
        record.outcome(Law.preset(number), 2, &[]);
    }
    record.drawings(seed, progress);
    record.jobs(seed);
    record.elements(seed);
    record.lists(seed);
    record.edges(seed);
    record.divided_drawings(seed);
    record.texts(seed);
    record.indexes(seed);
    record.words.push(12);
    let bytes: Vec<u8> = record.words.iter().flat_map(|word| word.to_le_bytes()).collect();
    std::fs::File::create(file).and_then(|mut f| f.write_all(&bytes)).unwrap_or_else(|e| panic!("{file}: {e}"));
    progress.done(format!("recorded {} calls in {} bytes", record.calls, bytes.len()));
}
