//! The job calls compared: every string of three bytes as a number, the scope's rows about rings,
//! the writers and unpacking with buffers of every length, jobs at the limits, jobs with rings with
//! every byte set to every value, and jobs damaged at every byte.

use crate::progress::{Progress, Tally};
use crate::room::{lend_both, marks, Room};
use crate::{Library, Plan};
use drawings::document::{ring_faults, FRAMED, FRAMED_JOB, GUILTY, JOB, L};
use drawings::figures;
use drawings::jobs::{damaged as damage, outline, small, sound, DAMAGES};
use drawings::seeded::Seeded;
use law::bytes::{header, job, written_outline};
use law::{Calls, Drawing, Law, Told};
use std::sync::atomic::{AtomicUsize, Ordering};

/// The scope's rows, every string of up to three bytes, then places at and past the end.
pub fn numbers(plan: &Plan, progress: &Progress) {
    let Some(library) = plan.library else { return };
    let compare = |bytes: &[u8], at: usize| {
        let (right, told) = (Law.number(bytes, at), library.number(bytes, at));
        assert!(told == right, "number at {at} of {bytes:x?}: {told:?} and not {right:?}");
    };
    for (bytes, at, number, guilty) in GUILTY {
        compare(bytes, at);
        assert_eq!(library.number(bytes, at), Told::of(number, &[0, 0, guilty as u64]), "number at {at} of {bytes:x?}");
        progress.same();
    }
    plan.turns("numbers", 256, progress, |first| {
        for rest in 0..65_536usize {
            let bytes = [first as u8, (rest >> 8) as u8, rest as u8];
            compare(&bytes, 0);
            if rest < 256 {
                compare(&[first as u8, rest as u8], 0);
                compare(&[0x80, first as u8, rest as u8, 0x80, 0x80, 0x01], 1);
            }
        }
        compare(&[first as u8], 0);
        progress.same_many(65_536 + 513);
    });
    for length in 0..6 {
        let bytes = vec![0x81; length];
        for at in (0..10).chain([usize::MAX, usize::MAX - 1, usize::MAX - 2, 1 << 63]) {
            compare(&bytes, at);
            progress.same();
        }
    }
    progress.done("numbers: every string of one, two and three bytes".into());
}

/// Item 1's rows about bytes: the law against the scope, and the library against the law.
pub fn ring_rows(plan: &Plan, progress: &Progress) {
    let Some(library) = plan.library else { return };
    let mut s = Seeded::new(plan.seed << 32 | 0x4146);
    let faults = ring_faults();
    for (name, behind, number, at) in &faults {
        let bytes = [&JOB[..3], behind].concat();
        let told = ask(library, &bytes, &mut s, progress);
        assert_eq!(told, Told::of(*number, &[0, 0, 0, *at as u64]), "{name}: {bytes:x?}");
        // the same from the part alone
        let told = unpack(library, behind, (64, 8), 1, progress);
        assert_eq!(told, Told::of(*number, &[0, 0, *at as u64 - 3]), "{name}: {behind:x?}");
    }
    // the worked example of the scope with a byte damaged: a V of 0 is no fault any more, R is
    for (at, byte, fault) in [(1, 0x80, 5), (1, 0xff, 5), (3, 0x00, 4)] {
        let mut bytes = JOB;
        bytes[at] = byte;
        let told = ask(library, &bytes, &mut s, progress);
        assert_eq!((told.number, told.numbers[3]), (10, fault), "byte {at} set to {byte:x}");
    }
    framed_row(library, &mut s, progress);
    longest_row(library, progress);
    zeros_row(library, &mut s, progress);
    progress.done(format!("jobs with rings: {} faults, and the worked parts", faults.len()));
}

/// The frame with a window: its part lies from the 0 on, and unpacks to both lists or to none.
fn framed_row(library: Library, s: &mut Seeded, progress: &Progress) {
    let told = ask(library, &FRAMED_JOB, s, progress);
    assert_eq!(told, Told::done(&[25, 40, 1]));
    assert_eq!(library.job_outline(&FRAMED_JOB, 0), Told::done(&[3, 20]));
    let part = &FRAMED_JOB[3..];
    assert_eq!(written_outline(&Drawing { corners: FRAMED.to_vec(), rings: vec![4, 4] }), part);
    for rooms in [(16, 2), (64, 8)] {
        assert_eq!(unpack(library, part, rooms, 2, progress), Told::done(&[8, 2]), "the frame's part to {rooms:?}");
    }
    for rooms in [(15, 8), (16, 1), (0, 0)] {
        assert_eq!(unpack(library, part, rooms, 2, progress), Told::refused(14), "the frame's part to {rooms:?}");
    }
    let (mut list, mut rings) = ([7; 17], [9; 3]);
    library.unpack(part, &mut list, &mut rings);
    assert_eq!((&list[..16], list[16], rings), (&FRAMED[..], 7, [4, 4, 9]));
    // drawing L is one ring of 6
    let mut rings = [9; 2];
    assert_eq!(library.unpack(&JOB[3..], &mut list[..12], &mut rings), Told::done(&[6, 1]));
    assert_eq!((&list[..12], rings), (&L[..], [6, 9]));
}

/// The longest outline there is: eight rings of 4 corners, every number of three bytes.
fn longest_row(library: Library, progress: &Progress) {
    let longest = Drawing { corners: vec![65_535; 64], rings: vec![4; 8] };
    let mut out = [0; 202];
    assert_eq!(library.write_outline(&longest, &mut out[..201]), Told::refused(14));
    assert_eq!(library.write_outline(&longest, &mut out), Told::done(&[202]));
    assert_eq!(unpack(library, &out, (64, 8), 3, progress), Told::done(&[32, 8]));
}

/// Rings of 28 and 4 corners that are all at (0, 0): read as a job, refused by 4 as a figure.
fn zeros_row(library: Library, s: &mut Seeded, progress: &Progress) {
    let bytes = [&JOB[..3], &[0x00, 0x02, 0x1C], &[0; 56], &[0x04], &[0; 8]].concat();
    assert_eq!(ask(library, &bytes, s, progress), Told::done(&[25, 40, 1]));
    let drawing = &job(&bytes).unwrap().outlines[0].1;
    assert_eq!(library.fracture(drawing, 25, 40, &mut [0; 1], &mut [0; 1]), Told::refused(4));
}

/// The writers with buffers of every length.
pub fn writers(plan: &Plan, progress: &Progress) {
    let Some(library) = plan.library else { return };
    let mut count = 0;
    let marks = marks(260, 3);
    let values = [0, 1, 127, 128, 129, 255, 256, 999, 1000, 1001, 16_383, 16_384, u32::MAX];
    for threshold in values {
        for weight in values {
            for outlines in values {
                for length in 0..9 {
                    write(library, &marks[..length], progress, &|calls, out| calls.write_header(threshold, weight, outlines, out));
                    count += 1;
                }
            }
        }
    }
    for length in 0..=70 {
        let list: Vec<u16> = (0..length as u16).map(|n| n.wrapping_mul(9973)).collect();
        // as one ring, as two, as rings of 4, and with no length at all
        let (half, one, fours) = (length as u16 / 4, length as u16 / 2, length / 8);
        for rings in [vec![one], vec![half, one - half], vec![4; fours], vec![]] {
            let drawing = Drawing { corners: list.clone(), rings };
            write(library, &marks, progress, &|calls, out| calls.write_outline(&drawing, out));
            count += 1;
        }
    }
    for seed in 0..2000 {
        let mut s = Seeded::new(plan.seed << 32 | 0xbad << 16 | seed);
        let drawing = figures::bad(&mut s);
        let room = s.pick(&[0, 8, 202, 260]);
        write(library, &marks[..room], progress, &|calls, out| calls.write_outline(&drawing, out));
        count += 1;
    }
    for seed in 0..300 {
        let mut s = Seeded::new(plan.seed << 32 | 0x3717 << 16 | seed);
        let drawing = outline(&mut s);
        let part = written_outline(&drawing);
        for length in (0..=part.len() + 2).rev() {
            write(library, &marks[..length], progress, &|calls, out| calls.write_outline(&drawing, out));
            count += 1;
        }
        // and back, into lists of every length; both around their limits at once
        let (numbers, rings) = (drawing.corners.len(), drawing.rings.len());
        let lists = (0..=numbers + 2).map(|length| (length, rings));
        let ring_lists = (0..=rings + 2).map(|length| (numbers, length));
        let around = (numbers - 2..=numbers + 2).flat_map(|n| (0..=rings + 2).map(move |r| (n, r)));
        for rooms in lists.chain(ring_lists).chain(around) {
            let told = unpack(library, &part, rooms, seed, progress);
            assert_eq!(told.number, if rooms.0 < numbers || rooms.1 < rings { 14 } else { 0 }, "{drawing:?} to {rooms:?}");
            count += 1;
        }
    }
    progress.done(format!("writers and unpacking, buffers of every length: {count} calls"));
}

fn write(library: Library, marks: &[u8], progress: &Progress, call: &dyn Fn(&dyn Calls, &mut [u8]) -> Told) {
    lend_both(library, marks, &|| format!("a writer with {} bytes", marks.len()), call);
    progress.same();
}

/// Unpacks a part to lists of these lengths, for corners and for rings; gives the answer.
fn unpack(library: Library, part: &[u8], lengths: (usize, usize), seed: u64, progress: &Progress) -> Told {
    let (held, held_rings) = (marks(lengths.0, seed), marks(lengths.1, !seed));
    let (mut right, mut list) = (Room::new(&held), Room::new(&held));
    let (mut right_rings, mut rings) = (Room::new(&held_rings), Room::new(&held_rings));
    let wanted = Law.unpack(part, right.lent(), right_rings.lent());
    let told = library.unpack(part, list.lent(), rings.lent());
    let said = || format!("unpacking {part:x?} to {lengths:?}");
    assert!(told == wanted, "{}: {told:?} and not {wanted:?}", said());
    assert!(right.differs(&list).is_none(), "{} left {:?}, not {:?}", said(), list.held(), right.held());
    assert!(
        right_rings.differs(&rings).is_none(),
        "{} left ring lengths {:?}, not {:?}",
        said(),
        rings.held(),
        right_rings.held()
    );
    progress.same();
    told
}

/// All that can be asked of the bytes of a job.
fn ask(library: Library, bytes: &[u8], s: &mut Seeded, progress: &Progress) -> Told {
    let right = Law.job_check(bytes);
    let told = library.job_check(bytes);
    assert!(told == right, "job {bytes:x?}: {told:?} and not {right:?}");
    let count = right.numbers[2] as usize;
    let mut ks = vec![0, count.saturating_sub(1), count, count + 1, s.within(0, 256), usize::MAX];
    ks.dedup();
    for k in ks {
        let (right, told) = (Law.job_outline(bytes, k), library.job_outline(bytes, k));
        assert!(told == right, "outline {k} of {bytes:x?}: {told:?} and not {right:?}");
        progress.same();
        if right.number == 0 {
            let part = right.numbers[0] as usize..(right.numbers[0] + right.numbers[1]) as usize;
            let rooms = s.pick(&[(64, 8), (64, 8), (64, 8), (66, 9), (7, 8), (64, 1)]);
            unpack(library, &bytes[part], rooms, k as u64, progress);
        }
    }
    for _ in 0..2 {
        let at = s.within(0, bytes.len() + 1);
        let (right, told) = (Law.number(bytes, at), library.number(bytes, at));
        assert!(told == right, "number at {at} of {bytes:x?}: {told:?} and not {right:?}");
        progress.same();
        let (from, to) = (s.within(0, bytes.len()), s.within(0, bytes.len()));
        unpack(library, &bytes[from.min(to)..from.max(to)], (64, 8), 5, progress);
    }
    progress.same();
    right
}

/// A sound job reads back the same, and writing anew what it says gives its bytes.
fn round_trip(library: Library, bytes: &[u8]) {
    let read = job(bytes).expect("a sound job");
    let mut again = [0u8; 4200];
    let written = |told: Told| {
        assert_eq!(told.number, 0);
        told.numbers[0] as usize
    };
    let mut at = written(library.write_header(read.threshold, read.weight, read.outlines.len() as u32, &mut again));
    for (k, (_, drawing)) in read.outlines.iter().enumerate() {
        let told = library.job_outline(bytes, k);
        assert_eq!(told.number, 0);
        let part = told.numbers[0] as usize..(told.numbers[0] + told.numbers[1]) as usize;
        let (mut corners, mut rings) = ([0u16; 64], [0u16; 8]);
        let [count, ring_count, ..] = library.unpack(&bytes[part], &mut corners, &mut rings).numbers;
        let unpacked =
            Drawing { corners: corners[..2 * count as usize].to_vec(), rings: rings[..ring_count as usize].to_vec() };
        assert_eq!(&unpacked, drawing);
        at += written(library.write_outline(&unpacked, &mut again[at..]));
    }
    assert_eq!(&again[..at], bytes);
}

/// A job of 255 outlines and exactly so many bytes: its coordinates take one byte, then two or three
/// as long as bytes are wanted.
fn job_of(total: usize, s: &mut Seeded) -> Vec<u8> {
    let mut job = header(0, 0, 255);
    let mut more = total - job.len() - 255 * 9;
    for _ in 0..255 {
        let mut drawing = small(s);
        for place in drawing.corners.iter_mut() {
            let extra = more.min(2);
            *place = [*place, 300, 60_000][extra];
            more -= extra;
        }
        job.extend(written_outline(&drawing));
    }
    assert_eq!(job.len(), total);
    job
}

/// Jobs of 4,090 to 4,100 bytes, and of up to 255 outlines, with rings up to 204.
pub fn limits(plan: &Plan, progress: &Progress) {
    let Some(library) = plan.library else { return };
    let mut s = Seeded::new(plan.seed << 32 | 0x1141);
    for total in 4090..=4100 {
        let told = ask(library, &job_of(total, &mut s), &mut s, progress);
        assert_eq!(told.number, if total > 4096 { 12 } else { 0 });
    }
    for count in [0, 1, 127, 128, 254, 255] {
        let mut job = header(1000, 1000, count);
        for _ in 0..count {
            job.extend(written_outline(&small(&mut s)));
        }
        assert_eq!(ask(library, &job, &mut s, progress).number, 0);
        round_trip(library, &job);
    }
    // K counts figures, not rings: frames with windows as far as they fit, and one too many
    for count in [1, 127, 128, 204] {
        let job = [header(25, 40, count), FRAMED_JOB[3..].repeat(count as usize)].concat();
        assert_eq!(ask(library, &job, &mut s, progress), Told::done(&[25, 40, count as u64]));
        round_trip(library, &job);
    }
    let long = [header(25, 40, 205), FRAMED_JOB[3..].repeat(205)].concat();
    assert_eq!(ask(library, &long, &mut s, progress), Told::refused(12));
    for bytes in [vec![], vec![0; 4096], vec![0; 4097], vec![0x80; 5000], vec![0xff; 70_000], JOB.to_vec()] {
        ask(library, &bytes, &mut s, progress);
    }
    progress.done("jobs of 4,090 to 4,100 bytes, of up to 255 outlines, and of up to 204 with rings".into());
}

/// Outlines to damage at every byte: two rings and eight, numbers of one byte and of three, all 32
/// corners and an odd V.
fn ringed_parts(s: &mut Seeded) -> Vec<Drawing> {
    let framed = Drawing { corners: FRAMED.to_vec(), rings: vec![4, 4] };
    let wide = Drawing { corners: (0..64).map(|n| 65_535 - n * 300).collect(), rings: vec![4; 8] };
    let uneven = Drawing { corners: (0..58).map(|n| n * 5).collect(), rings: vec![5, 7, 4, 13] };
    let full = Drawing { corners: vec![0; 64], rings: vec![28, 4] };
    vec![framed, wide, uneven, full, figures::of_sort(s, figures::LAYOUT_LIKE)]
}

/// Jobs of one outline with rings: every byte set to every value, ended at every length, and with
/// every byte behind; each read as a job, and its outline unpacked as a part.
pub fn every_byte(plan: &Plan, progress: &Progress) {
    let Some(library) = plan.library else { return };
    let mut s = Seeded::new(plan.seed << 32 | 0xeb17);
    let head = header(25, 40, 1);
    let mut jobs: Vec<Vec<u8>> = Vec::new();
    for drawing in ringed_parts(&mut s) {
        let job = [&head[..], &written_outline(&drawing)].concat();
        assert_eq!(ask(library, &job, &mut s, progress).number, 0);
        round_trip(library, &job);
        jobs.push(job);
    }
    // two outlines, the second of one ring
    jobs.push([header(25, 40, 2), FRAMED_JOB[3..].to_vec(), written_outline(&Drawing::outline(&L))].concat());
    let damages: Vec<(usize, usize)> = jobs
        .iter()
        .enumerate()
        .flat_map(|(which, job)| (0..=job.len()).map(move |at| (which, at)))
        .collect();
    let tally = Tally::new();
    plan.turns("every byte", damages.len(), progress, |turn| {
        let (which, at) = damages[turn];
        let job = &jobs[which];
        let mut s = Seeded::new(plan.seed << 32 | 0xeb18 << 16 | (which << 10 | at) as u64);
        let mut all_of = |bytes: &[u8]| {
            let told = ask(library, bytes, &mut s, progress);
            tally.told(told.number);
            // one byte form: what is still sound is written back to the same bytes
            if told.number == 0 {
                round_trip(library, bytes);
            }
            let part = bytes.get(head.len()..).unwrap_or(&[]);
            unpack(library, part, (64, 8), at as u64, progress);
        };
        all_of(&job[..at]);
        for byte in 0..=255 {
            // at the end of the job this is a byte behind it
            let rest = job.get(at + 1..).unwrap_or(&[]);
            all_of(&[&job[..at], &[byte], rest].concat());
        }
    });
    tally.all_shown(&[0, 8, 9, 10, 11], true);
    progress.done(format!(
        "{} jobs with rings, every byte set to every value: {} jobs, answers by number {tally}",
        jobs.len(),
        tally.sum()
    ));
}

/// Sound jobs, and each of them damaged at every byte in one way after the other.
pub fn damaged(plan: &Plan, progress: &Progress) {
    let Some(library) = plan.library else { return };
    let (next, done) = (AtomicUsize::new(0), AtomicUsize::new(0));
    let tally = Tally::new();
    // until so many damaged jobs were asked, and not so many turns: sound jobs are of every length
    let thread = || {
        while done.load(Ordering::Relaxed) < plan.jobs {
            let asked = damaged_of(library, plan.seed, next.fetch_add(1, Ordering::Relaxed) as u64, &tally, progress);
            let count = done.fetch_add(asked, Ordering::Relaxed);
            progress.at("damaged jobs", count, plan.jobs);
        }
    };
    std::thread::scope(|scope| {
        for _ in 0..plan.threads {
            scope.spawn(&thread);
        }
    });
    let jobs = next.into_inner();
    // the two worked jobs, in every way at every byte, show these already
    tally.all_shown(&[0, 8, 9, 10, 11], plan.jobs > 0);
    progress.done(format!(
        "{jobs} sound jobs, seeds 0 to {} under {}, and {} damaged ones: answers by number {tally}",
        jobs - 1,
        plan.seed,
        tally.sum()
    ));
}

/// The sound job of a seed (of the first two the worked ones), and what it is damaged to; gives how many.
fn damaged_of(library: Library, plan_seed: u64, seed: u64, tally: &Tally, progress: &Progress) -> usize {
    let mut s = Seeded::new(plan_seed << 32 | 0x1051 << 16 | seed);
    let bytes = match seed {
        0 => JOB.to_vec(),
        1 => FRAMED_JOB.to_vec(),
        _ => sound(&mut s),
    };
    assert_eq!(ask(library, &bytes, &mut s, progress).number, 0, "sound job, seed {seed}");
    round_trip(library, &bytes);
    // the worked examples in every way at every byte, the others in one way each
    let ways = if bytes.len() < 60 { DAMAGES } else { 1 };
    let step = 1 + bytes.len() / 400;
    for at in (0..=bytes.len()).step_by(step) {
        for turn in 0..ways {
            let way = if ways > 1 { turn } else { s.below(DAMAGES) };
            let new = damage(&mut s, &bytes, at, way);
            tally.told(ask(library, &new, &mut s, progress).number);
        }
    }
    (bytes.len() / step + 1) * ways
}
