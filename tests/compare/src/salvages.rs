//! Saving what is left of a job compared: the worked rows, and the worked job and jobs from seeds cut at every length, with
//! every byte set to some values, with a byte behind, and damaged at every byte.

use crate::indexes::worked_job;
use crate::progress::Progress;
use crate::room::{lend_both, marks};
use crate::{Library, Plan};
use drawings::jobs::{damaged as damage, sound, DAMAGES};
use drawings::seeded::Seeded;
use law::bytes::{header, job};
use law::Told;

/// Asks both with a buffer of this length; the answer, and the bytes written. What is written is a sound job whose
/// outlines are the first of what was read, and saving it again changes nothing.
fn ask(library: Library, bytes: &[u8], room: usize, progress: &Progress) -> (Told, Vec<u8>) {
    let marks = marks(room, bytes.len() as u64);
    let said = || format!("saving {bytes:x?} to {room}");
    let (right, out) = lend_both(library, &marks, &said, |calls, out| calls.salvage(bytes, out));
    progress.same();
    let written = out.held()[..right.numbers[0] as usize].to_vec();
    if right.number == 0 {
        let saved = job(&written).expect("what is saved is a sound job");
        assert_eq!(saved.outlines.len() as u64, right.numbers[1]);
        let mut again = [0; 4096];
        let told = library.salvage(&written, &mut again);
        assert_eq!(told, Told::done(&[written.len() as u64, right.numbers[1]]), "saving again {written:x?}");
        assert_eq!(&again[..written.len()], &written[..]);
        if let Ok(whole) = job(bytes) {
            assert_eq!((&written[..], whole.outlines.len() as u64), (bytes, right.numbers[1]));
        }
    } else {
        assert_eq!(out.held(), &marks[..]);
    }
    (right, written)
}

/// Item 11's worked rows, against the numbers that its design gives.
pub fn rows(plan: &Plan, progress: &Progress) {
    let Some(library) = plan.library else { return };
    let whole = worked_job();
    let expect = |bytes: &[u8], kept: u64, lost: u64, dropped: u64, written: &[u8]| {
        let (told, out) = ask(library, bytes, 4096, progress);
        assert_eq!((told, &out[..]), (Told::done(&[written.len() as u64, kept, lost, dropped]), written), "{bytes:x?}");
    };
    let with = |at: usize, byte: u8| {
        let mut bytes = whole.clone();
        bytes[at] = byte;
        bytes
    };
    let first = |outlines: u8, end: usize| [&[0x19, 0x28, outlines], &whole[3..end]].concat();
    expect(&whole, 3, 0, 0, &whole);
    expect(&whole[..44], 2, 1, 8, &first(2, 36));
    expect(&with(27, 3), 1, 2, 29, &first(1, 16));
    let mut five = first(1, 14);
    five[3] = 5;
    expect(&with(3, 5), 1, 2, 31, &five);
    expect(&[&whole[..], &[1, 2]].concat(), 3, 0, 2, &whole);
    expect(&with(2, 5), 3, 2, 0, &whole);
    expect(&with(2, 2), 2, 0, 9, &first(2, 36));
    expect(&with(2, 0), 0, 0, 42, &first(0, 3));
    expect(&[0x19, 0x28, 3], 0, 3, 0, &[0x19, 0x28, 0]);
    let many = [&header(25, 40, 130)[..], &whole[36..].repeat(127), &whole[36..41]].concat();
    assert_eq!(many.len(), 1152);
    expect(&many, 127, 3, 5, &[&header(25, 40, 127)[..], &whole[36..].repeat(127)].concat());
    for (bytes, number, at) in
        [(&[0x19, 0x28][..], 8, 2), (&[], 8, 0), (&[0xe9, 0x07, 0x28, 0], 10, 1), (&[0x19, 0xa8, 0, 0], 9, 2)]
    {
        for room in [0, 4096] {
            assert_eq!(ask(library, bytes, room, progress).0, Told::of(number, &[0, 0, 0, 0, at]));
        }
    }
    for room in 0..50 {
        assert_eq!(ask(library, &whole[..44], room, progress).0.number, if room < 36 { 14 } else { 0 });
    }
    assert_eq!(ask(library, &[0; 4097], 0, progress).0, Told::refused(12));
    progress.done("salvage: the worked rows, buffers of every length".into());
}

/// Values that a broken byte takes.
const VALUES: [u8; 12] = [0, 1, 2, 3, 4, 5, 8, 33, 0x7f, 0x80, 0x81, 0xff];

/// The worked job and jobs from seeds: cut at every length, every byte and one behind set to each of some values, and
/// damaged at every byte in one of the ways. 80 jobs of seed 1, the longest of 2,301 bytes, are 549,318 calls.
pub fn damaged(plan: &Plan, progress: &Progress) {
    let Some(library) = plan.library else { return };
    let count = (plan.jobs / 1500).clamp(8, 80) as u64;
    let (mut asked, mut lost) = (0, 0);
    for seed in 0..count {
        let mut s = Seeded::new(plan.seed << 32 | 0x5a1e << 16 | seed);
        let bytes = if seed == 0 { worked_job() } else { sound(&mut s) };
        assert_eq!(ask(library, &bytes, 4096, progress).0.number, 0);
        for at in 0..=bytes.len() {
            let mut broken = vec![bytes[..at].to_vec()];
            broken.extend(VALUES.map(|value| [&bytes[..at], &[value], bytes.get(at + 1..).unwrap_or(&[])].concat()));
            let way = s.below(DAMAGES);
            broken.push(damage(&mut s, &bytes, at, way));
            for new in broken {
                let few = s.within(0, new.len());
                let told = ask(library, &new, s.pick(&[4096, 4096, 4096, few]), progress).0;
                asked += 1;
                lost += usize::from(told.numbers[2] > 0);
            }
        }
        progress.at("salvage", seed as usize, count as usize);
    }
    assert!(lost > 0);
    progress.done(format!("salvage: {count} jobs cut at every length, broken at every byte and with a byte behind: {asked} calls, {lost} with outlines lost"));
}
