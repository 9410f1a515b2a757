//! The index beside a job compared: the worked rows, buffers of every length around the limits, indexes that are not
//! true, and histories of a thousand calls each, refused ones among them, from jobs of no outline up to 255 and back.

use crate::progress::Progress;
use crate::room::{lend_both, marks, Room};
use crate::{Library, Plan};
use drawings::document::{FRAMED, L};
use drawings::figures;
use drawings::jobs::{damaged, outline, small, sound, DAMAGES};
use drawings::seeded::Seeded;
use law::bytes::{header, job, written_outline};
use law::{Calls, Drawing, Law, Told};
use std::sync::Mutex;

fn unit() -> Drawing {
    Drawing::outline(&[0, 0, 1, 0, 1, 1, 0, 1])
}

fn framed() -> Drawing {
    Drawing { corners: FRAMED.to_vec(), rings: vec![4, 4] }
}

/// J of Item 10: L, the frame with a window, the unit square.
pub fn worked_job() -> Vec<u8> {
    [header(25, 40, 3), written_outline(&Drawing::outline(&L)), written_outline(&framed()), written_outline(&unit())].concat()
}

/// What an index holds before a call. It is asked about too: a pick by a count that is not true reads it.
fn index_marks(length: usize, seed: u64) -> Vec<u16> {
    (0..length).map(|n| (n as u16).wrapping_mul(40_503) ^ seed as u16).collect()
}

/// A job, its index with all that it holds, and its count.
struct State {
    job: Vec<u8>,
    index: Vec<u16>,
    count: usize,
}

/// Asks both to open a job; the answer, and the index afterwards.
fn open(library: Library, job: &[u8], index: &[u16], progress: &Progress) -> (Told, Vec<u16>) {
    let said = || format!("opening {job:x?} with {} entries", index.len());
    let (told, index) = lend_both(library, index, &said, |calls, index| calls.index_open(job, index));
    progress.same();
    (told, index.held().to_vec())
}

/// What is done to a job.
enum Change<'a> {
    Append(&'a Drawing),
    Remove(usize),
}

impl Change<'_> {
    fn call(&self, calls: &dyn Calls, job: &[u8], index: &mut [u16], out: &mut [u8]) -> Told {
        match self {
            Change::Append(drawing) => calls.index_append(job, drawing, index, out),
            Change::Remove(k) => calls.index_remove(job, *k, index, out),
        }
    }

    fn said(&self) -> String {
        match self {
            Change::Append(drawing) => format!("appending {drawing:?}"),
            Change::Remove(k) => format!("removing {k}"),
        }
    }
}

/// Asks both for a change; the answer, and index and buffer afterwards.
fn change(library: Library, by: Change, job: &[u8], index: &[u16], room: usize, progress: &Progress) -> (Told, Vec<u16>, Vec<u8>) {
    let marks = marks(room, job.len() as u64);
    let (mut right_index, mut ours) = (Room::new(index), Room::new(index));
    let (mut right_out, mut out) = (Room::new(&marks), Room::new(&marks));
    let right = by.call(&Law, job, right_index.lent(), right_out.lent());
    let told = by.call(library, job, ours.lent(), out.lent());
    let said = || format!("{} of {job:x?} with {} entries and {room} bytes", by.said(), index.len());
    assert!(told == right, "{}: {told:?} and not {right:?}", said());
    assert!(right_index.differs(&ours).is_none(), "{} left the index {:?}, not {:?}", said(), ours.held(), right_index.held());
    assert!(right_out.differs(&out).is_none(), "{} left {:x?}, not {:x?}", said(), out.held(), right_out.held());
    if right.number > 0 {
        assert!(ours.held() == index && out.held() == marks, "{}: refused, and not unchanged", said());
    }
    progress.same();
    (right, ours.held().to_vec(), out.held().to_vec())
}

fn pick(library: Library, job: &[u8], index: &[u16], count: usize, k: usize, progress: &Progress) -> Told {
    let right = Law.index_pick(job, index, count, k);
    let told = library.index_pick(job, index, count, k);
    assert!(told == right, "picking {k} of {job:x?} by {index:?}, {count}: {told:?} and not {right:?}");
    progress.same();
    right
}

/// The index is what a full reading gives, entry by entry, and a pick by it is the outline.
fn true_index(library: Library, state: &State, progress: &Progress) {
    let read = job(&state.job).expect("a sound job");
    assert_eq!(read.outlines.len(), state.count);
    for (k, (part, _)) in read.outlines.iter().enumerate() {
        assert_eq!(state.index[k] as usize, part.start, "entry {k} of {:x?}", state.job);
    }
    for k in [0, state.count / 2, state.count.saturating_sub(1), state.count] {
        let told = pick(library, &state.job, &state.index, state.count, k, progress);
        assert_eq!(told, Law.job_outline(&state.job, k), "pick {k} of {:x?}", state.job);
    }
}

/// Appends or removes with ample room, and goes on from there.
fn on(library: Library, state: &mut State, by: Change, progress: &Progress) {
    let (told, index, out) = change(library, by, &state.job, &state.index, 4096, progress);
    assert_eq!(told.number, 0);
    *state = State { job: out[..told.numbers[0] as usize].to_vec(), index, count: told.numbers[1] as usize };
    true_index(library, state, progress);
}

/// Item 10's worked rows, against the numbers that its design gives.
pub fn rows(plan: &Plan, progress: &Progress) {
    let Some(library) = plan.library else { return };
    let whole = worked_job();
    assert_eq!(whole.len(), 45);
    let held = index_marks(5, 9);
    let (told, index) = open(library, &whole, &held, progress);
    assert_eq!((told, &index[..]), (Told::done(&[3]), &[3, 16, 36, held[3], held[4]][..]));
    for room in 0..6 {
        let (told, _) = open(library, &whole, &index_marks(room, 3), progress);
        assert_eq!(told, if room < 3 { Told::refused(14) } else { Told::done(&[3]) });
    }
    for (k, part) in [(0, [3, 13]), (1, [16, 20]), (2, [36, 9])] {
        assert_eq!(pick(library, &whole, &index, 3, k, progress), Told::done(&part));
    }
    for (entries, count, k) in [(5, 3, 3), (5, 3, usize::MAX), (2, 3, 2), (0, 3, 0), (5, 0, 0), (3, usize::MAX, 3)] {
        assert_eq!(pick(library, &whole, &index[..entries], count, k, progress), Told::refused(13));
    }
    let (told, after, out) = change(library, Change::Remove(1), &whole, &index, 60, progress);
    assert_eq!((told, &after[..]), (Told::done(&[25, 2]), &[3, 16, 36, held[3], held[4]][..]));
    assert_eq!(&out[..25], &[&[0x19, 0x28, 2][..], &whole[3..16], &whole[36..]].concat()[..]);
    let (told, after, out) = change(library, Change::Append(&unit()), &whole, &index, 60, progress);
    assert_eq!((told, &after[..]), (Told::done(&[54, 4]), &[3, 16, 36, 45, held[4]][..]));
    assert_eq!(&out[..54], &[&[0x19, 0x28, 4][..], &whole[3..], &whole[36..]].concat()[..]);
    for (k, right) in [(3, 13), (usize::MAX, 13), (2, 0)] {
        assert_eq!(change(library, Change::Remove(k), &whole, &index, 60, progress).0.number, right);
    }
    // room of every length for both buffers
    for entries in 0..6 {
        for room in 0..60 {
            let (told, ..) = change(library, Change::Append(&unit()), &whole, &index_marks(entries, 5), room, progress);
            assert_eq!(told.number, if room < 54 || entries < 4 { 14 } else { 0 });
            let (told, ..) = change(library, Change::Remove(0), &whole, &index_marks(entries, 5), room, progress);
            assert_eq!(told.number, if room < 32 || entries < 2 { 14 } else { 0 });
        }
    }
    // an index that is not true
    for (entry, right) in [
        (18, Told::done(&[18, 9])),
        (17, Told::of(10, &[0, 0, 17])),
        (45, Told::of(8, &[0, 0, 45])),
        (60_000, Told::of(8, &[0, 0, 45])),
        (65_535, Told::of(8, &[0, 0, 45])),
    ] {
        assert_eq!(pick(library, &whole, &[0, entry], 2, 1, progress), right);
    }
    let long = vec![0; 4097];
    for (count, k) in [(3, 0), (3, 7), (0, 0)] {
        assert_eq!(pick(library, &long, &index, count, k, progress), Told::refused(12));
    }
    passing_127(library, progress);
    full(library, progress);
    progress.done("indexes: the worked rows, buffers of every length, untrue entries, K across 127 and at 255".into());
}

/// 127 unit squares and L behind them: the header grows by a byte, and shrinks again.
fn passing_127(library: Library, progress: &Progress) {
    let job = [header(25, 40, 127), written_outline(&unit()).repeat(127)].concat();
    assert_eq!(job.len(), 1146);
    let (told, index) = open(library, &job, &index_marks(255, 1), progress);
    assert_eq!(told, Told::done(&[127]));
    assert!((0..127).all(|k| index[k] as usize == 3 + 9 * k));
    let mut state = State { job, index, count: 127 };
    on(library, &mut state, Change::Append(&Drawing::outline(&L)), progress);
    assert_eq!((state.job.len(), &state.job[..5]), (1160, &[0x19, 0x28, 0x80, 0x01, 0x04][..]));
    assert!((0..128).all(|k| state.index[k] as usize == 4 + 9 * k));
    on(library, &mut state, Change::Remove(0), progress);
    assert_eq!((state.job.len(), &state.job[..3]), (1150, &[0x19, 0x28, 0x7f][..]));
    assert!((0..127).all(|k| state.index[k] as usize == 3 + 9 * k));
}

/// 255 outlines, and a job that would pass 4,096 bytes.
fn full(library: Library, progress: &Progress) {
    let job = [header(25, 40, 255), written_outline(&unit()).repeat(255)].concat();
    let short = Drawing { corners: unit().corners, rings: vec![3] };
    for (entries, room) in [(0, 0), (255, 4096), (300, 5000)] {
        let index = index_marks(entries, 7);
        assert_eq!(change(library, Change::Append(&unit()), &job, &index, room, progress).0, Told::refused(20));
        assert_eq!(change(library, Change::Append(&short), &job, &index, room, progress).0, Told::refused(2));
    }
    let wide = Drawing::outline(&[65_535; 64]);
    let job = [header(25, 40, 21), written_outline(&wide).repeat(21)].concat();
    assert_eq!(job.len(), 4056);
    for (entries, room) in [(0, 0), (255, 4096), (255, 5000)] {
        let index = index_marks(entries, 8);
        assert_eq!(change(library, Change::Append(&wide), &job, &index, room, progress).0, Told::refused(12));
    }
    // up to the last byte: 4,096 bytes are taken, one more is not
    for (bytes, number) in [(40, 0), (41, 12)] {
        let figure = filling(bytes);
        assert_eq!(written_outline(&figure).len(), bytes);
        assert_eq!(change(library, Change::Append(&figure), &job, &index_marks(255, 2), 4096, progress).0.number, number);
    }
}

/// One ring of 16 corners whose bytes are so many.
fn filling(bytes: usize) -> Drawing {
    let mut corners = vec![0u16; 32];
    let mut more = bytes - 33;
    for place in corners.iter_mut() {
        let extra = more.min(2);
        *place = [0, 300, 60_000][extra];
        more -= extra;
    }
    Drawing::outline(&corners)
}

/// How a history goes: growing to many small outlines, shrinking, or about as many of each.
fn next_change(s: &mut Seeded, count: usize, growing: bool) -> bool {
    match (growing, s.below(10)) {
        (true, 0) | (false, 1..) => count == 0,
        _ => true,
    }
}

/// What to append: mostly small, so that many fit; now and then any outline, or one that 2 refuses.
fn any_drawing(s: &mut Seeded) -> Drawing {
    match s.below(40) {
        0 => figures::bad(s),
        1 => outline(s),
        2 => framed(),
        _ => small(s),
    }
}

/// One history: a thousand calls from an opened job, each compared. Gives how often K passed 127 upwards and
/// downwards, and how many calls were refused.
fn history(library: Library, seed: u64, progress: &Progress) -> [usize; 3] {
    let mut s = Seeded::new(seed);
    let start = match s.below(4) {
        0 => header(s.within(0, 1000) as u32, s.within(0, 1000) as u32, 0),
        1 => [header(7, 9, 126), written_outline(&unit()).repeat(126)].concat(),
        2 => [header(7, 9, 255), written_outline(&unit()).repeat(255)].concat(),
        _ => sound(&mut s),
    };
    let (told, index) = open(library, &start, &index_marks(260, seed), progress);
    assert_eq!(told.number, 0);
    let mut state = State { job: start, index, count: told.numbers[0] as usize };
    let mut counts = [0; 3];
    let mut growing = s.once_in(2);
    for _ in 0..1000 {
        if state.count >= 255 || (state.count == 0 && !growing) || s.once_in(300) {
            growing = state.count < 200 && (state.count == 0 || s.once_in(2));
        }
        match s.below(20) {
            // a refused call leaves the job and its index
            0 => {
                let (at, way) = (s.within(0, state.job.len()), s.below(DAMAGES));
                let broken = damaged(&mut s, &state.job, at, way);
                let (_, index) = open(library, &broken, &state.index, progress);
                if Law.job_check(&broken).number > 0 {
                    assert_eq!(index, state.index);
                    counts[2] += 1;
                }
                let any = any_drawing(&mut s);
                change(library, Change::Append(&any), &broken, &state.index, 4096, progress);
                change(library, Change::Remove(s.within(0, 255)), &broken, &state.index, 4096, progress);
            }
            1 => {
                let room = s.within(0, state.job.len());
                let entries = s.within(0, state.count);
                let by = any_drawing(&mut s);
                let (told, ..) = change(library, Change::Append(&by), &state.job, &state.index[..entries], room, progress);
                assert!(told.number > 0);
                counts[2] += 1;
            }
            2 => {
                let k = s.pick(&[state.count, 255, usize::MAX]);
                let told = change(library, Change::Remove(k.max(state.count)), &state.job, &state.index, 4096, progress).0;
                assert_eq!(told, Told::refused(13));
                counts[2] += 1;
            }
            // entries that are not true, counts and places of every kind
            3 => {
                let mut lying = state.index.clone();
                let at = s.below(lying.len());
                lying[at] = s.pick(&[0, 1, state.job.len() as u16, 4096, 65_535]).wrapping_add(s.below(7) as u16);
                let count = s.pick(&[state.count, 0, 255, usize::MAX]);
                for k in [at, 0, state.count, 259, 260, usize::MAX] {
                    pick(library, &state.job, &lying, count, k, progress);
                }
            }
            _ => {
                let before = state.count;
                let by_append = next_change(&mut s, state.count, growing);
                let drawing = any_drawing(&mut s);
                let k = if state.count == 0 { 0 } else { s.below(state.count) };
                let by = if by_append { Change::Append(&drawing) } else { Change::Remove(k) };
                let (told, index, out) = change(library, by, &state.job, &state.index, 4096, progress);
                if told.number == 0 {
                    state = State { job: out[..told.numbers[0] as usize].to_vec(), index, count: told.numbers[1] as usize };
                } else {
                    assert_eq!(index, state.index);
                    counts[2] += 1;
                    growing = told.number == 2 && growing;
                }
                counts[0] += usize::from(before == 127 && state.count == 128);
                counts[1] += usize::from(before == 128 && state.count == 127);
            }
        }
        true_index(library, &state, progress);
    }
    counts
}

/// Histories of a thousand calls each.
pub fn histories(plan: &Plan, progress: &Progress) {
    let Some(library) = plan.library else { return };
    let count = (plan.jobs / 3000).clamp(8, 40);
    let tally = Mutex::new([0usize; 3]);
    plan.turns("histories", count, progress, |turn| {
        let mine = history(library, plan.seed << 32 | 0x1de8 << 16 | turn as u64, progress);
        tally.lock().unwrap().iter_mut().zip(mine).for_each(|(sum, mine)| *sum += mine);
    });
    let [up, down, refused] = tally.into_inner().unwrap();
    assert!(up > 0 && down > 0 && refused > 0, "no history passed K = 127 both ways: {up}, {down}, {refused} refused");
    progress.done(format!(
        "{count} histories of a thousand calls on an index: K passed 127 {up} times upwards and {down} downwards, {refused} calls refused"
    ));
}
