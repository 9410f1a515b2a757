//! CIF texts compared: Item 12's rows, texts damaged at every byte and cut at every length, buffers and lists
//! of every length around the limit, lists from seeds and the lists of fractures; each with canaries.

use crate::fractures::fractured;
use crate::progress::{Progress, Tally};
use crate::room::{lend_both, marks};
use crate::{Library, Plan};
use drawings::seeded::Seeded;
use drawings::{shots, texts};
use law::Told;

const L: [u16; 8] = [0, 0, 60, 80, 60, 0, 100, 20];

/// Writes a list to a buffer of so many bytes, and gives the answer and the text.
fn write(library: Library, list: &[u16], room: usize, seed: u64, progress: &Progress) -> (Told, Vec<u8>) {
    let said = || format!("writing {list:?} to {room} bytes");
    let (told, out) = lend_both(library, &marks(room, seed), &said, |calls, out| calls.cif_write(list, out));
    progress.same();
    (told, out.held()[..told.numbers[0] as usize].to_vec())
}

/// Reads a text to a list of so many numbers, and gives the answer and the shots.
fn read(library: Library, text: &[u8], room: usize, seed: u64, progress: &Progress) -> (Told, Vec<u16>) {
    let said = || format!("reading {:?} to {room} numbers", String::from_utf8_lossy(text));
    let (told, list) = lend_both(library, &marks(room, seed), &said, |calls, list| calls.cif_read(text, list));
    progress.same();
    (told, list.held()[..4 * told.numbers[0] as usize].to_vec())
}

/// The rows of Item 12, held against its words and not against `law` alone.
pub fn rows(plan: &Plan, progress: &Progress) {
    let Some(library) = plan.library else { return };
    let written: [(&[u16], &str, usize); 6] = [
        (&[0, 0, 10, 10], "B 20 20 10 10;\n", 43),
        (&L, "B 120 160 60 80;\nB 80 40 160 20;\n", 61),
        (&[], "", 28),
        (&[0, 0, 65_535, 65_535], "B 131070 131070 65535 65535;\n", 57),
        (&[65_534, 0, 65_535, 1], "B 2 2 131069 1;\n", 44),
        (&[65_495, 0, 65_535, 20], "B 80 40 131030 20;\n", 47),
    ];
    for (list, boxes, bytes) in written {
        let whole = format!("DS 1 1 20;\nL NM;\n{boxes}DF;\nC 1;\nE\n");
        for room in (0..bytes + 4).chain([6_553]) {
            let (told, text) = write(library, list, room, 7, progress);
            if room < bytes {
                assert_eq!(told, Told::refused(14), "{list:?}");
            } else {
                assert_eq!((told, &text[..]), (Told::done(&[bytes as u64]), whole.as_bytes()), "{list:?}");
            }
        }
        for room in 0..list.len() + 6 {
            let (told, shots) = read(library, whole.as_bytes(), room, 7, progress);
            if room < list.len() {
                assert_eq!(told, Told::refused(14), "{whole:?}");
            } else {
                assert_eq!((told, &shots[..]), (Told::done(&[list.len() as u64 / 4]), list), "{whole:?}");
            }
        }
    }
    let bad: [&[u16]; 6] =
        [&[0, 0, 10], &[0, 0, 0, 10], &[10, 0, 0, 10], &[0, 7, 10, 7], &[0, 0, 10, 10, 5, 5, 5, 6], &[0, 0, 10, 10, 1]];
    for list in bad {
        for room in [0, 27, 28, 43, 70, 100] {
            assert_eq!(write(library, list, room, 3, progress).0, Told::refused(21), "{list:?}");
        }
    }
    faults(library, progress);
    progress.done("CIF: the rows of Item 12".into());
}

/// The table of faults: L's text with a change, and where 22 is.
fn faults(library: Library, progress: &Progress) {
    let whole = "DS 1 1 20;\nL NM;\nB 120 160 60 80;\nB 80 40 160 20;\nDF;\nC 1;\nE\n";
    let changes: [(&str, &str, u64); 25] = [
        ("E\n", "E", 59),
        ("E\n", "E;\n", 59),
        ("E\n", "E\n\n", 61),
        ("E\n", "E\nE\n", 61),
        (whole, "", 0),
        ("1 1 20", "1 1 10", 0),
        ("20;\n", "20;\r\n", 0),
        ("L NM", "L NN", 11),
        ("L NM;\n", "", 11),
        ("B 120", "B 0120", 17),
        ("B 120", "B  120", 17),
        ("B 120", "B 121", 17),
        ("B 120", "B 0", 17),
        ("B 120 160 60 80;", "B 120", 17),
        ("60 80;", "61 80;", 17),
        ("60 80;", "-60 80;", 17),
        ("60 80;", "58 80;", 17),
        ("60 80;", "60 80; ", 17),
        ("60 80;", "60 80 1 0;", 17),
        ("160 20;", "131032 20;", 34),
        ("160 20;", "99999999999999999999 20;", 34),
        ("160 20;", "160 18;", 34),
        ("DF;", "DF", 50),
        ("C 1;\n", "", 54),
        ("C 1", "C 2", 54),
    ];
    for (old, new, at) in changes {
        let text = whole.replacen(old, new, 1);
        for room in [0, 7, 8, 20] {
            assert_eq!(read(library, text.as_bytes(), room, 5, progress).0, Told::of(22, &[0, at]), "{text:?}");
        }
    }
    let stops = b"DS 1 1 20;\nL NM;\nDF;\n";
    assert_eq!(read(library, stops, 0, 5, progress).0, Told::of(22, &[0, 21]));
}

/// Some texts with each byte changed for every other, left out or said twice, and cut at every length.
pub fn every_byte(plan: &Plan, progress: &Progress) {
    let Some(library) = plan.library else { return };
    let lists: [&[u16]; 4] = [&[], &L, &[0, 0, 65_535, 65_535, 0, 0, 1, 1], &[9, 99, 10, 50_099, 0, 50_000, 50_000, 65_535]];
    let (mut sound, mut total) = (0, 0);
    for list in lists {
        let text = law::cif::text(list).into_bytes();
        let mut ask = |text: &[u8], seed: usize| {
            let (told, _) = read(library, text, list.len() + seed % 3, seed as u64, progress);
            sound += usize::from(told.number == 0);
            total += 1;
        };
        for at in 0..text.len() {
            ask(&text[..at], at);
            for byte in 0..=255 {
                let mut changed = text.clone();
                changed[at] = byte;
                ask(&changed, at);
            }
            let mut shorter = text.clone();
            shorter.remove(at);
            ask(&shorter, at);
            let mut longer = text.clone();
            longer.insert(at, text[at]);
            ask(&longer, at);
        }
    }
    assert!(sound > 0 && sound < total, "texts of one sort alone");
    progress.done(format!("CIF: {total} texts damaged at every byte and cut at every length, {sound} of them sound"));
}

/// A list as long as a divided layer has, written and read.
pub fn longest(plan: &Plan, progress: &Progress) {
    let Some(library) = plan.library else { return };
    let place = |n: u32| (n * 199) as u16;
    let list: Vec<u16> = (0..329 * 329)
        .flat_map(|n| [place(n % 329), place(n / 329), place(n % 329 + 1), place(n / 329 + 1)])
        .collect();
    let (_, text) = write(library, &list, 29 * list.len(), 1, progress);
    assert_eq!(read(library, &text, list.len(), 1, progress), (Told::done(&[list.len() as u64 / 4]), list.clone()));
    assert_eq!(write(library, &list, text.len() - 1, 1, progress).0, Told::refused(14));
    assert_eq!(read(library, &text, list.len() - 1, 1, progress).0, Told::refused(14));
    assert_eq!(read(library, &text[..text.len() - 1], 0, 1, progress).0, Told::of(22, &[0, text.len() as u64 - 2]));
    progress.done(format!("CIF: {} shots in {} bytes", list.len() / 4, text.len()));
}

/// Lists from seeds, and the lists of fractures, written and read back; then their texts damaged.
pub fn lists(plan: &Plan, progress: &Progress) {
    let Some(library) = plan.library else { return };
    let total = plan.jobs;
    let tally = Tally::new();
    plan.turns("CIF texts", total, progress, |turn| {
        let mut s = Seeded::new(plan.seed << 32 | 0xc1f0 << 16 | turn as u64);
        let list = if turn % 8 == 0 { fractured(&mut s, library) } else { shots::any(&mut s) };
        written(library, &mut s, &list, turn as u64, &tally, progress);
    });
    tally.all_shown(&[0, 14, 21, 22], total >= 10_000);
    progress.done(format!("CIF: {total} lists from seeds, their texts read back and damaged; answers by number {tally}"));
}

/// One list: written with room around the limit, read back, and read damaged.
fn written(library: Library, s: &mut Seeded, list: &[u16], seed: u64, tally: &Tally, progress: &Progress) {
    let bytes = if law::cif::bad_shots(list) { 40 } else { law::cif::text(list).len() };
    let few = s.below(bytes + 1);
    let room = s.pick(&[bytes, bytes, bytes - 1, bytes + 1, 6_553.max(bytes), few]);
    let (told, text) = write(library, list, room, seed, progress);
    tally.told(told.number);
    if told.number != 0 {
        return;
    }
    let few = s.below(list.len() + 1);
    let room = s.pick(&[list.len(), list.len(), list.len() + 1, list.len() + 9, few]);
    let (told, back) = read(library, &text, room, seed, progress);
    assert!(told.number == 14 || back == list, "{list:?} was read back as {back:?}");
    tally.told(told.number);
    let way = s.below(texts::DAMAGES);
    let spoilt = texts::damaged(s, &text, way);
    tally.told(read(library, &spoilt, room, seed, progress).0.number);
}
