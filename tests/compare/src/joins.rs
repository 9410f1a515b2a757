//! Joining compared: the scope's rows and one of the kind of Hoshi and Fujiyoshi's paper, tables of every length around the
//! limit, lists from seeds and the lists of fractures; the table entry by entry, field by field, with
//! canaries on either side.

use crate::fractures::fractured;
use crate::progress::{Progress, Tally};
use crate::room::{lend_both, marks};
use crate::{Library, Plan};
use drawings::seeded::Seeded;
use drawings::shots;
use law::joining::corners;
use law::Told;
use std::sync::atomic::{AtomicUsize, Ordering};

/// Joins a list in a table of so many entries, and gives the answer and the partners that the table has.
fn ask(library: Library, list: &[u16], entries: usize, seed: u64, progress: &Progress) -> (Told, Vec<usize>) {
    let said = || format!("joining {list:?} in {entries} entries");
    let (told, table) = lend_both(library, &marks(entries, seed), &said, |calls, table| calls.join(list, table));
    progress.same();
    let joined = if told.number == 0 { list.len() / 4 } else { 0 };
    (told, table.held()[..joined].iter().map(|e| e.partner).collect())
}

/// The rows: list, partners, flashes. Of the last, Figure 3 of Hoshi and Fujiyoshi's paper says that four rectangles take two
/// flashes; its text gives no sizes, so these are ours.
pub fn rows(plan: &Plan, progress: &Progress) {
    let Some(library) = plan.library else { return };
    let rows: [(&[u16], &[usize], u64); 8] = [
        (&[0, 0, 60, 80, 60, 0, 100, 20], &[1, 0], 1),
        (&[0, 0, 200, 50, 0, 50, 210, 150, 0, 150, 200, 200], &[1, 0, 2], 2),
        (&[0, 0, 10, 10, 10, 10, 20, 20], &[0, 1], 2),
        (&[0, 0, 10, 30, 10, 10, 20, 20], &[0, 1], 2),
        (&[0, 0, 10, 10, 10, 0, 20, 10, 20, 0, 30, 10], &[1, 0, 2], 2),
        (&[], &[], 0),
        (&[0, 0, 65_535, 1, 0, 1, 65_535, 65_535], &[1, 0], 1),
        (&[0, 0, 20, 60, 20, 0, 60, 20, 20, 40, 60, 60, 60, 20, 80, 60], &[1, 0, 3, 2], 2),
    ];
    for (list, partners, flashes) in rows {
        let shots = list.len() / 4;
        for entries in 0..shots + 4 {
            let (told, held) = ask(library, list, entries, 5, progress);
            if entries < shots {
                assert_eq!(told, Told::refused(14), "{list:?}");
            } else {
                assert_eq!((told, &held[..]), (Told::done(&[flashes]), partners), "{list:?}");
            }
        }
    }
    let bad: [&[u16]; 5] = [&[0, 0, 10], &[0, 0, 0, 10], &[10, 0, 0, 10], &[0, 7, 10, 7], &[0, 0, 10, 10, 5, 5, 6, 5]];
    for list in bad {
        for entries in 0..4 {
            assert_eq!(ask(library, list, entries, 5, progress).0, Told::refused(21), "{list:?}");
        }
    }
    progress.done("joining: the scope's rows".into());
}

/// Lists from seeds, and the lists of fractures, in tables around the limit.
pub fn lists(plan: &Plan, progress: &Progress) {
    let Some(library) = plan.library else { return };
    let total = plan.jobs;
    let tally = Tally::new();
    let (pairs, fours) = (AtomicUsize::new(0), AtomicUsize::new(0));
    plan.turns("lists of shots", total, progress, |turn| {
        let mut s = Seeded::new(plan.seed << 32 | 0x10f1 << 16 | turn as u64);
        let list = if turn % 8 == 0 { fractured(&mut s, library) } else { shots::any(&mut s) };
        let shots = list.len() / 4;
        let few = s.below(shots + 1);
        let entries = s.pick(&[shots, shots, shots + 1, shots + 20, few]);
        let (told, partners) = ask(library, &list, entries, turn as u64, progress);
        tally.told(told.number);
        for (i, &j) in partners.iter().enumerate().filter(|&(i, &j)| i < j) {
            let of = |k: usize| [list[4 * k], list[4 * k + 1], list[4 * k + 2], list[4 * k + 3]];
            pairs.fetch_add(1, Ordering::Relaxed);
            fours.fetch_add((corners(&of(i), &of(j)) == 4) as usize, Ordering::Relaxed);
        }
    });
    tally.all_shown(&[0, 14, 21], total >= 10_000);
    let (pairs, fours) = (pairs.into_inner(), fours.into_inner());
    assert!(total < 10_000 || (fours > 0 && fours < pairs), "pairs of one sort alone");
    progress.done(format!(
        "joining: {total} lists from seeds, answers by number {tally}; {pairs} pairs, {fours} of them rectangles"
    ));
}
