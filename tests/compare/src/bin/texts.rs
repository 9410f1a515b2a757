//! Writes the texts that a viewer which is not ours is given: for each list of shots a file NAME.cif, as the
//! library writes it, and NAME.found with the rectangles that the viewer has to find in it, in rising order. Both
//! are kept in tests/klayout, NAME.found as KLayout gave it, and the gate holds them to what this program writes.
//!
//!     texts DIR

use drawings::document::{B, EIGHT, FRAMED, L};
use drawings::seeded::Seeded;
use drawings::{figures, outlines, shots};
use law::{Calls, Drawing};
use std::path::Path;

type Library = &'static (dyn Calls + Sync);

/// The shots of a drawing by the rule 25, 40, if it is not refused.
fn fractured(library: Library, drawing: &Drawing) -> Option<Vec<u16>> {
    let mut list = vec![0; 900];
    let told = library.fracture(drawing, 25, 40, &mut [0; 14_400], &mut list);
    list.truncate(4 * told.numbers[0] as usize);
    (told.number == 0).then_some(list)
}

/// Single lists: the scope's shot; none; the greatest; the corners of the sheet; centres on whole and on half
/// nanometres.
fn named() -> Vec<(String, Vec<u16>)> {
    let lists: [(&str, &[u16]); 5] = [
        ("document-02", &[0, 0, 10, 10]),
        ("no-shots", &[]),
        ("greatest", &[0, 0, 65_535, 65_535]),
        ("four-corners", &[0, 0, 1, 1, 65_534, 0, 65_535, 1, 0, 65_534, 1, 65_535, 65_534, 65_534, 65_535, 65_535]),
        ("half-centres", &[0, 0, 1, 2, 3, 5, 8, 11, 20, 20, 21, 21, 30_001, 40_000, 30_004, 40_009]),
    ];
    lists.map(|(name, list)| (name.to_string(), list.to_vec())).to_vec()
}

fn lists(library: Library) -> Vec<(String, Vec<u16>)> {
    let mut lists = named();
    let drawings = [
        ("l", Drawing::outline(&L)),
        ("b", Drawing::outline(&B)),
        ("frame-with-a-window", Drawing { corners: FRAMED.to_vec(), rings: vec![4, 4] }),
        ("eight-squares", Drawing { corners: EIGHT.to_vec(), rings: vec![4; 8] }),
    ];
    for (name, drawing) in drawings {
        lists.push((name.to_string(), fractured(library, &drawing).expect(name)));
    }
    for sort in 0..10 {
        let mut s = Seeded::new(1200 + sort as u64);
        let list = fractured(library, &outlines::of_sort(&mut s, sort));
        lists.extend(list.map(|list| (format!("outline, {}", outlines::SORTS[sort].0), list)));
        let list = fractured(library, &figures::of_sort(&mut s, sort));
        lists.extend(list.map(|list| (format!("figure, {}", figures::SORTS[sort].0), list)));
    }
    for sort in 0..5 {
        let list = shots::of_sort(&mut Seeded::new(1300 + sort as u64), sort);
        lists.push((format!("list, {}", shots::SORTS[sort]), list));
    }
    lists
}

fn main() {
    let folder = std::env::args().nth(1).expect("texts DIR");
    let library = library::library().expect("the library is not linked (PINAREWHEMI_PACKAGE)");
    std::fs::create_dir_all(&folder).unwrap();
    for (name, list) in lists(library) {
        let name = name.replace(", ", "-").replace(' ', "-");
        let mut out = vec![0; 28 + 29 * list.len() / 4];
        let told = library.cif_write(&list, &mut out);
        assert_eq!(told.number, 0, "{name} was refused");
        let mut rectangles: Vec<&[u16]> = list.chunks(4).collect();
        rectangles.sort();
        let found: String = rectangles.iter().map(|r| format!("{} {} {} {}\n", r[0], r[1], r[2], r[3])).collect();
        let store = |ending: &str, bytes: &[u8]| {
            std::fs::write(Path::new(&folder).join(format!("{name}.{ending}")), bytes).unwrap();
        };
        store("cif", &out[..told.numbers[0] as usize]);
        store("found", found.as_bytes());
    }
}
