//! The proved library, through its Rust binding, as the calls that the comparison makes. Each single number is lent full of a mark, so that
//! one that a call does not write shows.

use law::Calls;

/// The proved library, if it is linked.
#[cfg(not(feature = "linked"))]
pub fn library() -> Option<&'static (dyn Calls + Sync)> {
    None
}

#[cfg(feature = "linked")]
pub fn library() -> Option<&'static (dyn Calls + Sync)> {
    Some(&linked::Library)
}

/// Opens a job and picks each outline by the index, for the benchmark: as a program calls it, with no mark before a call and
/// no answer kept after it, which take as long as a pick. Gives how many bytes the outlines have together; nothing where no
/// library is linked.
#[cfg(not(feature = "linked"))]
pub fn opened_and_picked(_job: &[u8], _index: &mut [u16]) -> Option<usize> {
    None
}

#[cfg(feature = "linked")]
pub fn opened_and_picked(job: &[u8], index: &mut [u16]) -> Option<usize> {
    use pinarewhemi::lent;
    let (mut outlines, mut offset, mut bytes) = (0, 0, 0);
    lent::index_open(job, index, &mut outlines, &mut offset);
    for k in 0..outlines as usize {
        let (mut start, mut length) = (0, 0);
        lent::index_pick(job, index, outlines as usize, k, &mut start, &mut length, &mut offset);
        bytes += length;
    }
    Some(bytes)
}

#[cfg(feature = "linked")]
mod linked {
    use law::joining::Joined;
    use law::{Calls, Drawing, Told};
    use pinarewhemi::lent;
    use std::mem::{align_of, offset_of, size_of};

    /// A number that a call writes: what it holds before, which no call answers, and what it tells.
    trait Lent: Copy {
        const MARK: Self;
        fn told(self) -> u64;
    }

    impl Lent for u32 {
        const MARK: u32 = 0xdead_beef;
        fn told(self) -> u64 {
            self as u64
        }
    }

    impl Lent for usize {
        const MARK: usize = 0xdead_beef_dead_beef;
        fn told(self) -> u64 {
            self as u64
        }
    }

    impl Lent for i32 {
        const MARK: i32 = <u32 as Lent>::MARK as i32;
        fn told(self) -> u64 {
            self as i64 as u64
        }
    }

    /// A call: the refusal's number, and what the numbers that it is lent last hold then.
    macro_rules! told {
        ($call:path, ($($given:expr),*), $($number:ident: $kind:ty),*) => {{
            $(let mut $number = <$kind as Lent>::MARK;)*
            let refusal = $call($($given,)* $(&mut $number),*);
            Told::of(refusal, &[$($number.told()),*])
        }};
    }

    /// The law's table of joined shots as the binding's: the same fields in the same places. (A copy would lose what stands around it.)
    fn joined(table: &mut [Joined]) -> &mut [lent::Joined] {
        const {
            assert!(size_of::<Joined>() == size_of::<lent::Joined>() && align_of::<Joined>() == align_of::<lent::Joined>());
            assert!(offset_of!(Joined, partner) == offset_of!(lent::Joined, partner));
            assert!(offset_of!(Joined, x_low) == offset_of!(lent::Joined, x_low));
            assert!(offset_of!(Joined, y_low) == offset_of!(lent::Joined, y_low));
            assert!(offset_of!(Joined, x_high) == offset_of!(lent::Joined, x_high));
            assert!(offset_of!(Joined, y_high) == offset_of!(lent::Joined, y_high));
        }
        // Both are plain numbers in C's layout, and the borrow is handed on.
        unsafe { std::slice::from_raw_parts_mut(table.as_mut_ptr().cast(), table.len()) }
    }

    pub struct Library;

    impl Calls for Library {
        fn preset(&self, number: u32) -> Told {
            told!(lent::preset, (number), threshold: u32, weight: u32)
        }

        fn fracture(&self, drawing: &Drawing, threshold: u32, weight: u32, table: &mut [u32], list: &mut [u16]) -> Told {
            told!(lent::fracture, (&drawing.corners, &drawing.rings, threshold, weight, table, list),
                shots: u32, cost: u32, sliver: u32, cuts: u32)
        }

        fn fracture_default(&self, drawing: &Drawing, table: &mut [u32], list: &mut [u16]) -> Told {
            told!(lent::fracture_default, (&drawing.corners, &drawing.rings, table, list),
                shots: u32, cost: u32, sliver: u32, cuts: u32)
        }

        fn cuts(&self, drawing: &Drawing) -> Told {
            told!(lent::cuts, (&drawing.corners, &drawing.rings), cuts: u32)
        }

        fn fracture_pinwheel(&self, drawing: &Drawing, threshold: u32, weight: u32, table: &mut [u32], list: &mut [u16]) -> Told {
            told!(lent::fracture_pinwheel, (&drawing.corners, &drawing.rings, threshold, weight, table, list),
                shots: u32, cost: u32, sliver: u32, cuts: u32)
        }

        fn number(&self, bytes: &[u8], at: usize) -> Told {
            told!(lent::number, (bytes, at), value: u32, next: usize, offset: usize)
        }

        fn job_check(&self, job: &[u8]) -> Told {
            told!(lent::job_check, (job), threshold: u32, weight: u32, outlines: u32, offset: usize)
        }

        fn job_outline(&self, job: &[u8], k: usize) -> Told {
            told!(lent::job_outline, (job, k), start: usize, length: usize, offset: usize)
        }

        fn unpack(&self, part: &[u8], list: &mut [u16], rings: &mut [u16]) -> Told {
            told!(lent::unpack, (part, list, rings), corners: u32, ring_count: u32, offset: usize)
        }

        fn write_header(&self, threshold: u32, weight: u32, outlines: u32, out: &mut [u8]) -> Told {
            told!(lent::write_header, (threshold, weight, outlines, out), written: usize)
        }

        fn write_outline(&self, drawing: &Drawing, out: &mut [u8]) -> Told {
            told!(lent::write_outline, (&drawing.corners, &drawing.rings, out), written: usize)
        }

        fn gdsii_read(&self, element: &[u8], list: &mut [u16]) -> Told {
            told!(lent::gdsii_read, (element, list), corners: u32, shift_x: i32, shift_y: i32, offset: usize)
        }

        fn gdsii_fracture(&self, element: &[u8], table: &mut [u32], list: &mut [u16]) -> Told {
            told!(lent::gdsii_fracture, (element, table, list),
                shots: u32, cost: u32, sliver: u32, cuts: u32, shift_x: i32, shift_y: i32, offset: usize)
        }

        fn join(&self, list: &[u16], table: &mut [Joined]) -> Told {
            told!(lent::join, (list, joined(table)), flashes: usize)
        }

        fn edge(&self, drawing: &Drawing, edge: usize, shots: &[u16], runs: &mut [usize]) -> Told {
            told!(lent::edge, (&drawing.corners, &drawing.rings, edge, shots, runs), count: usize)
        }

        fn fracture_divided(
            &self, pinwheels: bool, drawing: &Drawing, threshold: u32, weight: u32, largest: u32, table: &mut [u32], list: &mut [u16],
        ) -> Told {
            let call = if pinwheels { lent::fracture_pinwheel_divided } else { lent::fracture_divided };
            told!(call, (&drawing.corners, &drawing.rings, threshold, weight, largest, table, list),
                shots: u32, cost: u32, sliver: u32, cuts: u32)
        }

        fn cif_write(&self, list: &[u16], out: &mut [u8]) -> Told {
            told!(lent::cif_write, (list, out), written: usize)
        }

        fn cif_read(&self, text: &[u8], list: &mut [u16]) -> Told {
            told!(lent::cif_read, (text, list), shots: usize, offset: usize)
        }

        fn index_open(&self, job: &[u8], index: &mut [u16]) -> Told {
            told!(lent::index_open, (job, index), outlines: u32, offset: usize)
        }

        fn index_append(&self, job: &[u8], drawing: &Drawing, index: &mut [u16], out: &mut [u8]) -> Told {
            told!(lent::index_append, (job, &drawing.corners, &drawing.rings, index, out),
                written: usize, outlines: u32, offset: usize)
        }

        fn index_remove(&self, job: &[u8], k: usize, index: &mut [u16], out: &mut [u8]) -> Told {
            told!(lent::index_remove, (job, k, index, out), written: usize, outlines: u32, offset: usize)
        }

        fn index_pick(&self, job: &[u8], index: &[u16], count: usize, k: usize) -> Told {
            told!(lent::index_pick, (job, index, count, k), start: usize, length: usize, offset: usize)
        }

        fn salvage(&self, job: &[u8], out: &mut [u8]) -> Told {
            told!(lent::salvage, (job, out), written: usize, kept: u32, lost: u32, dropped: usize, offset: usize)
        }
    }
}
