//! The C interface in safe Rust, word for word: a slice for each pointer with its length, `&mut` for each single number that
//! a call writes, and the refusal's number back, 0 on success.
//!
//! A slice is valid for its length, its pointer is never null, and what is written is lent to nobody else: so whatever is
//! handed over, the header's rules about memory are kept. Nothing checks these lines against the proved source; a test
//! holds them to the header.

/// A call of the header: its name in C, its name here, and its parameters. The C parameters are made of them one by one: a
/// slice is a pointer and a length.
macro_rules! call {
    ($(#[$meta:meta])* $symbol:ident $name:ident ($($parameters:tt)*)) => {
        call!(@ [$(#[$meta])*] $symbol $name [] [] [] $($parameters)*);
    };
    (@ [$($meta:tt)*] $symbol:ident $name:ident [$($declared:tt)*] [$($taken:tt)*] [$($passed:tt)*]) => {
        $($meta)*
        pub fn $name($($taken)*) -> u32 {
            extern "C" {
                fn $symbol($($declared)*) -> u32;
            }
            // The slices and numbers are valid, and exclusive where they are written.
            unsafe { $symbol($($passed)*) }
        }
    };
    (@ $meta:tt $symbol:ident $name:ident [$($declared:tt)*] [$($taken:tt)*] [$($passed:tt)*]
        $parameter:ident: &mut [$item:ty], $($rest:tt)*) => {
        call!(@ $meta $symbol $name [$($declared)* $parameter: *mut $item, _: usize,]
            [$($taken)* $parameter: &mut [$item],]
            [$($passed)* $parameter.as_mut_ptr(), $parameter.len(),] $($rest)*);
    };
    (@ $meta:tt $symbol:ident $name:ident [$($declared:tt)*] [$($taken:tt)*] [$($passed:tt)*]
        $parameter:ident: &[$item:ty], $($rest:tt)*) => {
        call!(@ $meta $symbol $name [$($declared)* $parameter: *const $item, _: usize,]
            [$($taken)* $parameter: &[$item],]
            [$($passed)* $parameter.as_ptr(), $parameter.len(),] $($rest)*);
    };
    (@ $meta:tt $symbol:ident $name:ident [$($declared:tt)*] [$($taken:tt)*] [$($passed:tt)*]
        $parameter:ident: &mut $item:ty, $($rest:tt)*) => {
        call!(@ $meta $symbol $name [$($declared)* $parameter: *mut $item,]
            [$($taken)* $parameter: &mut $item,]
            [$($passed)* $parameter,] $($rest)*);
    };
    (@ $meta:tt $symbol:ident $name:ident [$($declared:tt)*] [$($taken:tt)*] [$($passed:tt)*]
        $parameter:ident: $item:ty, $($rest:tt)*) => {
        call!(@ $meta $symbol $name [$($declared)* $parameter: $item,]
            [$($taken)* $parameter: $item,]
            [$($passed)* $parameter,] $($rest)*);
    };
}

/// `struct pw_joined`: a shot with its partner's number in the list, or its own where it has none.
#[repr(C)]
#[derive(Clone, Copy, PartialEq, Eq, Debug, Default)]
pub struct Joined {
    pub x_low: u16,
    pub y_low: u16,
    pub x_high: u16,
    pub y_high: u16,
    pub partner: usize,
}

// The table of the calls.
call!(pw_version version(first: &mut u32, second: &mut u32, third: &mut u32,));
call!(pw_preset preset(number: u32, threshold: &mut u32, weight: &mut u32,));
call!(pw_fracture fracture(
    corners: &[u16], rings: &[u16], threshold: u32, weight: u32, table: &mut [u32], list: &mut [u16],
    shots: &mut u32, cost: &mut u32, sliver: &mut u32, cuts: &mut u32,
));
call!(pw_fracture_default fracture_default(
    corners: &[u16], rings: &[u16], table: &mut [u32], list: &mut [u16],
    shots: &mut u32, cost: &mut u32, sliver: &mut u32, cuts: &mut u32,
));
call!(#[cfg(has_pinwheel)] pw_fracture_pinwheel fracture_pinwheel(
    corners: &[u16], rings: &[u16], threshold: u32, weight: u32, table: &mut [u32], list: &mut [u16],
    shots: &mut u32, cost: &mut u32, sliver: &mut u32, cuts: &mut u32,
));
call!(#[cfg(has_division)] pw_fracture_divided fracture_divided(
    corners: &[u16], rings: &[u16], threshold: u32, weight: u32, largest: u32, table: &mut [u32], list: &mut [u16],
    shots: &mut u32, cost: &mut u32, sliver: &mut u32, cuts: &mut u32,
));
call!(#[cfg(all(has_pinwheel, has_division))] pw_fracture_pinwheel_divided fracture_pinwheel_divided(
    corners: &[u16], rings: &[u16], threshold: u32, weight: u32, largest: u32, table: &mut [u32], list: &mut [u16],
    shots: &mut u32, cost: &mut u32, sliver: &mut u32, cuts: &mut u32,
));
call!(pw_cuts cuts(corners: &[u16], rings: &[u16], cuts: &mut u32,));
call!(pw_number number(bytes: &[u8], at: usize, value: &mut u32, next: &mut usize, offset: &mut usize,));
call!(pw_job_check job_check(
    job: &[u8], threshold: &mut u32, weight: &mut u32, outlines: &mut u32, offset: &mut usize,
));
call!(pw_job_outline job_outline(job: &[u8], k: usize, start: &mut usize, length: &mut usize, offset: &mut usize,));
call!(pw_unpack unpack(
    part: &[u8], list: &mut [u16], rings: &mut [u16], corners: &mut u32, ring_count: &mut u32, offset: &mut usize,
));
call!(pw_write_header write_header(threshold: u32, weight: u32, outlines: u32, out: &mut [u8], written: &mut usize,));
call!(pw_write_outline write_outline(corners: &[u16], rings: &[u16], out: &mut [u8], written: &mut usize,));
call!(pw_gdsii_read gdsii_read(
    element: &[u8], list: &mut [u16], corners: &mut u32, shift_x: &mut i32, shift_y: &mut i32, offset: &mut usize,
));
call!(pw_gdsii_fracture gdsii_fracture(
    element: &[u8], table: &mut [u32], list: &mut [u16], shots: &mut u32, cost: &mut u32, sliver: &mut u32,
    cuts: &mut u32, shift_x: &mut i32, shift_y: &mut i32, offset: &mut usize,
));
call!(pw_join join(list: &[u16], table: &mut [Joined], flashes: &mut usize,));
call!(pw_edge edge(
    corners: &[u16], rings: &[u16], edge: usize, shots: &[u16], runs: &mut [usize], count: &mut usize,
));
call!(#[cfg(has_index)] pw_index_open index_open(
    job: &[u8], index: &mut [u16], outlines: &mut u32, offset: &mut usize,
));
call!(#[cfg(has_index)] pw_index_append index_append(
    job: &[u8], corners: &[u16], rings: &[u16], index: &mut [u16], out: &mut [u8],
    written: &mut usize, outlines: &mut u32, offset: &mut usize,
));
call!(#[cfg(has_index)] pw_index_remove index_remove(
    job: &[u8], k: usize, index: &mut [u16], out: &mut [u8],
    written: &mut usize, outlines: &mut u32, offset: &mut usize,
));
call!(#[cfg(has_index)] pw_index_pick index_pick(
    job: &[u8], index: &[u16], count: usize, k: usize, start: &mut usize, length: &mut usize, offset: &mut usize,
));
call!(#[cfg(has_salvage)] pw_salvage salvage(
    job: &[u8], out: &mut [u8], written: &mut usize, kept: &mut u32, lost: &mut u32, dropped: &mut usize,
    offset: &mut usize,
));
call!(#[cfg(has_cif)] pw_cif_write cif_write(list: &[u16], out: &mut [u8], written: &mut usize,));
call!(#[cfg(has_cif)] pw_cif_read cif_read(text: &[u8], list: &mut [u16], shots: &mut usize, offset: &mut usize,));
// The end of the table.
