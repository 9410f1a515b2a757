//! Safe functions over the C++ baselines of tests/baseline/baseline.cpp.

#![allow(clippy::too_many_arguments)]

use law::{Drawing, Told};

type Fractures = unsafe extern "C" fn(
    *const u16, usize, *const u16, usize, u32, u32, *mut u32, usize, *mut u16, usize, *mut u32, *mut u32, *mut u32, *mut u32,
) -> u32;

/// Declares baselines of one shape: figure, rule, table, list, and the four numbers that are told.
macro_rules! declared {
    ($($name:ident)*) => {
        extern "C" {
            $(fn $name(
                corners: *const u16, corners_len: usize, rings: *const u16, rings_len: usize, threshold: u32, weight: u32,
                table: *mut u32, table_len: usize, list: *mut u16, list_len: usize,
                shots: *mut u32, cost: *mut u32, sliver: *mut u32, cuts: *mut u32,
            ) -> u32;)*
        }
    };
}

declared!(baseline_fracture baseline_rows_fracture baseline_wheels_fracture baseline_widths_fracture);

/// What a lent number holds before a call: no call answers it.
const MARK: u32 = 0xdead_beef;

fn fracture_by(
    call: Fractures, drawing: &Drawing, threshold: u32, weight: u32, table: &mut [u32], list: &mut [u16],
) -> Told {
    let (mut shots, mut cost, mut sliver, mut cuts) = (MARK, MARK, MARK, MARK);
    // The slices are valid for their lengths, and exclusive where they are written.
    let number = unsafe {
        call(
            drawing.corners.as_ptr(), drawing.corners.len(), drawing.rings.as_ptr(), drawing.rings.len(),
            threshold, weight,
            table.as_mut_ptr(), table.len(), list.as_mut_ptr(), list.len(),
            &mut shots, &mut cost, &mut sliver, &mut cuts,
        )
    };
    Told::of(number, &[shots as u64, cost as u64, sliver as u64, cuts as u64])
}

/// One fracture by the baseline that weighs horizontal cuts from each settled piece on.
pub fn baseline_rows(drawing: &Drawing, threshold: u32, weight: u32, table: &mut [u32], list: &mut [u16]) -> Told {
    fracture_by(baseline_rows_fracture, drawing, threshold, weight, table, list)
}

/// One fracture by the baseline that weighs them height by height.
pub fn baseline(drawing: &Drawing, threshold: u32, weight: u32, table: &mut [u32], list: &mut [u16]) -> Told {
    fracture_by(baseline_fracture, drawing, threshold, weight, table, list)
}

/// One fracture by the baseline that weighs all strips of a width at once.
pub fn baseline_widths(drawing: &Drawing, threshold: u32, weight: u32, table: &mut [u32], list: &mut [u16]) -> Told {
    fracture_by(baseline_widths_fracture, drawing, threshold, weight, table, list)
}

/// One fracture by the baseline that weighs pinwheels too.
pub fn baseline_wheels(drawing: &Drawing, threshold: u32, weight: u32, table: &mut [u32], list: &mut [u16]) -> Told {
    fracture_by(baseline_wheels_fracture, drawing, threshold, weight, table, list)
}
