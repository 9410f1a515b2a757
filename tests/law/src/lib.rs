//! The scope (docs/SCOPE.md) in plain Rust: what
//! every call answers and what it leaves in lent memory.
//!
//! Written from the scope alone, and built otherwise than the proved library, so that the two
//! can be held against each other: cells are judged by a ray at a unit square, kinds and exposed
//! sides by scanning cells, costs by a memoised recursion from the frame down that keeps a tree of
//! verdicts, and a job is read into a list of parts in one pass.
//!
//! | Module | Holds |
//! |---|---|
//! | `drawing` | corners and ring lengths as a call is handed them |
//! | `figure` | a drawing's faults, its lines, which unit squares are inside |
//! | `cutting` | costs, verdicts and shots of a figure |
//! | `call` | the fracture calls, with lent memory |
//! | `bytes` | numbers, jobs, unpacking, the writers |
//! | `gdsii` | one boundary element of a GDSII stream |
//! | `joining` | shots joined in pairs |
//! | `edge` | one edge and the shots that it ends up on |
//! | `cif` | a shot list as a CIF text, and back |
//! | `division` | shots divided by a largest side |
//! | `index` | an index beside a job |
//! | `salvage` | what is left of a broken job |
//! | `program` | what the job program prints |
//! | `nano` | the same costs once more, nanometre by nanometre, for small figures |
//! | `every` | every cutting of a small figure, with its price |

pub mod bytes;
pub mod call;
pub mod cif;
pub mod cutting;
pub mod division;
pub mod drawing;
pub mod edge;
pub mod every;
pub mod figure;
pub mod gdsii;
pub mod index;
pub mod joining;
pub mod nano;
pub mod program;
pub mod salvage;

pub use drawing::Drawing;

/// What a call of the C interface gives back: the refusal's number (0 on success) and the single
/// numbers that it was lent, in the order of the header, zeros behind them.
#[derive(Clone, Copy, PartialEq, Eq, Debug)]
pub struct Told {
    pub number: u32,
    pub numbers: [u64; 7],
}

impl Told {
    pub fn of(number: u32, numbers: &[u64]) -> Told {
        let mut all = [0; 7];
        all[..numbers.len()].copy_from_slice(numbers);
        Told { number, numbers: all }
    }

    pub fn done(numbers: &[u64]) -> Told {
        Told::of(0, numbers)
    }

    pub fn refused(number: u32) -> Told {
        Told::of(number, &[])
    }
}

/// The calls of the C interface, as safe functions. Two implementations are compared through this.
pub trait Calls {
    fn preset(&self, number: u32) -> Told;
    fn fracture(&self, drawing: &Drawing, threshold: u32, weight: u32, table: &mut [u32], list: &mut [u16]) -> Told;
    fn fracture_default(&self, drawing: &Drawing, table: &mut [u32], list: &mut [u16]) -> Told;
    fn cuts(&self, drawing: &Drawing) -> Told;
    fn fracture_pinwheel(&self, drawing: &Drawing, threshold: u32, weight: u32, table: &mut [u32], list: &mut [u16]) -> Told;
    fn number(&self, bytes: &[u8], at: usize) -> Told;
    fn job_check(&self, job: &[u8]) -> Told;
    fn job_outline(&self, job: &[u8], k: usize) -> Told;
    fn unpack(&self, part: &[u8], list: &mut [u16], rings: &mut [u16]) -> Told;
    fn write_header(&self, threshold: u32, weight: u32, outlines: u32, out: &mut [u8]) -> Told;
    fn write_outline(&self, drawing: &Drawing, out: &mut [u8]) -> Told;
    fn gdsii_read(&self, element: &[u8], list: &mut [u16]) -> Told;
    fn gdsii_fracture(&self, element: &[u8], table: &mut [u32], list: &mut [u16]) -> Told;
    fn join(&self, list: &[u16], table: &mut [joining::Joined]) -> Told;
    fn edge(&self, drawing: &Drawing, edge: usize, shots: &[u16], runs: &mut [usize]) -> Told;
    /// By straight cuts, or by pinwheels too, with a largest side.
    fn fracture_divided(
        &self, pinwheels: bool, drawing: &Drawing, threshold: u32, weight: u32, largest: u32, table: &mut [u32], list: &mut [u16],
    ) -> Told;
    fn cif_write(&self, list: &[u16], out: &mut [u8]) -> Told;
    fn cif_read(&self, text: &[u8], list: &mut [u16]) -> Told;
    fn index_open(&self, job: &[u8], index: &mut [u16]) -> Told;
    fn index_append(&self, job: &[u8], drawing: &Drawing, index: &mut [u16], out: &mut [u8]) -> Told;
    fn index_remove(&self, job: &[u8], k: usize, index: &mut [u16], out: &mut [u8]) -> Told;
    fn index_pick(&self, job: &[u8], index: &[u16], count: usize, k: usize) -> Told;
    fn salvage(&self, job: &[u8], out: &mut [u8]) -> Told;
}

/// The documents themselves.
pub struct Law;

impl Calls for Law {
    fn preset(&self, number: u32) -> Told {
        call::preset(number)
    }
    fn fracture(&self, drawing: &Drawing, threshold: u32, weight: u32, table: &mut [u32], list: &mut [u16]) -> Told {
        call::fracture(drawing, threshold, weight, table, list)
    }
    fn fracture_default(&self, drawing: &Drawing, table: &mut [u32], list: &mut [u16]) -> Told {
        call::fracture(drawing, call::DEFAULT.0, call::DEFAULT.1, table, list)
    }
    fn cuts(&self, drawing: &Drawing) -> Told {
        call::cuts(drawing)
    }
    fn fracture_pinwheel(&self, drawing: &Drawing, threshold: u32, weight: u32, table: &mut [u32], list: &mut [u16]) -> Told {
        call::fracture_pinwheel(drawing, threshold, weight, table, list)
    }
    fn number(&self, bytes: &[u8], at: usize) -> Told {
        bytes::told_number(bytes, at)
    }
    fn job_check(&self, job: &[u8]) -> Told {
        bytes::told_check(job)
    }
    fn job_outline(&self, job: &[u8], k: usize) -> Told {
        bytes::told_outline(job, k)
    }
    fn unpack(&self, part: &[u8], list: &mut [u16], rings: &mut [u16]) -> Told {
        bytes::told_unpack(part, list, rings)
    }
    fn write_header(&self, threshold: u32, weight: u32, outlines: u32, out: &mut [u8]) -> Told {
        bytes::told_header(threshold, weight, outlines, out)
    }
    fn write_outline(&self, drawing: &Drawing, out: &mut [u8]) -> Told {
        bytes::told_written_outline(drawing, out)
    }
    fn gdsii_read(&self, element: &[u8], list: &mut [u16]) -> Told {
        gdsii::told_read(element, list)
    }
    fn gdsii_fracture(&self, element: &[u8], table: &mut [u32], list: &mut [u16]) -> Told {
        gdsii::told_fracture(element, table, list)
    }
    fn join(&self, list: &[u16], table: &mut [joining::Joined]) -> Told {
        joining::told_join(list, table)
    }
    fn edge(&self, drawing: &Drawing, edge: usize, shots: &[u16], runs: &mut [usize]) -> Told {
        edge::told_edge(drawing, edge, shots, runs)
    }
    fn fracture_divided(
        &self, pinwheels: bool, drawing: &Drawing, threshold: u32, weight: u32, largest: u32, table: &mut [u32], list: &mut [u16],
    ) -> Told {
        division::fracture_divided(pinwheels, drawing, threshold, weight, largest, table, list)
    }

    fn cif_write(&self, list: &[u16], out: &mut [u8]) -> Told {
        cif::told_write(list, out)
    }
    fn cif_read(&self, text: &[u8], list: &mut [u16]) -> Told {
        cif::told_read(text, list)
    }

    fn index_open(&self, job: &[u8], index: &mut [u16]) -> Told {
        index::told_open(job, index)
    }
    fn index_append(&self, job: &[u8], drawing: &Drawing, index: &mut [u16], out: &mut [u8]) -> Told {
        index::told_append(job, drawing, index, out)
    }
    fn index_remove(&self, job: &[u8], k: usize, index: &mut [u16], out: &mut [u8]) -> Told {
        index::told_remove(job, k, index, out)
    }
    fn index_pick(&self, job: &[u8], index: &[u16], count: usize, k: usize) -> Told {
        index::told_pick(job, index, count, k)
    }
    fn salvage(&self, job: &[u8], out: &mut [u8]) -> Told {
        salvage::told_salvage(job, out)
    }
}
