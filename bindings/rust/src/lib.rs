//! Pinarewhemi: right-angled figures into rectangular shots for a variable shaped beam writer, and the job bytes that carry
//! them; safe functions over the proved library.
//!
//! A figure is a slice of rings, each a slice of corners (x, y) in whole nm. Buffers are as large as the calls' own limits, so
//! that 6, 7 and 14 do not come; every other refusal is an `Err(Refused)`. [`lent`] has the same calls with the caller's own
//! buffers, as the C header has them. The rules are told in docs/SCOPE.md, jobs and refusals in docs/JOB.md.
//!
//! ```
//! use pinarewhemi::{fracture, Rule};
//! let l = [[(0, 0), (100, 0), (100, 20), (60, 20), (60, 80), (0, 80)]];
//! let done = fracture(&l, Rule { threshold: 25, weight: 40 })?;
//! assert_eq!((done.shots.len(), done.cost, done.sliver), (2, 5200, 80));
//! # Ok::<(), pinarewhemi::Refused>(())
//! ```
//!
//! A library that was built earlier may lack the later calls (pinwheels, division, index, salvage, CIF); what it lacks, the
//! crate lacks.

#![allow(clippy::too_many_arguments)]

pub mod lent;
mod refused;
pub mod room;

pub use lent::Joined;
pub use refused::Refused;

/// x and y, whole nm.
pub type Corner = (u16, u16);

/// Threshold in nm, weight in thousandths of a shot for each nm of sliver length.
#[derive(Clone, Copy, PartialEq, Eq, Debug)]
pub struct Rule {
    pub threshold: u32,
    pub weight: u32,
}

/// A rectangle, in nm.
#[derive(Clone, Copy, PartialEq, Eq, Debug)]
pub struct Shot {
    pub x_low: u16,
    pub y_low: u16,
    pub x_high: u16,
    pub y_high: u16,
}

/// What a fracture answers: the shots in their order, their cost in thousandths of a shot, their sliver length in nm, the cuts
/// weighed, and the cost of every piece as the table has it.
#[derive(Clone, PartialEq, Eq, Debug)]
pub struct Fracture {
    pub shots: Vec<Shot>,
    pub cost: u32,
    pub sliver: u32,
    pub cuts: u32,
    pub costs: Vec<u32>,
}

/// What the header of a sound job says.
#[derive(Clone, Copy, PartialEq, Eq, Debug)]
pub struct Header {
    pub rule: Rule,
    pub outlines: u32,
}

/// A whole job: its rule and its figures.
#[derive(Clone, PartialEq, Eq, Debug)]
pub struct Job {
    pub rule: Rule,
    pub figures: Vec<Vec<Vec<Corner>>>,
}

/// The ring of a GDSII boundary, moved to 0; shift plus corner gives back each point.
#[derive(Clone, PartialEq, Eq, Debug)]
pub struct Boundary {
    pub corners: Vec<Corner>,
    pub shift: (i32, i32),
}

/// For each shot of a list its partner's number, or its own where it has none; and how many flashes they take.
#[derive(Clone, PartialEq, Eq, Debug)]
pub struct Joining {
    pub partners: Vec<usize>,
    pub flashes: usize,
}

/// A stretch of an edge, from low to high along it: the number of the shot that it ends up on, from 1 (0: none), and the side
/// of the figure: 1 left, 2 right, 3 bottom, 4 top, 0 no wall.
#[derive(Clone, Copy, PartialEq, Eq, Debug)]
pub struct Run {
    pub low: usize,
    pub high: usize,
    pub shot: usize,
    pub side: usize,
}

/// A job, and where each of its outlines starts.
#[cfg(has_index)]
#[derive(Clone, PartialEq, Eq, Debug)]
pub struct Indexed {
    pub job: Vec<u8>,
    pub index: Vec<u16>,
}

/// A sound job of the outlines before the first fault: how many were kept, how many of those declared were lost, and how
/// many bytes were dropped.
#[cfg(has_salvage)]
#[derive(Clone, PartialEq, Eq, Debug)]
pub struct Salvaged {
    pub job: Vec<u8>,
    pub kept: u32,
    pub lost: u32,
    pub dropped: usize,
}

/// Corners and ring lengths as the calls take them.
struct Drawing {
    corners: Vec<u16>,
    rings: Vec<u16>,
}

impl Drawing {
    /// A ring with more corners than its length has bits for is as bad as one of 65,535, and is refused as that.
    fn of<Ring: AsRef<[Corner]>>(figure: &[Ring]) -> Drawing {
        let corners = figure.iter().flat_map(|ring| ring.as_ref()).flat_map(|&(x, y)| [x, y]).collect();
        let rings = figure.iter().map(|ring| ring.as_ref().len().min(65_535) as u16).collect();
        Drawing { corners, rings }
    }

    /// How many pieces the figure has: the entries of its cost table.
    fn pieces(&self) -> usize {
        let pairs = |axis: usize| {
            let mut lines: Vec<u16> = self.corners.iter().skip(axis).step_by(2).copied().collect();
            lines.sort_unstable();
            lines.dedup();
            lines.len() * lines.len().saturating_sub(1) / 2
        };
        pairs(0) * pairs(1)
    }
}

fn shots_in(list: &[u16]) -> Vec<Shot> {
    let shot = |s: &[u16]| Shot { x_low: s[0], y_low: s[1], x_high: s[2], y_high: s[3] };
    list.chunks_exact(4).map(shot).collect()
}

fn numbers_of(shots: &[Shot]) -> Vec<u16> {
    shots.iter().flat_map(|s| [s.x_low, s.y_low, s.x_high, s.y_high]).collect()
}

fn pairs_in(list: &[u16]) -> Vec<Corner> {
    list.chunks_exact(2).map(|c| (c[0], c[1])).collect()
}

/// The single numbers that a fracture tells.
#[derive(Default)]
struct Tally {
    shots: u32,
    cost: u32,
    sliver: u32,
    cuts: u32,
}

/// One fracture of a figure, by one of the calls, with room for so many numbers.
fn fracture_by<Ring: AsRef<[Corner]>>(
    figure: &[Ring],
    numbers: usize,
    call: impl FnOnce(&Drawing, &mut [u32], &mut [u16], &mut Tally) -> u32,
) -> Result<Fracture, Refused> {
    let drawing = Drawing::of(figure);
    let (mut table, mut list, mut told) = (vec![0; room::TABLE_ENTRIES], vec![0; numbers], Tally::default());
    let number = call(&drawing, &mut table, &mut list, &mut told);
    Refused::unless_done(number).map_err(|refused| Refused { shots: told.shots, ..refused })?;
    table.truncate(drawing.pieces());
    let Tally { shots, cost, sliver, cuts } = told;
    Ok(Fracture { shots: shots_in(&list[..4 * shots as usize]), cost, sliver, cuts, costs: table })
}

/// The version of the library that is linked, three numbers. Refuses nothing.
pub fn version() -> (u32, u32, u32) {
    let (mut first, mut second, mut third) = (0, 0, 0);
    lent::version(&mut first, &mut second, &mut third);
    (first, second, third)
}

/// The rule of a preset, 0 to 3. Refuses: 15.
pub fn preset(number: u32) -> Result<Rule, Refused> {
    let (mut threshold, mut weight) = (0, 0);
    Refused::unless_done(lent::preset(number, &mut threshold, &mut weight))?;
    Ok(Rule { threshold, weight })
}

/// Fractures a figure by straight cuts. Refuses: 1 to 5.
pub fn fracture<Ring: AsRef<[Corner]>>(figure: &[Ring], rule: Rule) -> Result<Fracture, Refused> {
    fracture_by(figure, room::LIST_NUMBERS, |f, table, list, told| {
        lent::fracture(
            &f.corners, &f.rings, rule.threshold, rule.weight, table, list,
            &mut told.shots, &mut told.cost, &mut told.sliver, &mut told.cuts,
        )
    })
}

/// The same by the default rule, preset 1. Refuses: 2 to 5.
pub fn fracture_default<Ring: AsRef<[Corner]>>(figure: &[Ring]) -> Result<Fracture, Refused> {
    fracture_by(figure, room::LIST_NUMBERS, |f, table, list, told| {
        lent::fracture_default(
            &f.corners, &f.rings, table, list,
            &mut told.shots, &mut told.cost, &mut told.sliver, &mut told.cuts,
        )
    })
}

/// By straight cuts and pinwheels. Refuses: 1 to 5.
#[cfg(has_pinwheel)]
pub fn fracture_pinwheel<Ring: AsRef<[Corner]>>(figure: &[Ring], rule: Rule) -> Result<Fracture, Refused> {
    fracture_by(figure, room::LIST_NUMBERS, |f, table, list, told| {
        lent::fracture_pinwheel(
            &f.corners, &f.rings, rule.threshold, rule.weight, table, list,
            &mut told.shots, &mut told.cost, &mut told.sliver, &mut told.cuts,
        )
    })
}

/// By straight cuts, then each shot divided so that no side is above the largest; the costs are those before division.
/// Refuses: 1, 19, 2 to 5.
#[cfg(has_division)]
pub fn fracture_divided<Ring: AsRef<[Corner]>>(figure: &[Ring], rule: Rule, largest: u32) -> Result<Fracture, Refused> {
    fracture_by(figure, room::DIVIDED_NUMBERS, |f, table, list, told| {
        lent::fracture_divided(
            &f.corners, &f.rings, rule.threshold, rule.weight, largest, table, list,
            &mut told.shots, &mut told.cost, &mut told.sliver, &mut told.cuts,
        )
    })
}

/// By straight cuts and pinwheels, then divided. Refuses: 1, 19, 2 to 5.
#[cfg(all(has_pinwheel, has_division))]
pub fn fracture_pinwheel_divided<Ring: AsRef<[Corner]>>(
    figure: &[Ring],
    rule: Rule,
    largest: u32,
) -> Result<Fracture, Refused> {
    fracture_by(figure, room::DIVIDED_NUMBERS, |f, table, list, told| {
        lent::fracture_pinwheel_divided(
            &f.corners, &f.rings, rule.threshold, rule.weight, largest, table, list,
            &mut told.shots, &mut told.cost, &mut told.sliver, &mut told.cuts,
        )
    })
}

/// How many cuts the fracture of a figure will weigh, by any rule. Refuses: 2 to 5.
pub fn cuts<Ring: AsRef<[Corner]>>(figure: &[Ring]) -> Result<u32, Refused> {
    let (drawing, mut cuts) = (Drawing::of(figure), 0);
    Refused::unless_done(lent::cuts(&drawing.corners, &drawing.rings, &mut cuts))?;
    Ok(cuts)
}

/// The number of a job that starts at a place, of any range, and the place behind it. Refuses: 8, 9, 10.
pub fn number(bytes: &[u8], at: usize) -> Result<(u32, usize), Refused> {
    let (mut value, mut next, mut offset) = (0, 0, 0);
    let number = lent::number(bytes, at, &mut value, &mut next, &mut offset);
    Refused::placed(number, Some(offset))?;
    Ok((value, next))
}

/// Checks a whole job. Refuses: 12, 8 to 11.
pub fn job_check(job: &[u8]) -> Result<Header, Refused> {
    let (mut threshold, mut weight, mut outlines, mut offset) = (0, 0, 0, 0);
    let number = lent::job_check(job, &mut threshold, &mut weight, &mut outlines, &mut offset);
    Refused::placed(number, Some(offset))?;
    Ok(Header { rule: Rule { threshold, weight }, outlines })
}

/// Outline k of a job, from 0, as that part of the job's own bytes; the whole job is checked first. Refuses: 12, 8 to 11, 13.
pub fn job_outline(job: &[u8], k: usize) -> Result<&[u8], Refused> {
    let (mut start, mut length, mut offset) = (0, 0, 0);
    let number = lent::job_outline(job, k, &mut start, &mut length, &mut offset);
    Refused::placed(number, Some(offset))?;
    Ok(&job[start..start + length])
}

/// The figure of such a part. Refuses: 8 to 11.
pub fn unpack(part: &[u8]) -> Result<Vec<Vec<Corner>>, Refused> {
    let (mut list, mut rings) = ([0; room::CORNER_NUMBERS], [0; room::RING_LENGTHS]);
    let (mut corners, mut ring_count, mut offset) = (0, 0, 0);
    let number = lent::unpack(part, &mut list, &mut rings, &mut corners, &mut ring_count, &mut offset);
    Refused::placed(number, Some(offset))?;
    let mut rest = &list[..2 * corners as usize];
    let ring = |&length: &u16| {
        let (ring, behind) = rest.split_at(2 * length as usize);
        rest = behind;
        pairs_in(ring)
    };
    Ok(rings[..ring_count as usize].iter().map(ring).collect())
}

/// The header of a job. Refuses: 1, 10.
pub fn write_header(rule: Rule, outlines: u32) -> Result<Vec<u8>, Refused> {
    let (mut out, mut written) = (vec![0; room::HEADER_BYTES], 0);
    Refused::unless_done(lent::write_header(rule.threshold, rule.weight, outlines, &mut out, &mut written))?;
    out.truncate(written);
    Ok(out)
}

/// A figure as an outline of a job. Refuses: 2.
pub fn write_outline<Ring: AsRef<[Corner]>>(figure: &[Ring]) -> Result<Vec<u8>, Refused> {
    let (drawing, mut out, mut written) = (Drawing::of(figure), vec![0; room::OUTLINE_BYTES], 0);
    Refused::unless_done(lent::write_outline(&drawing.corners, &drawing.rings, &mut out, &mut written))?;
    out.truncate(written);
    Ok(out)
}

/// A whole job: its rule and all its figures. Refuses: 12, 8 to 11.
pub fn read_job(job: &[u8]) -> Result<Job, Refused> {
    let Header { rule, outlines } = job_check(job)?;
    let figures = (0..outlines as usize).map(|k| unpack(job_outline(job, k)?)).collect::<Result<_, _>>()?;
    Ok(Job { rule, figures })
}

/// A whole job of figures, which is read back as they are. Refuses: 2, 1, 10, 12.
pub fn write_job<Figure: AsRef<[Ring]>, Ring: AsRef<[Corner]>>(rule: Rule, figures: &[Figure]) -> Result<Vec<u8>, Refused> {
    let mut outlines = Vec::new();
    for figure in figures {
        outlines.extend(write_outline(figure.as_ref())?);
    }
    let mut job = write_header(rule, u32::try_from(figures.len()).unwrap_or(u32::MAX))?;
    job.extend(outlines);
    job_check(&job)?;
    Ok(job)
}

/// Reads one boundary element of a GDSII stream. Refuses: 8 (with the offset of the record cut short), 16, 17, 18, 2 to 5.
pub fn gdsii_read(element: &[u8]) -> Result<Boundary, Refused> {
    let mut list = [0; room::CORNER_NUMBERS];
    let (mut corners, mut x, mut y, mut offset) = (0, 0, 0, 0);
    let number = lent::gdsii_read(element, &mut list, &mut corners, &mut x, &mut y, &mut offset);
    Refused::placed(number, Some(offset))?;
    Ok(Boundary { corners: pairs_in(&list[..2 * corners as usize]), shift: (x, y) })
}

/// Reads such an element and fractures it by preset 0: the shots are moved as the corners are, and the shift is told beside
/// them. Its costs are left out. Refuses as `gdsii_read`.
pub fn gdsii_fracture(element: &[u8]) -> Result<(Fracture, (i32, i32)), Refused> {
    let (mut table, mut list) = (vec![0; room::TABLE_ENTRIES], [0; room::LIST_NUMBERS]);
    let (mut shots, mut cost, mut sliver, mut cuts) = (0, 0, 0, 0);
    let (mut x, mut y, mut offset) = (0, 0, 0);
    let number = lent::gdsii_fracture(
        element, &mut table, &mut list, &mut shots, &mut cost, &mut sliver, &mut cuts, &mut x, &mut y, &mut offset,
    );
    Refused::placed(number, Some(offset))?;
    let shots = shots_in(&list[..4 * shots as usize]);
    Ok((Fracture { shots, cost, sliver, cuts, costs: Vec::new() }, (x, y)))
}

/// Joins the shots of a list in pairs, for a writer that exposes an L in one flash. Refuses: 21.
pub fn join(shots: &[Shot]) -> Result<Joining, Refused> {
    let (mut table, mut flashes) = (vec![Joined::default(); shots.len()], 0);
    Refused::unless_done(lent::join(&numbers_of(shots), &mut table, &mut flashes))?;
    Ok(Joining { partners: table.iter().map(|entry| entry.partner).collect(), flashes })
}

/// Which shots of a list one edge ends up on: edge number e runs from corner number e, counted over all rings, to the next
/// corner of its ring. Refuses: 2 to 5, 21, 23.
pub fn edge<Ring: AsRef<[Corner]>>(figure: &[Ring], edge: usize, shots: &[Shot]) -> Result<Vec<Run>, Refused> {
    let (drawing, list) = (Drawing::of(figure), numbers_of(shots));
    let (mut runs, mut count) = (vec![0; room::EDGE_NUMBERS + 2 * list.len()], 0);
    Refused::unless_done(lent::edge(&drawing.corners, &drawing.rings, edge, &list, &mut runs, &mut count))?;
    let run = |r: &[usize]| Run { low: r[0], high: r[1], shot: r[2], side: r[3] };
    Ok(runs[..4 * count].chunks_exact(4).map(run).collect())
}

/// Where each outline of a job starts. Refuses: 12, 8 to 11.
#[cfg(has_index)]
pub fn index_open(job: &[u8]) -> Result<Vec<u16>, Refused> {
    let (mut index, mut outlines, mut offset) = (vec![0; room::INDEX_ENTRIES], 0, 0);
    let number = lent::index_open(job, &mut index, &mut outlines, &mut offset);
    Refused::placed(number, Some(offset))?;
    index.truncate(outlines as usize);
    Ok(index)
}

/// A changed job and its index, by one of the calls.
#[cfg(has_index)]
fn changed_by(
    call: impl FnOnce(&mut [u16], &mut [u8], &mut usize, &mut u32, &mut usize) -> u32,
) -> Result<Indexed, Refused> {
    let (mut index, mut job) = (vec![0; room::INDEX_ENTRIES], vec![0; room::JOB_BYTES]);
    let (mut written, mut outlines, mut offset) = (0, 0, 0);
    let number = call(&mut index, &mut job, &mut written, &mut outlines, &mut offset);
    Refused::placed(number, Some(offset))?;
    job.truncate(written);
    index.truncate(outlines as usize);
    Ok(Indexed { job, index })
}

/// The job with a figure more at its end, and its index. Refuses: 12, 8 to 11, 2, 20, 12.
#[cfg(has_index)]
pub fn index_append<Ring: AsRef<[Corner]>>(job: &[u8], figure: &[Ring]) -> Result<Indexed, Refused> {
    let f = Drawing::of(figure);
    changed_by(|index, out, written, outlines, offset| {
        lent::index_append(job, &f.corners, &f.rings, index, out, written, outlines, offset)
    })
}

/// The job without outline k, and its index. Refuses: 12, 8 to 11, 13.
#[cfg(has_index)]
pub fn index_remove(job: &[u8], k: usize) -> Result<Indexed, Refused> {
    changed_by(|index, out, written, outlines, offset| lent::index_remove(job, k, index, out, written, outlines, offset))
}

/// The outline that entry k of an index points at; nothing before it is read. Refuses: 12, 13, 8 to 10.
#[cfg(has_index)]
pub fn index_pick<'a>(job: &'a [u8], index: &[u16], k: usize) -> Result<&'a [u8], Refused> {
    let (mut start, mut length, mut offset) = (0, 0, 0);
    let number = lent::index_pick(job, index, index.len(), k, &mut start, &mut length, &mut offset);
    Refused::placed(number, Some(offset))?;
    Ok(&job[start..start + length])
}

/// Keeps the outlines of a job before its first fault. Refuses: 12, 8 to 10 of the header.
#[cfg(has_salvage)]
pub fn salvage(job: &[u8]) -> Result<Salvaged, Refused> {
    let (mut out, mut written) = (vec![0; room::JOB_BYTES], 0);
    let (mut kept, mut lost, mut dropped, mut offset) = (0, 0, 0, 0);
    let number = lent::salvage(job, &mut out, &mut written, &mut kept, &mut lost, &mut dropped, &mut offset);
    Refused::placed(number, Some(offset))?;
    out.truncate(written);
    Ok(Salvaged { job: out, kept, lost, dropped })
}

/// A shot list as a CIF text. Refuses: 21.
#[cfg(has_cif)]
pub fn cif_write(shots: &[Shot]) -> Result<Vec<u8>, Refused> {
    // 28 bytes, and at most 29 for each shot
    let (mut out, mut written) = (vec![0; 28 + 29 * shots.len()], 0);
    Refused::unless_done(lent::cif_write(&numbers_of(shots), &mut out, &mut written))?;
    out.truncate(written);
    Ok(out)
}

/// The shots of such a text. Refuses: 22, with the offset of the first line at fault.
#[cfg(has_cif)]
pub fn cif_read(text: &[u8]) -> Result<Vec<Shot>, Refused> {
    // a shot has a line of at least 11 bytes
    let (mut list, mut shots, mut offset) = (vec![0; 4 * (text.len() / 11)], 0, 0);
    let number = lent::cif_read(text, &mut list, &mut shots, &mut offset);
    Refused::placed(number, Some(offset))?;
    Ok(shots_in(&list[..4 * shots]))
}
