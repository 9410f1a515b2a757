//! The drawings of the scope's table with their outcomes, and the worked example; the same for
//! windows (Item 1) and for pinwheels (Item 8).

use law::Drawing;

pub const L: [u16; 12] = [0, 0, 100, 0, 100, 20, 60, 20, 60, 80, 0, 80];
pub const B: [u16; 16] = [0, 0, 200, 0, 200, 50, 210, 50, 210, 150, 200, 150, 200, 200, 0, 200];

/// The worked example: a job and what the job program prints of it.
pub const JOB: [u8; 16] = [
    0x19, 0x28, 0x01, 0x06, 0x00, 0x00, 0x64, 0x00, 0x64, 0x14, 0x3C, 0x14, 0x3C, 0x50, 0x00, 0x50,
];
pub const PRINTED: &str = "job 1\noutline 0 shots 2 cost 5200 sliver 80\n0 0 60 80\n60 0 100 20\n";

/// A frame with a window: corners of both, and their job with what is printed of it.
pub const FRAMED: [u16; 16] = [0, 0, 100, 0, 100, 100, 0, 100, 30, 30, 70, 30, 70, 70, 30, 70];
pub const FRAMED_JOB: [u8; 23] = [
    0x19, 0x28, 0x01, 0x00, 0x02, 0x04, 0x00, 0x00, 0x64, 0x00, 0x64, 0x64, 0x00, 0x64, 0x04, 0x1E, 0x1E, 0x46, 0x1E,
    0x46, 0x46, 0x1E, 0x46,
];
pub const FRAMED_PRINTED: &str =
    "job 1\noutline 0 shots 4 cost 4000 sliver 0\n0 0 30 100\n30 0 70 30\n30 70 70 100\n70 0 100 100\n";
/// With a threshold of 40 all four shots are slivers.
pub const FRAMED_PRINTED_AT_40: &str =
    "job 1\noutline 0 shots 4 cost 21600 sliver 440\n0 0 30 100\n30 0 70 30\n30 70 70 100\n70 0 100 100\n";

/// A row: the drawing, threshold and weight, table and list lent, and the outcome: number, shots,
/// cost, sliver, and the shot list where the scope gives it (else empty).
pub struct Row {
    pub name: &'static str,
    pub corners: &'static [u16],
    /// ring lengths; none are named for an outline, which is one ring
    pub rings: Option<&'static [u16]>,
    pub rule: (u32, u32),
    pub room: (usize, usize),
    pub outcome: (u32, [u64; 3]),
    pub list: &'static [u16],
}

impl Row {
    pub fn drawing(&self) -> Drawing {
        match self.rings {
            Some(rings) => Drawing { corners: self.corners.to_vec(), rings: rings.to_vec() },
            None => Drawing::outline(self.corners),
        }
    }
}

const fn row(
    name: &'static str,
    corners: &'static [u16],
    rule: (u32, u32),
    outcome: (u32, [u64; 3]),
    list: &'static [u16],
) -> Row {
    Row { name, corners, rings: None, rule, room: (14_400, 900), outcome, list }
}

/// A row of Item 1, by the rule 25, 40.
const fn ringed(
    name: &'static str,
    corners: &'static [u16],
    rings: &'static [u16],
    outcome: (u32, [u64; 3]),
    list: &'static [u16],
) -> Row {
    Row { name, corners, rings: Some(rings), rule: (25, 40), room: (14_400, 900), outcome, list }
}

const SMALL: [u16; 8] = [0, 0, 10, 0, 10, 10, 0, 10];
const FLECK: [u16; 8] = [0, 0, 10, 0, 10, 20, 0, 20];
const SMALL_L: [u16; 12] = [0, 0, 20, 0, 20, 10, 10, 10, 10, 20, 0, 20];

pub const ROWS: [Row; 32] = [
    row("L at 25, 40", &L, (25, 40), (0, [2, 5200, 80]), &[0, 0, 60, 80, 60, 0, 100, 20]),
    row("L at 20, 40", &L, (20, 40), (0, [2, 2000, 0]), &[0, 0, 60, 80, 60, 0, 100, 20]),
    row("B at 25, 40", &B, (25, 40), (0, [3, 3000, 0]), &[0, 0, 200, 50, 0, 50, 210, 150, 0, 150, 200, 200]),
    row("B at 25, 10", &B, (25, 10), (0, [2, 3000, 100]), &[0, 0, 200, 200, 200, 50, 210, 150]),
    row("B at 25, 9", &B, (25, 9), (0, [2, 2900, 100]), &[0, 0, 200, 200, 200, 50, 210, 150]),
    row("B at 25, 11", &B, (25, 11), (0, [3, 3000, 0]), &[0, 0, 200, 50, 0, 50, 210, 150, 0, 150, 200, 200]),
    row("bar of 24 at 25, 40", &[0, 0, 100, 0, 100, 24, 0, 24], (25, 40), (0, [1, 9000, 200]), &[0, 0, 100, 24]),
    row("bar of 24 at 24, 40", &[0, 0, 100, 0, 100, 24, 0, 24], (24, 40), (0, [1, 1000, 0]), &[0, 0, 100, 24]),
    row("square of 10 at 25, 40", &SMALL, (25, 40), (0, [1, 1800, 20]), &[0, 0, 10, 10]),
    row("square of 10 at 11, 40", &SMALL, (11, 40), (0, [1, 1800, 20]), &[0, 0, 10, 10]),
    row("square of 10 at 10, 40", &SMALL, (10, 40), (0, [1, 1000, 0]), &[0, 0, 10, 10]),
    row("fleck of 10 by 20 at 25, 40", &FLECK, (25, 40), (0, [1, 2600, 40]), &[0, 0, 10, 20]),
    row("fleck of 10 by 20 at 15, 40", &FLECK, (15, 40), (0, [1, 2600, 40]), &[0, 0, 10, 20]),
    row("fleck of 10 by 20 at 11, 40", &FLECK, (11, 40), (0, [1, 2600, 40]), &[0, 0, 10, 20]),
    row("fleck of 10 by 20 at 10, 40", &FLECK, (10, 40), (0, [1, 1000, 0]), &[0, 0, 10, 20]),
    row(
        "bar with a line across, kept whole at 25, 100",
        &[15, 0, 0, 0, 0, 20, 15, 20, 15, 0, 30, 0, 30, 20, 15, 20],
        (25, 100),
        (0, [1, 7000, 60]),
        &[0, 0, 30, 20],
    ),
    row(
        "full pieces kept whole within at 25, 100",
        &[15, 30, 100, 30, 100, 0, 0, 0, 0, 60, 30, 60, 30, 20, 15, 20],
        (25, 100),
        (0, [4, 8000, 40]),
        &[0, 0, 15, 30, 15, 0, 30, 20, 0, 30, 30, 60, 30, 0, 100, 30],
    ),
    row(
        "block on a foot at 25, 40",
        &[15, 0, 25, 0, 25, 10, 100, 10, 100, 60, 0, 60, 0, 10, 15, 10],
        (25, 40),
        (0, [2, 2800, 20]),
        &[15, 0, 25, 10, 0, 10, 100, 60],
    ),
    row("small L at 25, 40", &SMALL_L, (25, 40), (0, [2, 4000, 50]), &[0, 0, 10, 20, 10, 0, 20, 10]),
    row("small L at 11, 40", &SMALL_L, (11, 40), (0, [2, 4000, 50]), &[0, 0, 10, 20, 10, 0, 20, 10]),
    row(
        "two squares at a corner at 25, 40",
        &[0, 0, 10, 0, 10, 20, 20, 20, 20, 10, 0, 10],
        (25, 40),
        (0, [2, 3600, 40]),
        &[0, 0, 10, 10, 10, 10, 20, 20],
    ),
    row(
        "two squares at a corner at 0, 40",
        &[0, 0, 10, 0, 10, 20, 20, 20, 20, 10, 0, 10],
        (0, 40),
        (0, [2, 2000, 0]),
        &[0, 0, 10, 10, 10, 10, 20, 20],
    ),
    row("unit square twice at 25, 40", &[0, 0, 1, 0, 1, 1, 0, 1, 0, 0, 1, 0, 1, 1, 0, 1], (25, 40), (5, [0; 3]), &[]),
    row("unit square twice at 0, 0", &[0, 0, 1, 0, 1, 1, 0, 1, 0, 0, 1, 0, 1, 1, 0, 1], (0, 0), (5, [0; 3]), &[]),
    row("slanted at 25, 40", &[0, 0, 10, 0, 10, 10, 5, 5], (25, 40), (3, [0; 3]), &[]),
    row("slanted at 1000, 1000", &[0, 0, 10, 0, 10, 10, 5, 5], (1000, 1000), (3, [0; 3]), &[]),
    row("straight on at 25, 40", &[0, 0, 10, 0, 20, 0, 20, 10, 0, 10], (25, 40), (4, [0; 3]), &[]),
    row("straight on at 0, 1000", &[0, 0, 10, 0, 20, 0, 20, 10, 0, 10], (0, 1000), (4, [0; 3]), &[]),
    Row { name: "L with a table of 8", corners: &L, rings: None, rule: (25, 40), room: (8, 900), outcome: (6, [0; 3]), list: &[] },
    Row {
        name: "L with a table of 9",
        corners: &L,
        rings: None,
        rule: (25, 40),
        room: (9, 900),
        outcome: (0, [2, 5200, 80]),
        list: &[0, 0, 60, 80, 60, 0, 100, 20],
    },
    Row { name: "L with a list of 7", corners: &L, rings: None, rule: (25, 40), room: (14_400, 7), outcome: (7, [2, 0, 0]), list: &[] },
    Row {
        name: "L with a list of 8",
        corners: &L,
        rings: None,
        rule: (25, 40),
        room: (14_400, 8),
        outcome: (0, [2, 5200, 80]),
        list: &[0, 0, 60, 80, 60, 0, 100, 20],
    },
];

const SQUARE: [u16; 8] = [0, 0, 100, 0, 100, 100, 0, 100];
const SHOTS_OF_FRAMED: [u16; 16] = [0, 0, 30, 100, 30, 0, 70, 30, 30, 70, 70, 100, 70, 0, 100, 100];

/// Squares of 5 at (10 k, 0), k below 8.
pub const EIGHT: [u16; 64] = {
    let mut corners = [0; 64];
    let mut k = 0;
    while k < 8 {
        let (left, right) = (10 * k as u16, 10 * k as u16 + 5);
        let square = [left, 0, right, 0, right, 5, left, 5];
        let mut at = 0;
        while at < 8 {
            corners[8 * k + at] = square[at];
            at += 1;
        }
        k += 1;
    }
    corners
};

/// Item 1: figures of several rings, and refusals 2 to 5 over them.
pub const RINGS: [Row; 23] = [
    ringed("frame with a window", &FRAMED, &[4, 4], (0, [4, 4000, 0]), &SHOTS_OF_FRAMED),
    Row {
        rule: (40, 40),
        ..ringed("frame with a window at 40, 40", &FRAMED, &[4, 4], (0, [4, 21_600, 440]), &SHOTS_OF_FRAMED)
    },
    ringed(
        "window and frame exchanged",
        &[30, 30, 70, 30, 70, 70, 30, 70, 0, 0, 100, 0, 100, 100, 0, 100],
        &[4, 4],
        (0, [4, 4000, 0]),
        &SHOTS_OF_FRAMED,
    ),
    // 4 by 4 lines: 6 x 6 pieces
    Row { room: (35, 900), ..ringed("frame with a window, table of 35", &FRAMED, &[4, 4], (6, [0; 3]), &[]) },
    Row {
        room: (36, 16),
        ..ringed("frame with a window, table of 36, list of 16", &FRAMED, &[4, 4], (0, [4, 4000, 0]), &SHOTS_OF_FRAMED)
    },
    Row { room: (36, 15), ..ringed("frame with a window, list of 15", &FRAMED, &[4, 4], (7, [4, 0, 0]), &[]) },
    ringed(
        "two squares that touch",
        &[0, 0, 10, 0, 10, 10, 0, 10, 10, 0, 20, 0, 20, 10, 10, 10],
        &[4, 4],
        (0, [1, 2600, 40]),
        &[0, 0, 20, 10],
    ),
    ringed(
        "eight squares",
        &EIGHT,
        &[4; 8],
        (0, [8, 11_200, 80]),
        &[
            0, 0, 5, 5, 10, 0, 15, 5, 20, 0, 25, 5, 30, 0, 35, 5, 40, 0, 45, 5, 50, 0, 55, 5, 60, 0, 65, 5, 70, 0, 75, 5,
        ],
    ),
    ringed("no ring", &SQUARE, &[], (2, [0; 3]), &[]),
    ringed("no ring, no corners", &[], &[], (2, [0; 3]), &[]),
    ringed("a square as a ring of 3", &SQUARE, &[3], (2, [0; 3]), &[]),
    ringed("a square as a ring of 5", &SQUARE, &[5], (2, [0; 3]), &[]),
    ringed("a square as a ring of 8: numbers counted", &SQUARE, &[8], (2, [0; 3]), &[]),
    ringed("lengths whose sum would wrap", &SQUARE, &[65_535, 5], (2, [0; 3]), &[]),
    ringed("a square and a ring of none", &SQUARE, &[4, 0], (2, [0; 3]), &[]),
    ringed("eight squares and a ring of none", &EIGHT, &[4, 4, 4, 4, 4, 4, 4, 4, 0], (2, [0; 3]), &[]),
    ringed("eight squares less a number", EIGHT.split_at(63).0, &[4; 8], (2, [0; 3]), &[]),
    ringed(
        "a square twice",
        &[0, 0, 100, 0, 100, 100, 0, 100, 0, 0, 100, 0, 100, 100, 0, 100],
        &[4, 4],
        (5, [0; 3]),
        &[],
    ),
    ringed("frame and window as one ring", &FRAMED, &[8], (3, [0; 3]), &[]),
    ringed(
        "a 4 in ring 1, a 3 in ring 2",
        &[0, 0, 10, 0, 20, 0, 20, 10, 0, 10, 0, 0, 10, 0, 10, 10, 5, 5],
        &[5, 4],
        (3, [0; 3]),
        &[],
    ),
    ringed(
        "a 3 in ring 1, three corners in ring 2",
        &[0, 0, 10, 0, 10, 10, 5, 5, 0, 0, 10, 0, 10, 10],
        &[4, 3],
        (2, [0; 3]),
        &[],
    ),
    ringed(
        "a sound ring 1, a 4 in ring 2",
        &[0, 0, 100, 0, 100, 100, 0, 100, 0, 0, 10, 0, 20, 0, 20, 10, 0, 10],
        &[4, 5],
        (4, [0; 3]),
        &[],
    ),
    // only the rule is looked at before the rings
    Row { rule: (1001, 40), ..ringed("no ring at 1001, 40", &SQUARE, &[], (1, [0; 3]), &[]) },
];

/// Item 1: what stands in a job behind `19 28 01`, and the refusal with the byte at fault (Item 5).
pub fn ring_faults() -> Vec<(&'static str, Vec<u8>, u32, usize)> {
    // an announced figure of two rings: V of the first, all its coordinates 0, and what follows
    let two = |first: u8, behind: &[u8]| {
        let coordinates = vec![0; 2 * first as usize];
        [&[0x00, 0x02, first][..], &coordinates, behind].concat()
    };
    let square: &[u8] = &[4, 0, 0, 1, 0, 1, 1, 0, 1];
    vec![
        ("one-ring-announced", [&[0x00, 0x01][..], square].concat(), 10, 4),
        ("no-ring-announced", vec![0x00, 0x00], 10, 4),
        ("nine-rings-announced", [&[0x00, 0x09][..], &square.repeat(9)].concat(), 10, 4),
        ("ring-of-0-corners", vec![0x00, 0x02, 0x00], 10, 5),
        ("ring-of-3-corners", vec![0x00, 0x02, 0x03], 10, 5),
        ("ring-of-33-corners", two(33, square), 10, 5),
        ("rings-of-28-and-5-corners", two(28, &[0x05]), 10, 62),
        ("rings-of-29-and-4-corners", two(29, &[0x04]), 10, 64),
        ("second-ring-of-0-corners", two(4, &[0x00]), 10, 14),
        ("ends-after-0", vec![0x00], 8, 4),
        ("ends-after-r", vec![0x00, 0x02], 8, 5),
        ("ends-before-second-ring", two(4, &[]), 8, 14),
        ("ends-in-second-ring", two(4, &square[..8]), 8, 22),
        ("0-not-shortest", vec![0x80, 0x00], 9, 4),
        ("r-not-shortest", vec![0x00, 0x82, 0x00], 9, 5),
        ("byte-behind-second-ring", [&two(4, square)[..], &[0]].concat(), 11, 23),
        ("third-ring-behind-two", [&two(4, square)[..], square].concat(), 11, 23),
    ]
}

/// The last row of the scope: numbers that are refused.
pub const NUMBERS: [(&[u8], u32); 2] = [(&[0x80, 0x00], 9), (&[0x80, 0x80, 0x80, 0x00], 10)];

/// Item 5: bytes, the place of a number in them, its refusal, and the byte at fault.
pub const GUILTY: [(&[u8], usize, u32, usize); 10] = [
    (&[], 0, 8, 0),
    (&[0x80, 0x80], 0, 8, 2),
    (&[0x05, 0x80], 1, 8, 2),
    // past the end: the length of the bytes, below the place asked for
    (&[0x05, 0x80], 7, 8, 2),
    (&[0x05], 9, 8, 1),
    (&[0x80, 0x00], 0, 9, 1),
    (&[0x80, 0x80, 0x00], 0, 9, 2),
    (&[0x05, 0x80, 0x80, 0x00], 1, 9, 3),
    (&[0x80, 0x80, 0x80], 0, 10, 2),
    (&[0x80, 0x80, 0x80, 0x00], 0, 10, 2),
];

/// A drawing that is best cut as a pinwheel of the second turn; W1 is the same with x replaced by 120 - x.
pub const W2: [u16; 24] =
    [100, 60, 40, 60, 40, 0, 110, 0, 110, 80, 100, 80, 100, 20, 70, 20, 70, 60, 10, 60, 10, 100, 100, 100];
pub const W1: [u16; 24] =
    [20, 60, 80, 60, 80, 0, 10, 0, 10, 80, 20, 80, 20, 20, 50, 20, 50, 60, 110, 60, 110, 100, 20, 100];
/// A frame with a window, with a jog at each corner.
pub const JOGS: [u16; 32] = [
    0, 20, 620, 20, 620, 0, 920, 0, 920, 620, 940, 620, 940, 920, 320, 920, 320, 940, 20, 940, 20, 320, 0, 320, 320, 320,
    620, 320, 620, 620, 320, 620,
];
/// Several pinwheels of one turn cost the same here.
const TIES: [u16; 48] = [
    16, 1, 13, 1, 13, 0, 12, 0, 12, 3, 11, 3, 11, 4, 14, 4, 14, 5, 15, 5, 15, 2, 16, 2, 14, 2, 13, 2, 13, 3, 14, 3, 14, 3,
    15, 3, 15, 4, 14, 4, 14, 5, 16, 5, 16, 0, 14, 0,
];
const W2_BY_WHEEL: [u16; 16] = [40, 0, 70, 60, 70, 0, 110, 20, 10, 60, 100, 100, 100, 20, 110, 80];
const W1_BY_WHEEL: [u16; 16] = [10, 0, 50, 20, 50, 0, 80, 60, 10, 20, 20, 80, 20, 60, 110, 100];

/// Rows by straight cuts, of drawings that pinwheels cut better.
pub const UNTURNED: [Row; 5] = [
    row("W2, straight", &W2, (25, 40), (0, [4, 11_200, 180]), &[40, 0, 70, 60, 70, 0, 100, 20, 10, 60, 100, 100, 100, 0, 110, 80]),
    row("W1, straight", &W1, (25, 40), (0, [4, 11_200, 180]), &[10, 0, 20, 80, 20, 0, 50, 20, 50, 0, 80, 60, 20, 60, 110, 100]),
    row("W2 at 25, 0, straight", &W2, (25, 0), (0, [4, 4000, 210]), &[40, 0, 100, 20, 40, 20, 70, 60, 10, 60, 100, 100, 100, 0, 110, 80]),
    ringed("frame with jogs, straight", &JOGS, &[12, 4], (0, [5, 5000, 0]), &[]),
    Row { rule: (2, 40), ..ringed("ties within a turn, straight", &TIES, &[12, 4, 4, 4], (0, [6, 6880, 22]), &[]) },
];

/// Rows by pinwheels.
pub const WHEELS: [Row; 8] = [
    row("W2", &W2, (25, 40), (0, [4, 10_800, 170]), &W2_BY_WHEEL),
    row("W1", &W1, (25, 40), (0, [4, 10_800, 170]), &W1_BY_WHEEL),
    row("W2 at 25, 0: the straight cut of equals", &W2, (25, 0), (0, [4, 4000, 210]), &[40, 0, 100, 20, 40, 20, 70, 60, 10, 60, 100, 100, 100, 0, 110, 80]),
    Row { room: (100, 16), ..row("W2, table of 100, list of 16", &W2, (25, 40), (0, [4, 10_800, 170]), &W2_BY_WHEEL) },
    Row { room: (100, 15), ..row("W2, list of 15", &W2, (25, 40), (7, [4, 0, 0]), &[]) },
    Row { room: (99, 900), ..row("W2, table of 99", &W2, (25, 40), (6, [0; 3]), &[]) },
    ringed(
        "frame with jogs",
        &JOGS,
        &[12, 4],
        (0, [4, 4000, 0]),
        &[0, 20, 620, 320, 620, 0, 920, 620, 20, 320, 320, 940, 320, 620, 940, 920],
    ),
    Row {
        rule: (2, 40),
        ..ringed(
            "ties within a turn",
            &TIES,
            &[12, 4, 4, 4],
            (0, [5, 5920, 23]),
            &[12, 0, 13, 3, 14, 0, 16, 1, 11, 3, 15, 4, 15, 2, 16, 5, 13, 1, 14, 2],
        )
    },
];
