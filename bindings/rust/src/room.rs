//! Room that is enough for every figure and every job: `enum pw_room` of the header.

/// 16 lines each way: 120 x 120 pieces.
pub const TABLE_ENTRIES: usize = 14_400;
/// 225 shots of 4 numbers.
pub const LIST_NUMBERS: usize = 900;
/// 116,964 shots of 4 numbers: every figure and every largest side.
pub const DIVIDED_NUMBERS: usize = 467_856;
/// 32 corners of 2 numbers.
pub const CORNER_NUMBERS: usize = 64;
/// 8 rings.
pub const RING_LENGTHS: usize = 8;
/// Threshold, weight and count of outlines.
pub const HEADER_BYTES: usize = 6;
/// 0, R, 8 times V, and 64 coordinates of 3 bytes.
pub const OUTLINE_BYTES: usize = 202;
pub const JOB_BYTES: usize = 4096;
/// The most cuts that a fracture weighs: 16 lines each way.
pub const CUTS_MOST: usize = 134_400;
/// Enough for the list of any fracture without a largest side; for any list 2 more for each of its numbers.
pub const EDGE_NUMBERS: usize = 60;
/// 255 outlines.
pub const INDEX_ENTRIES: usize = 255;
/// 28, and 29 for each of 225 shots: the CIF text of any fracture without a largest side.
pub const CIF_BYTES: usize = 6553;
