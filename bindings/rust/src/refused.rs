//! When the answer is no.

use std::fmt;

/// A call answered no: the refusal's number, and what the call tells beside it.
#[derive(Clone, Copy, PartialEq, Eq, Debug)]
pub struct Refused {
    /// 1 to 23, `enum pw_refusal` of the header.
    pub number: u32,
    /// Where in the bytes handed over: the byte at fault, or where the record or line at fault begins. None where the
    /// call or the refusal tells no place.
    pub offset: Option<usize>,
    /// Beside 7 the shots that there are, else 0.
    pub shots: u32,
}

/// What each number means, from 1.
const TEXTS: [&str; 23] = [
    "threshold or weight above 1000",
    "not 1 to 8 rings of 4 to 32 corners each, 32 in all",
    "an edge changes both coordinates",
    "an edge changes neither coordinate, or two neighbours change the same one",
    "nothing is inside",
    "the cost table has fewer entries than there are pieces",
    "the shot list holds fewer than 4 numbers a shot",
    "the bytes end within a number or a record, or before one",
    "a number's last byte is 0 and not its only one",
    "a number has over three bytes, or is outside its range",
    "bytes follow the last outline",
    "the job is over 4096 bytes",
    "there is no outline of that number",
    "a buffer is too short for what would be written",
    "there is no preset of that number",
    "a record out of order, of another data type or of wrong length, or bytes after ENDEL",
    "the last point is unlike the first",
    "the extent is above 65535",
    "the largest side is below 200, below twice the threshold, or above 65535",
    "the job has 255 outlines already",
    "not four numbers a shot, or a shot without area",
    "not a CIF text of our form, or a shot in it that is none",
    "there is no edge of that number",
];

impl Refused {
    /// Nothing where the number is 0.
    pub(crate) fn unless_done(number: u32) -> Result<(), Refused> {
        Refused::placed(number, None)
    }

    /// The same of a call that tells an offset: beside 8 to 11 and 22 it is a place.
    pub(crate) fn placed(number: u32, offset: Option<usize>) -> Result<(), Refused> {
        match number {
            0 => Ok(()),
            8..=11 | 22 => Err(Refused { number, offset, shots: 0 }),
            _ => Err(Refused { number, offset: None, shots: 0 }),
        }
    }

    /// What the number means, in a line.
    pub fn text(&self) -> &'static str {
        let text = TEXTS.get((self.number as usize).wrapping_sub(1));
        text.copied().unwrap_or("a refusal that this crate does not know")
    }
}

impl fmt::Display for Refused {
    fn fmt(&self, f: &mut fmt::Formatter<'_>) -> fmt::Result {
        write!(f, "refused {}", self.number)?;
        if let Some(offset) = self.offset {
            write!(f, " at {offset}")?;
        }
        write!(f, ": {}", self.text())
    }
}

impl std::error::Error for Refused {}
