//! A shot list as a CIF text and back (Item 12). A line is read by splitting it and
//! printing its numbers anew, so that only the one form passes.

use crate::Told;

/// 21: no shot list.
pub fn bad_shots(list: &[u16]) -> bool {
    list.len() % 4 != 0 || list.chunks(4).any(|s| s[2] <= s[0] || s[3] <= s[1])
}

/// The text of a shot list.
pub fn text(list: &[u16]) -> String {
    let mut out = String::from("DS 1 1 20;\nL NM;\n");
    for s in list.chunks(4) {
        let [a, b, c, d] = [s[0], s[1], s[2], s[3]].map(u32::from);
        out += &format!("B {} {} {} {};\n", 2 * (c - a), 2 * (d - b), a + c, b + d);
    }
    out + "DF;\nC 1;\nE\n"
}

/// Writing: the bytes written, and the buffer afterwards.
pub fn told_write(list: &[u16], out: &mut [u8]) -> Told {
    if bad_shots(list) {
        return Told::refused(21);
    }
    let bytes = text(list).into_bytes();
    if out.len() < bytes.len() {
        return Told::refused(14);
    }
    out[..bytes.len()].copy_from_slice(&bytes);
    Told::done(&[bytes.len() as u64])
}

/// One direction of a box: low and high end.
fn ends(side: i128, centre: i128) -> Option<[u16; 2]> {
    let (twice_low, twice_high) = (2 * centre - side, 2 * centre + side);
    let whole = side > 0 && twice_low % 4 == 0 && twice_high % 4 == 0;
    let inside = twice_low >= 0 && twice_high / 4 <= 65535;
    (whole && inside).then(|| [(twice_low / 4) as u16, (twice_high / 4) as u16])
}

/// The shot of a box line, without its line feed.
fn shot(line: &str) -> Option<[u16; 4]> {
    let numbers: Vec<i128> = line.strip_prefix("B ")?.strip_suffix(';')?.split(' ').map(|n| n.parse().ok()).collect::<Option<_>>()?;
    let &[a, b, x, y] = numbers.as_slice() else { return None };
    if format!("B {a} {b} {x} {y};") != line {
        return None;
    }
    let ([xl, xh], [yl, yh]) = (ends(a, x)?, ends(b, y)?);
    Some([xl, yl, xh, yh])
}

/// The line that starts at a place, without its line feed.
fn line(text: &[u8], at: usize) -> Option<&str> {
    let end = text[at..].iter().position(|&b| b == b'\n')?;
    std::str::from_utf8(&text[at..at + end]).ok()
}

/// The list of a text, or the offset of the first line at fault.
pub fn shots(text: &[u8]) -> Result<Vec<u16>, usize> {
    let mut at = 0;
    let mut list = Vec::new();
    let mut wanted = ["DS 1 1 20;", "L NM;", "DF;", "C 1;", "E"].iter().peekable();
    while let Some(&&want) = wanted.peek() {
        let found = line(text, at).ok_or(at)?;
        if found == want {
            wanted.next();
        } else if want == "DF;" {
            list.extend(shot(found).ok_or(at)?);
        } else {
            return Err(at);
        }
        at += found.len() + 1;
    }
    if at < text.len() { Err(at) } else { Ok(list) }
}

/// Reading: shots and offset, and the list afterwards.
pub fn told_read(text: &[u8], list: &mut [u16]) -> Told {
    match shots(text) {
        Err(at) => Told::of(22, &[0, at as u64]),
        Ok(found) if list.len() < found.len() => Told::refused(14),
        Ok(found) => {
            list[..found.len()].copy_from_slice(&found);
            Told::done(&[found.len() as u64 / 4])
        }
    }
}
