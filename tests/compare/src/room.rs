//! Lent memory with canaries before and beyond it: a buffer lent to the law and the library, and what a fracture leaves.

use crate::Library;
use law::joining::Joined;
use law::{Calls, Law, Told};

/// What a buffer is made of.
pub trait Element: Copy + PartialEq + std::fmt::Debug {
    fn canary(at: usize) -> Self;

    /// From the low bits of a number.
    fn of(bits: u64) -> Self;
}

/// What a buffer of this length holds before a call: no element as its neighbour, and others by another seed.
pub fn marks<T: Element>(length: usize, seed: u64) -> Vec<T> {
    (0..length as u64).map(|n| T::of(n.wrapping_mul(0x9e37_79b9_7f4a_7c15) ^ seed)).collect()
}

macro_rules! numbers {
    ($($number:ty: $canary:literal)*) => {$(
        impl Element for $number {
            fn canary(at: usize) -> $number {
                $canary ^ at as $number
            }

            fn of(bits: u64) -> $number {
                bits as $number
            }
        }
    )*};
}
numbers! { u8: 0xa5 u16: 0xa5c3 u32: 0xa5c3_5a3c usize: 0xa5c3_5a3c_c3a5_3c5a }

impl Element for Joined {
    fn canary(at: usize) -> Joined {
        let n = u16::canary(at);
        Joined { x_low: n, y_low: !n, x_high: n ^ 1, y_high: n ^ 2, partner: !at }
    }

    fn of(bits: u64) -> Joined {
        let [x_low, y_low, x_high, y_high] = [0, 16, 32, 48].map(|from| (bits >> from) as u16);
        Joined { x_low, y_low, x_high, y_high, partner: bits as usize }
    }
}

/// Elements on either side.
const MARGIN: usize = 16;

/// A buffer of some length between canaries.
#[derive(Clone)]
pub struct Room<T: Element> {
    whole: Vec<T>,
    len: usize,
}

impl<T: Element> Room<T> {
    /// With these contents.
    pub fn new(contents: &[T]) -> Room<T> {
        let side = |from: usize| (from..from + MARGIN).map(T::canary);
        let whole: Vec<T> = side(0).chain(contents.iter().copied()).chain(side(MARGIN)).collect();
        Room { whole, len: contents.len() }
    }

    pub fn lent(&mut self) -> &mut [T] {
        &mut self.whole[MARGIN..MARGIN + self.len]
    }

    pub fn held(&self) -> &[T] {
        &self.whole[MARGIN..MARGIN + self.len]
    }

    /// Where two rooms differ, canaries among them: the place counted from the front of what is lent.
    pub fn differs(&self, other: &Room<T>) -> Option<(isize, T, T)> {
        assert_eq!(self.len, other.len);
        let at = self.whole.iter().zip(&other.whole).position(|(a, b)| a != b)?;
        Some((at as isize - MARGIN as isize, self.whole[at], other.whole[at]))
    }
}

/// Lends the law and the library a buffer with these contents each, and holds answer and buffer of the one to the
/// other's; gives them.
pub fn lend_both<T: Element>(
    library: Library, contents: &[T], said: &dyn Fn() -> String, call: impl Fn(&dyn Calls, &mut [T]) -> Told,
) -> (Told, Room<T>) {
    let (mut right_room, mut room) = (Room::new(contents), Room::new(contents));
    let (right, told) = (call(&Law, right_room.lent()), call(library, room.lent()));
    assert!(told == right, "{}: {told:?} and not {right:?}", said());
    if let Some((at, right, left)) = right_room.differs(&room) {
        panic!("{} left {left:?}, not {right:?}, at {at}", said());
    }
    (told, room)
}

/// What a fracture leaves: its answer, and the cost table and the list of shots that it was lent.
pub struct Left {
    pub told: Told,
    pub table: Room<u32>,
    pub list: Room<u16>,
}

impl Left {
    /// Lends a table and a list with these contents to a call.
    pub fn lend(table: &[u32], list: &[u16], call: impl FnOnce(&mut [u32], &mut [u16]) -> Told) -> Left {
        let (mut table, mut list) = (Room::new(table), Room::new(list));
        let told = call(table.lent(), list.lent());
        Left { told, table, list }
    }

    /// Holds what someone else left to this, which is right.
    pub fn hold(&self, who: &str, its: &Left, said: &dyn Fn() -> String) {
        assert!(its.told == self.told, "{who}: {}\n  answers {:?} and not {:?}", said(), its.told, self.told);
        if let Some((at, right, wrong)) = self.table.differs(&its.table) {
            panic!("{who}: {}\n  table at {at}: {wrong} and not {right}", said());
        }
        if let Some((at, right, wrong)) = self.list.differs(&its.list) {
            panic!("{who}: {}\n  list at {at}: {wrong} and not {right}", said());
        }
    }
}
