//! Joining shots in pairs (Item 13). Whether two shots can be joined is told by their union
//! alone: they share no area, and it has fewer corners than the eight that two rectangles have. Whoever is
//! free is kept in a queue.

use crate::Told;

/// An entry of the table, as the C interface lays it out.
#[repr(C)]
#[derive(Clone, Copy, PartialEq, Eq, Debug)]
pub struct Joined {
    pub x_low: u16,
    pub y_low: u16,
    pub x_high: u16,
    pub y_high: u16,
    pub partner: usize,
}

type Shot = [u16; 4];

fn holds(shot: &Shot, x: i32, y: i32) -> bool {
    shot[0] as i32 <= x && x < shot[2] as i32 && shot[1] as i32 <= y && y < shot[3] as i32
}

/// The corners of a union: at each point where two sides may meet, the four unit squares around it. An odd
/// number of them inside is a corner; two that lie across are two.
pub fn corners(a: &Shot, b: &Shot) -> usize {
    let lines = |axis: usize| -> Vec<i32> {
        let mut all: Vec<i32> = [a[axis], a[axis + 2], b[axis], b[axis + 2]].map(i32::from).to_vec();
        all.sort_unstable();
        all.dedup();
        all
    };
    let inside = |x: i32, y: i32| holds(a, x, y) || holds(b, x, y);
    let mut count = 0;
    for &x in &lines(0) {
        for &y in &lines(1) {
            let square = [inside(x - 1, y - 1), inside(x, y - 1), inside(x - 1, y), inside(x, y)];
            count += match square.iter().filter(|&&within| within).count() {
                1 | 3 => 1,
                2 if square[0] == square[3] => 2,
                _ => 0,
            };
        }
    }
    count
}

fn apart(a: &Shot, b: &Shot) -> bool {
    a[2] <= b[0] || b[2] <= a[0] || a[3] <= b[1] || b[3] <= a[1]
}

pub fn can_be_joined(a: &Shot, b: &Shot) -> bool {
    apart(a, b) && corners(a, b) <= 6
}

/// 21 of a list: not four numbers to a shot, or a shot without area.
pub fn bad_shots(list: &[u16]) -> bool {
    list.len() % 4 != 0 || list.chunks(4).any(|s| s[2] <= s[0] || s[3] <= s[1])
}

/// The partner of each shot: from the front of the queue each takes the first behind it that it can join.
pub fn partners(shots: &[Shot]) -> Vec<usize> {
    let mut partner: Vec<usize> = (0..shots.len()).collect();
    let mut queue: Vec<usize> = (0..shots.len()).rev().collect();
    while let Some(i) = queue.pop() {
        if let Some(at) = queue.iter().rposition(|&j| can_be_joined(&shots[i], &shots[j])) {
            let j = queue.remove(at);
            (partner[i], partner[j]) = (j, i);
        }
    }
    partner
}

pub fn told_join(list: &[u16], table: &mut [Joined]) -> Told {
    if bad_shots(list) {
        return Told::refused(21);
    }
    let shots: Vec<Shot> = list.chunks(4).map(|s| [s[0], s[1], s[2], s[3]]).collect();
    if table.len() < shots.len() {
        return Told::refused(14);
    }
    let partner = partners(&shots);
    for ((entry, shot), &partner) in table.iter_mut().zip(&shots).zip(&partner) {
        *entry = Joined { x_low: shot[0], y_low: shot[1], x_high: shot[2], y_high: shot[3], partner };
    }
    let free = partner.iter().enumerate().filter(|&(i, &j)| i == j).count();
    Told::done(&[(free + (shots.len() - free) / 2) as u64])
}
