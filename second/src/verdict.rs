//! Repeat length, heavy tasks, priority order and admission.

use crate::table::{MAX_TASKS, Row};

pub const MAX_REPEAT_LENGTH: u32 = 1_000_000_000;

/// The least common multiple of the periods, or none if it is above the bound.
/// A partial value divides the whole one, so stopping early is exact.
pub fn repeat_length(rows: &[Row]) -> Option<u32> {
    let mut h = 1u64;
    for row in rows {
        let t = u64::from(row.t);
        h *= t / gcd(h, t);
        if h > u64::from(MAX_REPEAT_LENGTH) {
            return None;
        }
    }
    Some(h as u32)
}

fn gcd(mut a: u64, mut b: u64) -> u64 {
    while b != 0 {
        (a, b) = (b, a % b);
    }
    a
}

pub fn is_heavy(m: u32, row: Row) -> bool {
    row.c * (3 * m - 2) > row.t * m
}

/// Task numbers, highest priority first, and how many of them are heavy.
pub fn order(m: u32, rows: &[Row]) -> ([u8; MAX_TASKS], usize) {
    let mut order = [0; MAX_TASKS];
    let mut keys = [0; MAX_TASKS];
    let mut heavy = 0;
    for (i, &row) in rows.iter().enumerate() {
        order[i] = i as u8 + 1;
        // No period is 0: heavy tasks come first and keep table order.
        let is_heavy = is_heavy(m, row);
        keys[i] = if is_heavy { 0 } else { row.t };
        heavy += usize::from(is_heavy);
    }
    order[..rows.len()].sort_unstable_by_key(|&task| (keys[task as usize - 1], task));
    (order, heavy)
}

/// The sum of C × (H/T).
pub fn scaled_sum(rows: &[Row], h: u32) -> u64 {
    rows.iter()
        .map(|row| u64::from(row.c) * u64::from(h / row.t))
        .sum()
}

/// Both sides of the admission test, load first.
pub fn sides(m: u32, rows: &[Row], h: u32) -> (u64, u64) {
    let m = u64::from(m);
    ((3 * m - 2) * scaled_sum(rows, h), m * m * u64::from(h))
}

pub fn admitted(m: u32, rows: &[Row], h: u32) -> bool {
    let (load, limit) = sides(m, rows, h);
    load <= limit
}
