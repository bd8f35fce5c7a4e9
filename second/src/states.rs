//! Stored states drawn at random: reached ones, well-formed ones that no run
//! reaches, and damaged ones.

use crate::machine::{MAX_CLOCK, State, frame_len};
use crate::random::{self, Random};
use crate::stored;
use crate::table::{MAX_TASKS, Table};

/// A random table that passes its tests.
pub fn table(random: &mut Random) -> Table {
    loop {
        let (m, rows) = random::rows(random);
        if let Ok(table) = Table::from_rows(m, &rows) {
            return table;
        }
    }
}

/// The state after a run of some slots from the fresh one.
pub fn reached(random: &mut Random) -> State {
    let most = random.pick(&[0, 3, 40, 600]);
    let slots = random.between(0, most);
    after(table(random), slots)
}

pub fn after(table: Table, slots: u32) -> State {
    let mut frames = vec![0; slots as usize * frame_len(table.m)];
    let mut state = State::fresh(table);
    let run = state.run(slots.into(), &mut frames, 0);
    run.expect("a fresh state runs within a buffer of its size");
    state
}

/// A well-formed state at any clock, whose counts need not come from a run.
pub fn formed(random: &mut Random) -> State {
    let mut state = State::fresh(table(random));
    let (m, n) = (state.table.m, state.table.n);
    state.clock = clock(random, &state.table);
    let clock = u64::from(state.clock);
    for i in 0..n {
        let row = state.table.rows[i];
        let released = u64::from(row.c) * u64::from(state.clock.div_ceil(row.t));
        if !state.clock.is_multiple_of(row.t) {
            let any = random.between(0, row.c);
            state.left[i] = random.pick(&[0, 1, row.c, any]);
        }
        let rest = released - u64::from(state.left[i]);
        state.dropped[i] = edge(random, rest);
        state.done[i] = rest - state.dropped[i];
        state.last[i] = random.between(0, m) as u8;
    }
    let (moves, misses) = (u64::from(m) * clock, MAX_TASKS as u64 * clock);
    state.moves = edge(random, moves);
    state.misses = edge(random, misses);
    state
}

/// Nothing, the most, or any number between.
fn edge(random: &mut Random, most: u64) -> u64 {
    let any = random.up_to(most);
    random.pick(&[0, most, any])
}

fn clock(random: &mut Random, table: &Table) -> u32 {
    let t = table.rows[random.below(table.n)].t;
    match random.below(6) {
        0 => MAX_CLOCK,
        1 => MAX_CLOCK - random.between(0, 70),
        2 => random.between(0, 3),
        // At or next to a boundary of some task.
        3 => (random.between(1, MAX_CLOCK / t) * t + random.between(0, 2) - 1).min(MAX_CLOCK),
        4 => random.between(0, 5_000),
        _ => random.between(0, MAX_CLOCK),
    }
}

/// Bytes that were a stored state before one or two edits; some are one still.
pub fn damaged(random: &mut Random) -> Vec<u8> {
    let state = if random.chance(2) {
        reached(random)
    } else {
        formed(random)
    };
    let mut bytes = stored::store(&state);
    for _ in 0..random.between(1, 2) {
        damage(random, &mut bytes);
    }
    bytes
}

/// Places and widths of the fields, of the fixed part and within a record.
const FIXED: [(usize, usize); 5] = [(0, 1), (1, 1), (2, 4), (6, 8), (14, 8)];
const RECORD: [(usize, usize); 7] = [(0, 4), (4, 4), (8, 1), (9, 1), (10, 8), (18, 8), (26, 8)];

fn damage(random: &mut Random, bytes: &mut Vec<u8>) {
    // An earlier edit may have cut the fields off.
    let n = bytes.len().saturating_sub(22) / 34;
    if n == 0 {
        bytes.push(0);
        return;
    }
    let record = 22 + 34 * random.below(n);
    let other = 22 + 34 * random.below(n);
    match random.below(12) {
        0..=2 => {
            let (at, width) = random.pick(&FIXED);
            change(random, &mut bytes[at..at + width]);
        }
        3..=6 => {
            let (at, width) = random.pick(&RECORD);
            change(random, &mut bytes[record + at..record + at + width]);
        }
        7 => {
            // Units that change hands leave the sum; some wrap round to it.
            let (few, any) = (random.up_to(70_000), random.next());
            let units = random.pick(&[1, 2, few, any]);
            let [from, to] = random.pick(&[[10, 18], [18, 10], [18, 26], [26, 18], [26, 10]]);
            add(bytes, record + from, units.wrapping_neg());
            add(bytes, record + to, units);
        }
        8 => {
            // Two tasks change places in the order, or two last cores.
            let field = random.pick(&[8, 9]);
            bytes.swap(record + field, other + field);
        }
        9 => bytes.truncate(random.below(bytes.len())),
        10 => match random.below(4) {
            0 => bytes.push(random.pick(&[0, 1, 0xff])),
            1 => bytes.extend_from_within(record..record + 34),
            2 => drop(bytes.drain(record..record + 34)),
            // One task more or fewer, and n with it.
            _ => {
                bytes.extend_from_within(record..record + 34);
                bytes[1] = bytes[1].wrapping_add(1);
            }
        },
        _ => {
            let i = random.below(bytes.len());
            bytes[i] = random.next() as u8;
        }
    }
}

fn add(bytes: &mut [u8], at: usize, units: u64) {
    let field = &mut bytes[at..at + 8];
    let old = u64::from_be_bytes(std::array::from_fn(|i| field[i]));
    field.copy_from_slice(&old.wrapping_add(units).to_be_bytes());
}

/// Sets a field to a neighbour of what it was or to an edge of what it may be.
fn change(random: &mut Random, field: &mut [u8]) {
    let width = field.len();
    let old = field.iter().fold(0, |v, &byte| v << 8 | u64::from(byte));
    let (any, lower) = (random.next(), random.up_to(old));
    let new = random.pick(&[
        old.wrapping_add(1),
        old.wrapping_sub(1),
        old.wrapping_mul(2),
        old | 1 << (8 * width - 1),
        0,
        1,
        33,
        65,
        65_536,
        u64::from(MAX_CLOCK) + 1,
        u64::MAX,
        any,
        lower,
    ]);
    field.copy_from_slice(&new.to_be_bytes()[8 - width..]);
}

/// Any bytes, of a length that their own n asks for or nearly.
pub fn any_bytes(random: &mut Random) -> Vec<u8> {
    let n = random.pick(&[0, 1, 2, 3, 64, 65, 255]);
    let len = match random.below(4) {
        0 => random.below(100),
        1 => (stored::len(n) + random.below(3)).saturating_sub(1),
        _ => stored::len(n),
    };
    let mut bytes: Vec<u8> = (0..len)
        .map(|_| match random.below(3) {
            0 => 0,
            1 => random.pick(&[1, 2, 3, 0xff]),
            _ => random.next() as u8,
        })
        .collect();
    if let [m, count, ..] = &mut bytes[..] {
        (*m, *count) = (random.between(2, 32) as u8, n as u8);
    }
    bytes
}

#[cfg(test)]
mod tests {
    use super::*;

    #[test]
    fn states_are_what_their_names_say() {
        let mut refused = 0;
        for i in 0..2_000 {
            let mut random = Random::new(3, 0, i);
            assert!(reached(&mut random).well_formed());
            assert!(formed(&mut random).well_formed(), "number {i}");
            refused += u32::from(stored::load(&damaged(&mut random)).is_none());
            any_bytes(&mut random);
        }
        // Some edits leave a well-formed state, as a change of the total moves may.
        assert!((1_200..1_900).contains(&refused), "{refused}");
    }
}
