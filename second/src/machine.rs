//! The slot machine: its state, a run with frames, leads and totals.

use crate::hex::DIGITS;
use crate::table::{MAX_CORES, MAX_TASKS, Refusal, Table};
use crate::verdict;

pub const MAX_CLOCK: u32 = 1_000_000_000;

/// Everything by task is in table order. Fields are open because a caller may
/// give back any numbers; `well_formed` says whether they make a state.
#[derive(Clone, PartialEq, Eq, Debug)]
pub struct State {
    pub table: Table,
    pub order: [u8; MAX_TASKS],
    pub clock: u32,
    pub left: [u32; MAX_TASKS],
    pub last: [u8; MAX_TASKS],
    pub done: [u64; MAX_TASKS],
    pub dropped: [u64; MAX_TASKS],
    pub moves: u64,
    pub misses: u64,
}

impl State {
    pub fn fresh(table: Table) -> State {
        let (order, _) = verdict::order(table.m, table.list());
        State {
            table,
            order,
            clock: 0,
            left: [0; MAX_TASKS],
            last: [0; MAX_TASKS],
            done: [0; MAX_TASKS],
            dropped: [0; MAX_TASKS],
            moves: 0,
            misses: 0,
        }
    }

    pub fn well_formed(&self) -> bool {
        let Table { m, n, rows } = &self.table;
        if self.table.test().is_err()
            || self.order != verdict::order(*m, self.table.list()).0
            || self.clock > MAX_CLOCK
        {
            return false;
        }
        let tasks = (0..*n).all(|i| {
            let (c, t) = (rows[i].c, rows[i].t);
            let released = u64::from(c) * u64::from(self.clock.div_ceil(t));
            // Counts given back may be near the top of their type.
            let counted = u128::from(self.done[i]) + u128::from(self.dropped[i]);
            self.left[i] <= c
                && (self.left[i] == 0 || !self.clock.is_multiple_of(t))
                && u32::from(self.last[i]) <= *m
                && counted + u128::from(self.left[i]) == u128::from(released)
        });
        let beyond = (*n..MAX_TASKS).all(|i| {
            (rows[i].c, rows[i].t, self.left[i], self.last[i]) == (0, 0, 0, 0)
                && (self.done[i], self.dropped[i]) == (0, 0)
        });
        tasks
            && beyond
            && self.moves <= u64::from(*m) * u64::from(self.clock)
            && self.misses <= MAX_TASKS as u64 * u64::from(self.clock)
    }

    /// done × T - clock × C for a task numbered from 1.
    pub fn lead(&self, task: usize) -> Result<i64, Refusal> {
        if !self.well_formed() {
            return Err(Refusal::State);
        }
        if !(1..=self.table.n).contains(&task) {
            return Err(Refusal::Tasks);
        }
        let row = self.table.rows[task - 1];
        let ahead = self.done[task - 1] as i64 * i64::from(row.t);
        Ok(ahead - i64::from(self.clock) * i64::from(row.c))
    }

    /// Runs `count` slots and writes their frames into `out` from `at` on.
    pub fn run(&mut self, count: u64, out: &mut [u8], at: usize) -> Result<(), Refusal> {
        if !self.well_formed() {
            return Err(Refusal::State);
        }
        if count > u64::from(MAX_CLOCK - self.clock) {
            return Err(Refusal::Clock);
        }
        let frame_len = frame_len(self.table.m);
        let len = count as usize * frame_len;
        let Some(frames) = out.get_mut(at..).and_then(|tail| tail.get_mut(..len)) else {
            return Err(Refusal::Room);
        };
        let mut running = Running::start(self);
        for frame in frames.chunks_exact_mut(frame_len) {
            running.slot(frame);
        }
        running.stop(self);
        Ok(())
    }

    pub fn total_dropped(&self) -> u64 {
        self.dropped.iter().sum()
    }
}

/// Length of a slot's frame: type, slot, a task for each core, moves, misses, line feed.
pub fn frame_len(m: u32) -> usize {
    2 + 8 + 2 * m as usize + 2 + 2 + 1
}

/// A state taken apart for the slot loop: plain arrays in priority order, so
/// that choosing is a walk from the front. Between slots the jobs of the slot
/// to come are already released here, which makes one walk of each boundary.
struct Running {
    m: usize,
    n: usize,
    slot: u32,
    task: [u8; MAX_TASKS],
    c: [u32; MAX_TASKS],
    t: [u32; MAX_TASKS],
    /// Slots until the next multiple of T, 1 to T: no division in the loop.
    until: [u32; MAX_TASKS],
    left: [u32; MAX_TASKS],
    last: [u8; MAX_TASKS],
    // Work never exceeds what was released, below 2^32 over the whole clock.
    done: [u32; MAX_TASKS],
    dropped: [u32; MAX_TASKS],
    moves: u64,
    misses: u64,
}

impl Running {
    fn start(state: &State) -> Running {
        let mut run = Running {
            m: state.table.m as usize,
            n: state.table.n,
            slot: state.clock,
            task: state.order,
            c: [0; MAX_TASKS],
            t: [0; MAX_TASKS],
            until: [0; MAX_TASKS],
            left: [0; MAX_TASKS],
            last: [0; MAX_TASKS],
            done: [0; MAX_TASKS],
            dropped: [0; MAX_TASKS],
            moves: state.moves,
            misses: state.misses,
        };
        for r in 0..run.n {
            let i = run.task[r] as usize - 1;
            let row = state.table.rows[i];
            let phase = state.clock % row.t;
            run.c[r] = row.c;
            run.t[r] = row.t;
            run.until[r] = row.t - phase;
            run.left[r] = if phase == 0 { row.c } else { state.left[i] };
            run.last[r] = state.last[i];
            run.done[r] = state.done[i] as u32;
            run.dropped[r] = state.dropped[i] as u32;
        }
        run
    }

    fn stop(self, state: &mut State) {
        state.clock = self.slot;
        state.moves = self.moves;
        state.misses = self.misses;
        for r in 0..self.n {
            let i = self.task[r] as usize - 1;
            // A job of the slot to come is not yet released at the boundary.
            let released = self.until[r] == self.t[r];
            state.left[i] = if released { 0 } else { self.left[r] };
            state.last[i] = self.last[r];
            state.done[i] = self.done[r].into();
            state.dropped[i] = self.dropped[r].into();
        }
    }

    fn slot(&mut self, frame: &mut [u8]) {
        let tail = 10 + 2 * self.m;
        frame[..2].copy_from_slice(b"13");
        for (pair, byte) in frame[2..10]
            .chunks_exact_mut(2)
            .zip(self.slot.to_be_bytes())
        {
            pair.copy_from_slice(&DIGITS[byte as usize]);
        }
        let cores = &mut frame[10..tail];
        cores.fill(b'0');

        let (chosen, count) = self.choose();
        let moves = self.place(&chosen[..count], cores);
        let misses = self.boundary();

        frame[tail..tail + 2].copy_from_slice(&DIGITS[moves as usize]);
        frame[tail + 2..tail + 4].copy_from_slice(&DIGITS[misses as usize]);
        frame[tail + 4] = b'\n';
        self.slot += 1;
        self.moves += u64::from(moves);
        self.misses += u64::from(misses);
    }

    /// The first m with left work; the walk writes without asking, to save a branch.
    fn choose(&self) -> ([u8; MAX_CORES as usize], usize) {
        let mut chosen = [0; MAX_CORES as usize];
        let mut count = 0;
        for (r, &left) in self.left[..self.n].iter().enumerate() {
            chosen[count] = r as u8;
            count += usize::from(left != 0);
            if count == self.m {
                break;
            }
        }
        (chosen, count)
    }

    /// Places the chosen, does their unit of work and gives the moves.
    fn place(&mut self, chosen: &[u8], cores: &mut [u8]) -> u8 {
        let mut free = u32::MAX >> (MAX_CORES as usize - self.m);
        let mut others = [0; MAX_CORES as usize];
        let mut waiting = 0;
        for &r in chosen {
            let i = r as usize % MAX_TASKS;
            self.left[i] -= 1;
            self.done[i] += 1;
            // No last core gives no bit, which is never free.
            let core = (1u64 << self.last[i] >> 1) as u32;
            if free & core != 0 {
                free &= !core;
                let at = 2 * (self.last[i] as usize - 1);
                cores[at..at + 2].copy_from_slice(&DIGITS[self.task[i] as usize]);
            } else {
                others[waiting] = r;
                waiting += 1;
            }
        }
        let mut moves = 0;
        for &r in &others[..waiting] {
            let i = r as usize % MAX_TASKS;
            let core = free.trailing_zeros() as usize;
            free &= free - 1;
            // Its own core was taken, so this is another one.
            moves += u8::from(self.last[i] != 0);
            self.last[i] = core as u8 + 1;
            cores[2 * core..2 * core + 2].copy_from_slice(&DIGITS[self.task[i] as usize]);
        }
        moves
    }

    /// Ends the slot: late work is counted and dropped, then new jobs come.
    /// Written without branches, so that the walk runs several tasks at once.
    fn boundary(&mut self) -> u8 {
        let n = self.n;
        let (c, t) = (&self.c[..n], &self.t[..n]);
        let (until, left, dropped) = (
            &mut self.until[..n],
            &mut self.left[..n],
            &mut self.dropped[..n],
        );
        let mut misses = 0u32;
        for r in 0..n {
            let next = until[r] - 1;
            let due = next == 0;
            let late = if due { left[r] } else { 0 };
            misses += u32::from(late != 0);
            dropped[r] += late;
            left[r] = if due { c[r] } else { left[r] };
            until[r] = if due { t[r] } else { next };
        }
        misses as u8
    }
}

#[cfg(test)]
mod tests {
    use super::*;
    use crate::table::Row;

    fn fresh(m: u32, rows: &[(u32, u32)]) -> State {
        let rows: Vec<Row> = rows.iter().map(|&(c, t)| Row { c, t }).collect();
        State::fresh(Table::from_rows(m, &rows).unwrap())
    }

    #[test]
    fn a_split_run_equals_the_whole_and_stays_well_formed() {
        let rows = [(2, 3), (3, 4), (1, 6), (5, 12), (4, 4), (7, 9)];
        let mut whole = fresh(3, &rows);
        let mut text = vec![0; 200 * frame_len(3)];
        whole.run(200, &mut text, 0).unwrap();
        assert!(whole.misses > 0 && whole.moves > 0 && whole.well_formed());

        let mut split = fresh(3, &rows);
        let mut pieces = vec![0; 200 * frame_len(3)];
        for count in (0..20).chain([10]) {
            let at = split.clock as usize * frame_len(3);
            split.run(count, &mut pieces, at).unwrap();
            assert!(split.well_formed());
        }
        assert_eq!((split, pieces), (whole, text));
    }

    #[test]
    fn tests_of_a_run_come_in_order_and_change_nothing() {
        let mut state = fresh(2, &[(1, 1), (1, 2)]);
        let mut out = vec![b'.'; 3 * frame_len(2) + 1];
        state.run(2, &mut out, 1).unwrap();
        assert!(out[0] == b'.' && out[1 + 2 * frame_len(2)..].iter().all(|&byte| byte == b'.'));

        let far = u64::from(MAX_CLOCK) - 1;
        let (same, text) = (state.clone(), out.clone());
        for (count, at, refusal) in [
            (far, 1_000, Refusal::Clock),
            (u64::MAX, 1_000, Refusal::Clock),
            (far - 1, 0, Refusal::Room),
            (3, 2, Refusal::Room),
            (0, out.len() + 1, Refusal::Room),
        ] {
            assert_eq!(state.run(count, &mut out, at), Err(refusal));
        }
        assert_eq!(state.run(0, &mut out, text.len()), Ok(()));
        assert_eq!(state.lead(3), Err(Refusal::Tasks));
        assert_eq!(state.lead(0), Err(Refusal::Tasks));
        assert_eq!((&state, &out), (&same, &text));

        state.last[1] = 3;
        assert_eq!(state.run(far, &mut out, 1_000), Err(Refusal::State));
        assert_eq!(state.lead(3), Err(Refusal::State));
        assert_eq!(out, text);
    }

    #[test]
    fn a_state_with_one_wrong_number_is_not_well_formed() {
        let mut state = fresh(3, &[(3, 7), (2, 5), (6, 6)]);
        state.run(8, &mut [0; 1_000], 0).unwrap();
        assert!(state.well_formed());
        let edits: &[fn(&mut State)] = &[
            |s| s.table.m = 1,
            |s| s.table.m = u32::MAX,
            |s| s.table.n = usize::MAX,
            |s| s.table.n = 2,
            |s| s.table.rows[0].c = 4,
            |s| s.table.rows[3] = Row { c: 1, t: 1 },
            |s| s.order.swap(1, 2),
            |s| s.order[3] = 1,
            |s| s.clock = 11,
            |s| s.clock = u32::MAX,
            |s| s.left[0] += 1,
            |s| (s.left[0], s.done[0]) = (4, 2),
            |s| s.last[0] = 4,
            |s| s.last[3] = 1,
            |s| s.done[1] = u64::MAX,
            |s| s.dropped[1] += 1,
            |s| s.dropped[63] = 1,
            |s| s.moves = 25,
            |s| s.misses = 513,
        ];
        for (i, edit) in edits.iter().enumerate() {
            let mut edited = state.clone();
            edit(&mut edited);
            assert!(!edited.well_formed(), "edit {i}");
        }
        (state.moves, state.misses) = (24, 512);
        assert!(state.well_formed());
    }
}
