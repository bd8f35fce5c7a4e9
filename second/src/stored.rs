//! A state as bytes, in the layout of docs/C-INTERFACE.md: a fixed part, then
//! one record for each task in table order, every field big-endian.

use crate::machine::State;
use crate::table::{MAX_TASKS, Row, Table};

const FIXED_LEN: usize = 22;
const RECORD_LEN: usize = 34;
pub const MAX_LEN: usize = len(MAX_TASKS);

/// The bytes that a state of n tasks takes.
pub const fn len(n: usize) -> usize {
    FIXED_LEN + RECORD_LEN * n
}

pub fn store(state: &State) -> Vec<u8> {
    let mut bytes = vec![state.table.m as u8, state.table.n as u8];
    bytes.extend(state.clock.to_be_bytes());
    bytes.extend(state.moves.to_be_bytes());
    bytes.extend(state.misses.to_be_bytes());
    for (i, row) in state.table.list().iter().enumerate() {
        bytes.extend(row.c.to_be_bytes());
        bytes.extend(row.t.to_be_bytes());
        bytes.extend([state.order[i], state.last[i]]);
        bytes.extend(u64::from(state.left[i]).to_be_bytes());
        bytes.extend(state.done[i].to_be_bytes());
        bytes.extend(state.dropped[i].to_be_bytes());
    }
    bytes
}

/// The well-formed state that the bytes are, if they are one.
pub fn load(bytes: &[u8]) -> Option<State> {
    let n = usize::from(*bytes.get(1)?);
    if n > MAX_TASKS || bytes.len() != len(n) {
        return None;
    }
    let mut fields = Fields(bytes);
    let [m, _] = fields.take();
    let mut state = State {
        table: Table {
            m: m.into(),
            n,
            rows: [Row::default(); MAX_TASKS],
        },
        order: [0; MAX_TASKS],
        clock: u32::from_be_bytes(fields.take()),
        left: [0; MAX_TASKS],
        last: [0; MAX_TASKS],
        done: [0; MAX_TASKS],
        dropped: [0; MAX_TASKS],
        moves: u64::from_be_bytes(fields.take()),
        misses: u64::from_be_bytes(fields.take()),
    };
    for i in 0..n {
        state.table.rows[i] = Row {
            c: u32::from_be_bytes(fields.take()),
            t: u32::from_be_bytes(fields.take()),
        };
        [state.order[i], state.last[i]] = fields.take();
        // Left work is at most C, so more than 32 bits of it are no state's.
        state.left[i] = u64::from_be_bytes(fields.take()).try_into().ok()?;
        state.done[i] = u64::from_be_bytes(fields.take());
        state.dropped[i] = u64::from_be_bytes(fields.take());
    }
    state.well_formed().then_some(state)
}

/// What is left to read of bytes whose length was tested.
struct Fields<'a>(&'a [u8]);

impl Fields<'_> {
    fn take<const N: usize>(&mut self) -> [u8; N] {
        let (field, rest) = self.0.split_first_chunk().expect("the length was tested");
        self.0 = rest;
        *field
    }
}

#[cfg(test)]
mod tests {
    use super::*;
    use crate::machine::frame_len;

    #[test]
    fn a_state_is_stored_in_its_layout_and_loaded_back() {
        let rows = [Row { c: 2, t: 3 }, Row { c: 1, t: 258 }];
        let mut state = State::fresh(Table::from_rows(2, &rows).unwrap());
        state.run(5, &mut [0; 5 * 19], 0).unwrap();
        assert_eq!(frame_len(2), 19);
        let bytes = store(&state);
        let (fixed, records) = bytes.split_at(22);
        assert_eq!(fixed[..6], [2, 2, 0, 0, 0, 5]);
        assert_eq!(fixed[6..], [0; 16]);
        assert_eq!(
            records[..34],
            [
                [0, 0, 0, 2, 0, 0, 0, 3, 1].as_slice(),
                &[1, 0, 0, 0, 0, 0, 0, 0, 0],
                &[0, 0, 0, 0, 0, 0, 0, 4],
                &[0; 8],
            ]
            .concat()
        );
        assert_eq!(records[34..44], [0, 0, 0, 1, 0, 0, 1, 2, 2, 2]);
        assert_eq!(bytes.len(), len(2));
        assert_eq!(load(&bytes), Some(state));
    }

    #[test]
    fn bytes_of_another_length_are_no_state() {
        let rows = [Row { c: 1, t: 1 }];
        let bytes = store(&State::fresh(Table::from_rows(2, &rows).unwrap()));
        assert!(load(&bytes).is_some());
        assert!((0..bytes.len()).all(|n| load(&bytes[..n]).is_none()));
        assert_eq!(load(&[&bytes[..], &[0]].concat()), None);
        assert_eq!(load(&[&bytes[..], &bytes[22..]].concat()), None);
        assert_eq!(load(&[2; 255]), None);
    }

    #[test]
    fn left_work_is_not_cut_to_its_low_half() {
        let rows = [Row { c: 3, t: 7 }];
        let mut state = State::fresh(Table::from_rows(2, &rows).unwrap());
        state.run(1, &mut [0; 19], 0).unwrap();
        let mut bytes = store(&state);
        assert!(load(&bytes).is_some());
        bytes[22 + 10 + 3] = 1;
        assert_eq!(load(&bytes), None);
    }
}
