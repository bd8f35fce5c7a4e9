//! The whole text of the program for an input.

use crate::hex;
use crate::machine::{State, frame_len};
use crate::table::Table;
use crate::verdict;

pub const MAX_INPUT: usize = 2_048;
/// The most bytes of a text: 64 tasks, 32 cores, 4,096 slots.
pub const MAX_TEXT: usize = 146 + 4_096 * 79 + 51;
const MAX_SLOTS: u32 = 4_096;

pub fn text(input: &[u8]) -> Vec<u8> {
    let mut text = Vec::new();
    push(input, &mut text);
    text
}

/// Appends the text of an input.
pub fn push(input: &[u8], text: &mut Vec<u8>) {
    match Table::read(&input[..input.len().min(MAX_INPUT)]) {
        Ok(table) => answer(table, text),
        Err((refusal, line)) => {
            let line = (line as u16).to_be_bytes();
            hex::push(text, &[0x1f, refusal as u8, line[0], line[1]]);
        }
    }
}

fn answer(table: Table, text: &mut Vec<u8>) {
    let m = table.m;
    let h = push_verdict(&table, text);
    let slots = h.min(MAX_SLOTS);
    let at = text.len();
    text.resize(at + slots as usize * frame_len(m), 0);
    let mut state = State::fresh(table);
    state
        .run(slots.into(), text, at)
        .expect("a fresh state runs within a buffer of its size");
    push_totals(&state, text);
}

/// Appends frames 11 and 12 of a table that passes its tests; gives its repeat length.
pub fn push_verdict(table: &Table, text: &mut Vec<u8>) -> u32 {
    let (m, n, rows) = (table.m, table.n, table.list());
    let h = verdict::repeat_length(rows).expect("a table that was read has a repeat length");
    let (order, heavy) = verdict::order(m, rows);

    let mut line = vec![0x11, u8::from(verdict::admitted(m, rows, h)), heavy as u8];
    line.extend(h.to_be_bytes());
    hex::push(text, &line);

    let mut line = vec![0x12];
    line.extend(&order[..n]);
    hex::push(text, &line);
    h
}

/// Appends frame 14.
pub fn push_totals(state: &State, text: &mut Vec<u8>) {
    let mut line = vec![0x14];
    for total in [state.moves, state.misses, state.total_dropped()] {
        line.extend(total.to_be_bytes());
    }
    hex::push(text, &line);
}
