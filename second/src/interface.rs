//! The functions of the C interface over lent slices, and this program's own
//! answers to them. Each returns 0 or the number of a refusal.

use crate::machine::State;
use crate::program;
use crate::stored;
use crate::table::{self, Refusal, Row, Table};

/// Those who answer are asked on several threads.
pub trait Interface: Sync {
    fn open(&self, file: &[u8], state: &mut [u8], size: &mut usize, line: &mut u32) -> u32;

    fn open_list(&self, m: u32, rows: &[[u32; 2]], state: &mut [u8], size: &mut usize) -> u32;

    fn write_list(
        &self,
        m: u32,
        rows: &[[u32; 2]],
        out: &mut [u8],
        at: usize,
        size: &mut usize,
    ) -> u32;

    fn verdict(&self, state: &[u8], out: &mut [u8], at: usize, size: &mut usize) -> u32;

    fn run(&self, state: &mut [u8], count: u32, out: &mut [u8], at: usize, size: &mut usize)
    -> u32;

    fn totals(&self, state: &[u8], out: &mut [u8], at: usize, size: &mut usize) -> u32;

    fn lead(&self, state: &[u8], task: u32, lead: &mut i64) -> u32;

    fn report(&self, input: &[u8], out: &mut [u8], at: usize, size: &mut usize) -> u32;
}

/// This program's own answers.
pub struct Own;

type Taken = Result<(), Refusal>;

fn number(taken: Taken) -> u32 {
    match taken {
        Ok(()) => 0,
        Err(refusal) => refusal as u32,
    }
}

/// Lays bytes into a buffer from a place on.
fn lay(bytes: &[u8], out: &mut [u8], at: usize, size: &mut usize) -> Taken {
    let Some(room) = out
        .get_mut(at..)
        .and_then(|tail| tail.get_mut(..bytes.len()))
    else {
        return Err(Refusal::Room);
    };
    room.copy_from_slice(bytes);
    *size = bytes.len();
    Ok(())
}

fn load(state: &[u8]) -> Result<State, Refusal> {
    stored::load(state).ok_or(Refusal::State)
}

fn list(rows: &[[u32; 2]]) -> Vec<Row> {
    rows.iter().map(|&[c, t]| Row { c, t }).collect()
}

/// Lays the bytes that a function makes of a loaded state.
fn told(
    state: &[u8],
    out: &mut [u8],
    at: usize,
    size: &mut usize,
    tell: impl Fn(&State, &mut Vec<u8>),
) -> Taken {
    let state = load(state)?;
    let mut text = Vec::new();
    tell(&state, &mut text);
    lay(&text, out, at, size)
}

fn run(state: &mut [u8], count: u32, out: &mut [u8], at: usize, size: &mut usize) -> Taken {
    let mut running = load(state)?;
    running.run(count.into(), out, at)?;
    *size = count as usize * crate::machine::frame_len(running.table.m);
    state.copy_from_slice(&stored::store(&running));
    Ok(())
}

impl Interface for Own {
    fn open(&self, file: &[u8], state: &mut [u8], size: &mut usize, line: &mut u32) -> u32 {
        let opened = Table::read(file).and_then(|table| {
            let fresh = stored::store(&State::fresh(table));
            lay(&fresh, state, 0, size).map_err(|refusal| (refusal, 0))
        });
        *line = opened.map_or_else(|(_, line)| line, |()| 0);
        number(opened.map_err(|(refusal, _)| refusal))
    }

    fn open_list(&self, m: u32, rows: &[[u32; 2]], state: &mut [u8], size: &mut usize) -> u32 {
        number(Table::from_rows(m, &list(rows)).and_then(|table| {
            let fresh = stored::store(&State::fresh(table));
            lay(&fresh, state, 0, size)
        }))
    }

    fn write_list(
        &self,
        m: u32,
        rows: &[[u32; 2]],
        out: &mut [u8],
        at: usize,
        size: &mut usize,
    ) -> u32 {
        number(table::write(m, &list(rows), out, at).map(|len| *size = len))
    }

    fn verdict(&self, state: &[u8], out: &mut [u8], at: usize, size: &mut usize) -> u32 {
        number(told(state, out, at, size, |state, text| {
            program::push_verdict(&state.table, text);
        }))
    }

    fn run(
        &self,
        state: &mut [u8],
        count: u32,
        out: &mut [u8],
        at: usize,
        size: &mut usize,
    ) -> u32 {
        number(run(state, count, out, at, size))
    }

    fn totals(&self, state: &[u8], out: &mut [u8], at: usize, size: &mut usize) -> u32 {
        number(told(state, out, at, size, program::push_totals))
    }

    fn lead(&self, state: &[u8], task: u32, lead: &mut i64) -> u32 {
        number(load(state).and_then(|state| {
            *lead = state.lead(task as usize)?;
            Ok(())
        }))
    }

    fn report(&self, input: &[u8], out: &mut [u8], at: usize, size: &mut usize) -> u32 {
        number(lay(&program::text(input), out, at, size))
    }
}
