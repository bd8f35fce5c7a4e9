//! The library behind its C interface, where one is linked.

use crate::interface::Interface;
use crate::program::MAX_TEXT;
use crate::subject::Subject;

/// include/zitherquasar.h, function by function.
mod c {
    unsafe extern "C" {
        pub fn zq_open(
            file: *const u8,
            file_len: usize,
            state: *mut u8,
            state_len: usize,
            size: *mut usize,
            line: *mut u32,
        ) -> u32;
        pub fn zq_open_list(
            m: u32,
            rows: *const [u32; 2],
            n: usize,
            state: *mut u8,
            state_len: usize,
            size: *mut usize,
        ) -> u32;
        pub fn zq_write_list(
            m: u32,
            rows: *const [u32; 2],
            n: usize,
            out: *mut u8,
            out_len: usize,
            at: usize,
            size: *mut usize,
        ) -> u32;
        pub fn zq_verdict(
            state: *const u8,
            state_len: usize,
            out: *mut u8,
            out_len: usize,
            at: usize,
            size: *mut usize,
        ) -> u32;
        pub fn zq_run(
            state: *mut u8,
            state_len: usize,
            count: u32,
            out: *mut u8,
            out_len: usize,
            at: usize,
            size: *mut usize,
        ) -> u32;
        pub fn zq_totals(
            state: *const u8,
            state_len: usize,
            out: *mut u8,
            out_len: usize,
            at: usize,
            size: *mut usize,
        ) -> u32;
        pub fn zq_lead(state: *const u8, state_len: usize, task: u32, lead: *mut i64) -> u32;
        pub fn zq_report(
            input: *const u8,
            input_len: usize,
            out: *mut u8,
            out_len: usize,
            at: usize,
            size: *mut usize,
        ) -> u32;
    }
}

pub struct Linked;

// Each slice is lent with its own length, and no two of a call overlap.
impl Interface for Linked {
    fn open(&self, file: &[u8], state: &mut [u8], size: &mut usize, line: &mut u32) -> u32 {
        let (file, file_len) = (file.as_ptr(), file.len());
        unsafe { c::zq_open(file, file_len, state.as_mut_ptr(), state.len(), size, line) }
    }

    fn open_list(&self, m: u32, rows: &[[u32; 2]], state: &mut [u8], size: &mut usize) -> u32 {
        let (rows, n) = (rows.as_ptr(), rows.len());
        unsafe { c::zq_open_list(m, rows, n, state.as_mut_ptr(), state.len(), size) }
    }

    fn write_list(
        &self,
        m: u32,
        rows: &[[u32; 2]],
        out: &mut [u8],
        at: usize,
        size: &mut usize,
    ) -> u32 {
        let (rows, n) = (rows.as_ptr(), rows.len());
        unsafe { c::zq_write_list(m, rows, n, out.as_mut_ptr(), out.len(), at, size) }
    }

    fn verdict(&self, state: &[u8], out: &mut [u8], at: usize, size: &mut usize) -> u32 {
        let (state, len) = (state.as_ptr(), state.len());
        unsafe { c::zq_verdict(state, len, out.as_mut_ptr(), out.len(), at, size) }
    }

    fn run(
        &self,
        state: &mut [u8],
        count: u32,
        out: &mut [u8],
        at: usize,
        size: &mut usize,
    ) -> u32 {
        let (state, len) = (state.as_mut_ptr(), state.len());
        unsafe { c::zq_run(state, len, count, out.as_mut_ptr(), out.len(), at, size) }
    }

    fn totals(&self, state: &[u8], out: &mut [u8], at: usize, size: &mut usize) -> u32 {
        let (state, len) = (state.as_ptr(), state.len());
        unsafe { c::zq_totals(state, len, out.as_mut_ptr(), out.len(), at, size) }
    }

    fn lead(&self, state: &[u8], task: u32, lead: &mut i64) -> u32 {
        unsafe { c::zq_lead(state.as_ptr(), state.len(), task, lead) }
    }

    fn report(&self, input: &[u8], out: &mut [u8], at: usize, size: &mut usize) -> u32 {
        let (input, len) = (input.as_ptr(), input.len());
        unsafe { c::zq_report(input, len, out.as_mut_ptr(), out.len(), at, size) }
    }
}

impl Subject for Linked {
    fn text(&self, input: &[u8]) -> Result<Vec<u8>, String> {
        // No byte of a text is 0.
        let mut text = vec![0; MAX_TEXT];
        let mut size = usize::MAX;
        let number = self.report(input, &mut text, 0, &mut size);
        if number != 0 {
            return Err(format!("refusal {number} with room for the longest text"));
        }
        match text.get(size..) {
            None => Err(format!("it says that it wrote {size} bytes")),
            Some(rest) if rest.iter().any(|&byte| byte != 0) => {
                Err(format!("bytes after the {size} of its text were written"))
            }
            Some(_) => {
                text.truncate(size);
                Ok(text)
            }
        }
    }
}
