//! Calls of the C interface as data: each can be made of anyone who answers,
//! on buffers of its own, and shown.

use std::fmt;

use crate::interface::{Interface, Own};

/// One call. `room` is the length of the buffer that is lent for output.
#[derive(Clone, Debug)]
pub enum Call {
    Open {
        file: Vec<u8>,
        room: usize,
    },
    OpenList {
        m: u32,
        rows: Vec<[u32; 2]>,
        room: usize,
    },
    WriteList {
        m: u32,
        rows: Vec<[u32; 2]>,
        room: usize,
        at: usize,
    },
    Verdict {
        state: Vec<u8>,
        room: usize,
        at: usize,
    },
    Run {
        state: Vec<u8>,
        count: u32,
        room: usize,
        at: usize,
    },
    Totals {
        state: Vec<u8>,
        room: usize,
        at: usize,
    },
    Lead {
        state: Vec<u8>,
        task: u32,
    },
    Report {
        input: Vec<u8>,
        room: usize,
        at: usize,
    },
}

/// What a call returned, and all that was lent to it, as it was left.
#[derive(PartialEq, Eq, Clone, Debug)]
pub struct Outcome {
    number: u32,
    size: usize,
    line: u32,
    lead: i64,
    /// The input or the state that was given; rows as their bytes.
    given: Lent,
    /// The buffer for output.
    out: Lent,
}

/// Bytes on both sides of what is lent, which nobody may touch.
const GUARD: usize = 64;

/// A lent buffer within its guards.
#[derive(PartialEq, Eq, Clone, Debug)]
struct Lent(Vec<u8>);

impl Lent {
    fn of(bytes: &[u8]) -> Lent {
        Lent([&guard(0), bytes, &guard(GUARD)].concat())
    }

    /// No byte of it is one that a text has.
    fn room(len: usize) -> Lent {
        Lent((0..len + 2 * GUARD).map(marked).collect())
    }

    fn part(&mut self) -> &mut [u8] {
        let end = self.0.len() - GUARD;
        &mut self.0[GUARD..end]
    }
}

fn marked(i: usize) -> u8 {
    0x80 | (i % 127) as u8
}

fn guard(start: usize) -> [u8; GUARD] {
    std::array::from_fn(|i| marked(start + i))
}

fn bytes_of(rows: &[[u32; 2]]) -> Vec<u8> {
    let numbers = rows.as_flattened().iter();
    numbers.flat_map(|number| number.to_ne_bytes()).collect()
}

impl Call {
    /// Everything as it is lent, with numbers that no answer has by chance.
    fn lent(&self) -> Outcome {
        let (given, room) = match self {
            Call::Open { file, room } => (Lent::of(file), *room),
            Call::OpenList { rows, room, .. } | Call::WriteList { rows, room, .. } => {
                (Lent::of(&bytes_of(rows)), *room)
            }
            Call::Verdict { state, room, .. }
            | Call::Run { state, room, .. }
            | Call::Totals { state, room, .. } => (Lent::of(state), *room),
            Call::Lead { state, .. } => (Lent::of(state), 0),
            Call::Report { input, room, .. } => (Lent::of(input), *room),
        };
        Outcome {
            number: u32::MAX,
            size: 0x5a5a_5a5a_5a5a,
            line: 0x5a5a_5a5a,
            lead: -0x5a5a_5a5a_5a5a,
            given,
            out: Lent::room(room),
        }
    }

    /// Makes the call.
    pub fn made(&self, of: &dyn Interface) -> Outcome {
        let mut outcome = self.lent();
        let Outcome {
            number,
            size,
            line,
            lead,
            given,
            out,
        } = &mut outcome;
        let (given, out) = (given.part(), out.part());
        *number = match *self {
            Call::Open { .. } => of.open(given, out, size, line),
            Call::OpenList { m, ref rows, .. } => {
                let rows = rows.clone();
                let number = of.open_list(m, &rows, out, size);
                given.copy_from_slice(&bytes_of(&rows));
                number
            }
            Call::WriteList {
                m, ref rows, at, ..
            } => {
                let rows = rows.clone();
                let number = of.write_list(m, &rows, out, at, size);
                given.copy_from_slice(&bytes_of(&rows));
                number
            }
            Call::Verdict { at, .. } => of.verdict(given, out, at, size),
            Call::Run { count, at, .. } => of.run(given, count, out, at, size),
            Call::Totals { at, .. } => of.totals(given, out, at, size),
            Call::Lead { task, .. } => of.lead(given, task, lead),
            Call::Report { at, .. } => of.report(given, out, at, size),
        };
        outcome
    }

    /// This program's own outcome: a refusal leaves all but its line as it was lent.
    fn expected(&self) -> Outcome {
        let own = self.made(&Own);
        match own.number {
            0 => own,
            number => Outcome {
                number,
                line: own.line,
                ..self.lent()
            },
        }
    }

    /// What differs from this program's own outcome, with the call that shows it.
    pub fn difference(&self, of: &dyn Interface) -> Option<String> {
        let (expected, got) = (self.expected(), self.made(of));
        (expected != got).then(|| format!("  {self}\n  {}\n", got.differs(&expected)))
    }
}

impl Outcome {
    fn differs(&self, expected: &Outcome) -> String {
        let told = |what: &str, wanted: &dyn fmt::Display, got: &dyn fmt::Display| {
            format!("{what}: expected {wanted}, got {got}")
        };
        if self.number != expected.number {
            return told("returned", &expected.number, &self.number);
        }
        if self.size != expected.size {
            return told("*size", &expected.size, &self.size);
        }
        if self.line != expected.line {
            return told("*line", &expected.line, &self.line);
        }
        if self.lead != expected.lead {
            return told("*lead", &expected.lead, &self.lead);
        }
        for (what, wanted, got) in [
            ("input or state", &expected.given, &self.given),
            ("output", &expected.out, &self.out),
        ] {
            let pairs = wanted.0.iter().zip(&got.0);
            if let Some(i) = pairs.clone().position(|(wanted, got)| wanted != got) {
                let place = i as i64 - GUARD as i64;
                let what = format!("{what}, byte at {place}");
                let (wanted, got) = (wanted.0[i], got.0[i]);
                return told(&what, &format!("{wanted:#04x}"), &format!("{got:#04x}"));
            }
        }
        "nothing".to_string()
    }
}

fn hex(bytes: &[u8]) -> String {
    bytes.iter().map(|byte| format!("{byte:02x}")).collect()
}

impl fmt::Display for Call {
    fn fmt(&self, f: &mut fmt::Formatter) -> fmt::Result {
        match self {
            Call::Open { file, room } => write!(
                f,
                "zq_open: {room} bytes lent; file of {} bytes: \"{}\"\n  in hexadecimal: {}",
                file.len(),
                file.escape_ascii(),
                hex(file)
            ),
            Call::OpenList { m, rows, room } => {
                write!(f, "zq_open_list: m {m}, {room} bytes lent; rows: {rows:?}")
            }
            Call::WriteList { m, rows, room, at } => write!(
                f,
                "zq_write_list: m {m}, {room} bytes lent, place {at}; rows: {rows:?}"
            ),
            Call::Verdict { state, room, at } => write!(
                f,
                "zq_verdict: {room} bytes lent, place {at}; state: {}",
                hex(state)
            ),
            Call::Run {
                state,
                count,
                room,
                at,
            } => write!(
                f,
                "zq_run: count {count}, {room} bytes lent, place {at}; state: {}",
                hex(state)
            ),
            Call::Totals { state, room, at } => write!(
                f,
                "zq_totals: {room} bytes lent, place {at}; state: {}",
                hex(state)
            ),
            Call::Lead { state, task } => write!(f, "zq_lead: task {task}; state: {}", hex(state)),
            Call::Report { input, room, at } => write!(
                f,
                "zq_report: {room} bytes lent, place {at}; input of {} bytes: \"{}\"\n  in hexadecimal: {}",
                input.len(),
                input.escape_ascii(),
                hex(input)
            ),
        }
    }
}
