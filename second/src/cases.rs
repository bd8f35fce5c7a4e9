//! The worked cases of the rules, as data, and their check on this program.

use crate::machine::{State, frame_len};
use crate::program;
use crate::table::{self, Refusal, Row, Table};
use crate::verdict;

pub struct Case {
    pub name: &'static str,
    input: Input,
    facts: &'static [Fact],
}

enum Input {
    Rows(u32, &'static [(u32, u32)]),
    File(&'static str),
}

#[derive(Debug)]
enum Fact {
    Refused(Refusal),
    RepeatLength(u32),
    ScaledSum(u64),
    /// Load and limit of the admission test.
    Sides(u64, u64),
    Admitted(bool),
    Heavy(&'static [u8]),
    Order(&'static [u8]),
    /// The tasks on the cores in a slot.
    Cores(u32, &'static [u8]),
    /// The task on one core (slot, core, task).
    OnCore(u32, usize, u8),
    /// Moves in a slot.
    Moves(u32, u8),
    /// Misses at a boundary, and all units dropped by then.
    Misses(u32, u8, u64),
    /// A task's lead at a boundary (task, boundary, lead).
    Lead(usize, u32, i64),
    Text(&'static str),
}

use Fact::*;
use Input::*;

pub const CASES: &[Case] = &[
    Case {
        name: "A",
        input: Rows(3, &[(1, 7), (2, 10), (9, 20), (11, 22), (2, 25)]),
        facts: &[
            RepeatLength(7_700),
            Order(&[3, 4, 1, 2, 5]),
            Heavy(&[3, 4]),
            ScaledSum(10_571),
            Sides(73_997, 69_300),
            Admitted(false),
        ],
    },
    Case {
        name: "B",
        input: Rows(2, &[(1, 2), (1, 2)]),
        facts: &[Heavy(&[]), Sides(8, 8), Admitted(true)],
    },
    Case {
        name: "C",
        input: Rows(2, &[(1, 2), (1, 2), (1, 100)]),
        facts: &[Heavy(&[]), Admitted(false)],
    },
    Case {
        name: "D",
        input: Rows(3, &[(3, 7), (3, 7), (3, 7)]),
        facts: &[Heavy(&[]), Sides(63, 63), Admitted(true)],
    },
    Case {
        name: "E",
        input: Rows(3, &[(3, 7), (3, 7), (4, 7)]),
        facts: &[Heavy(&[3]), Order(&[3, 1, 2]), Admitted(false)],
    },
    Case {
        name: "F",
        input: Rows(3, &[(1, 10), (1, 10), (1, 10), (10, 11)]),
        facts: &[
            Order(&[4, 1, 2, 3]),
            Sides(931, 990),
            Admitted(true),
            Cores(0, &[4, 1, 2]),
            Cores(1, &[4, 3, 0]),
            Cores(10, &[3, 1, 2]),
            Moves(10, 1),
            OnCore(11, 1, 4),
        ],
    },
    Case {
        name: "G",
        input: Rows(2, &[(3, 5), (1, 5), (1, 5)]),
        facts: &[Heavy(&[1]), Admitted(true)],
    },
    Case {
        name: "H",
        input: Rows(2, &[(2, 3), (2, 3), (2, 3)]),
        facts: &[Admitted(false), Misses(3, 1, 1)],
    },
    Case {
        name: "I",
        input: Rows(2, &[(1, 31_622), (1, 31_623)]),
        facts: &[RepeatLength(999_982_506)],
    },
    Case {
        name: "J",
        input: Rows(2, &[(1, 31_623), (1, 31_624)]),
        facts: &[Refused(Refusal::RepeatLength), Text("1f050000\n")],
    },
    Case {
        name: "K",
        input: Rows(1, &[(2, 4), (3, 6)]),
        facts: &[Refused(Refusal::Cores), Text("1f020001\n")],
    },
    Case {
        name: "L",
        input: Rows(2, &[(5, 5)]),
        facts: &[Heavy(&[1]), Admitted(true)],
    },
    Case {
        name: "M",
        input: File("010203\n0200010002\n0200010003\n0200030006\n"),
        facts: &[
            Admitted(false),
            Misses(6, 0, 0),
            Lead(3, 1, -3),
            Lead(3, 2, 0),
            Lead(3, 4, 6),
            Text(
                "11000000000006\n\
                 12010203\n\
                 130000000001020000\n\
                 130000000103000000\n\
                 130000000201030100\n\
                 130000000303020100\n\
                 130000000401000000\n\
                 130000000500000000\n\
                 14000000000000000200000000000000000000000000000000\n",
            ),
        ],
    },
    Case {
        name: "H just below its bound",
        input: Rows(2, &[(1, 71), (1, 2_251), (1, 6_257)]),
        facts: &[RepeatLength(999_999_997)],
    },
    Case {
        name: "H just above its bound",
        input: Rows(2, &[(1, 19_019), (1, 52_579)]),
        facts: &[Refused(Refusal::RepeatLength)],
    },
    Case {
        name: "empty input",
        input: File(""),
        facts: &[Text("1f010001\n")],
    },
];

impl Case {
    pub fn file(&self) -> Vec<u8> {
        match self.input {
            Rows(m, rows) => table::file(m, &list(rows)),
            File(text) => text.into(),
        }
    }

    fn table(&self) -> Result<Table, Refusal> {
        match self.input {
            Rows(m, rows) => Table::from_rows(m, &list(rows)),
            File(text) => Table::read(text.as_bytes()).map_err(|(refusal, _)| refusal),
        }
    }

    fn holds(&self, fact: &Fact) -> bool {
        match *fact {
            Refused(refusal) => self.table() == Err(refusal),
            Text(text) => program::text(&self.file()) == text.as_bytes(),
            RepeatLength(length) => self.is(|_, _, h| h == length),
            ScaledSum(sum) => self.is(|_, rows, h| verdict::scaled_sum(rows, h) == sum),
            Sides(load, limit) => self.is(|m, rows, h| verdict::sides(m, rows, h) == (load, limit)),
            Admitted(admitted) => self.is(|m, rows, h| verdict::admitted(m, rows, h) == admitted),
            Order(order) => self.is(|m, rows, _| verdict::order(m, rows).0[..rows.len()] == *order),
            Heavy(tasks) => self.is(|m, rows, _| {
                let heavy = (1..)
                    .zip(rows)
                    .filter(|&(_, &row)| verdict::is_heavy(m, row));
                let heavy: Vec<u8> = heavy.map(|(task, _)| task).collect();
                heavy == tasks && verdict::order(m, rows).1 == tasks.len()
            }),
            Cores(slot, cores) => self.at(slot + 1, |_, slot| slot.cores == cores),
            OnCore(slot, core, task) => self.at(slot + 1, |_, slot| slot.cores[core - 1] == task),
            Moves(slot, moves) => self.at(slot + 1, |_, slot| slot.moves == moves),
            Misses(boundary, misses, dropped) => self.at(boundary, |state, slot| {
                slot.misses == misses && state.total_dropped() == dropped
            }),
            Lead(task, boundary, lead) => {
                self.at(boundary, |state, _| state.lead(task) == Ok(lead))
            }
        }
    }

    /// Whether the table is taken and passes a test of its cores, rows and repeat length.
    fn is(&self, test: impl Fn(u32, &[Row], u32) -> bool) -> bool {
        self.table().is_ok_and(|table| {
            let rows = table.list();
            verdict::repeat_length(rows).is_some_and(|h| test(table.m, rows, h))
        })
    }

    /// Whether the table is taken and its run passes a test at a boundary above
    /// 0, which sees the state and the slot that ends there.
    fn at(&self, boundary: u32, test: impl Fn(&State, &Slot) -> bool) -> bool {
        self.table().is_ok_and(|table| {
            let len = frame_len(table.m);
            let mut state = State::fresh(table);
            let mut out = vec![0; len * boundary as usize];
            let run = state.run(boundary.into(), &mut out, 0);
            run.is_ok() && test(&state, &Slot::read(&out[out.len() - len..]))
        })
    }

    /// A table in bounds is written as its file and read back.
    fn round_trip(&self) -> bool {
        let file = self.file();
        let mut out = vec![0; file.len()];
        self.table().is_ok_and(|table| {
            table::write(table.m, table.list(), &mut out, 0) == Ok(file.len())
                && out == file
                && Table::read(&out) == Ok(table)
        })
    }
}

fn list(rows: &[(u32, u32)]) -> Vec<Row> {
    rows.iter().map(|&(c, t)| Row { c, t }).collect()
}

/// A slot as its frame tells it.
struct Slot {
    cores: Vec<u8>,
    moves: u8,
    misses: u8,
}

impl Slot {
    fn read(frame: &[u8]) -> Slot {
        let digit = |byte: u8| {
            (byte as char)
                .to_digit(16)
                .expect("a frame is made of digits") as u8
        };
        let mut cores: Vec<u8> = frame[10..frame.len() - 1]
            .chunks_exact(2)
            .map(|pair| digit(pair[0]) << 4 | digit(pair[1]))
            .collect();
        let counts = cores.split_off(cores.len() - 2);
        Slot {
            cores,
            moves: counts[0],
            misses: counts[1],
        }
    }
}

/// Checks every case on this program; gives what passed and the names of what failed.
pub fn check() -> (u64, Vec<String>) {
    let mut passed = 0;
    let mut failed = Vec::new();
    let mut note = |holds, name| {
        if holds {
            passed += 1
        } else {
            failed.push(name)
        }
    };
    for case in CASES {
        for fact in case.facts {
            note(case.holds(fact), format!("case {}: {fact:?}", case.name));
        }
        if case.table().is_ok() {
            note(
                case.round_trip(),
                format!("case {}: written and read back", case.name),
            );
        }
    }
    (passed, failed)
}
