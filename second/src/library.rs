//! Calls of the C interface in groups: what is asked of a library besides the
//! program's text.

use crate::calls::Call;
use crate::cases::CASES;
use crate::compare::{Comparison, Found};
use crate::interface::Interface;
use crate::machine::{MAX_CLOCK, State, frame_len};
use crate::program;
use crate::random::{self, Random};
use crate::states;
use crate::stored;
use crate::table::{self, Row, Table};
use crate::texts::{self, FLIPS};

// Streams of random numbers, one for each use; those of the texts come before.
const TABLES: u64 = 10;
const DAMAGED: u64 = 11;
const LISTS: u64 = 12;
const REACHED: u64 = 13;
const FORMED: u64 = 14;
const STATES: u64 = 15;
const BYTES: u64 = 16;
const REPORTS: u64 = 17;
const EDGES: u64 = 18;

const TOTALS_LEN: usize = 51;

type Calls = Vec<Call>;

impl Comparison {
    /// Everything that a library must agree on besides the program's text.
    pub fn calls(&mut self, library: &dyn Interface) {
        let tables = self.tables;
        self.asked(library, "cases opened", CASES.len() as u64, &|i| {
            let file = CASES[i as usize].file();
            Table::read(&file).map_or_else(|_| opened(file), |table| run_through(table, 12))
        });
        self.drawn(
            library,
            "tables opened and run",
            TABLES,
            tables,
            &|random| {
                let (m, rows) = random::rows(random);
                of_table(random, m, &rows)
            },
        );
        self.drawn(
            library,
            "lists of any numbers",
            LISTS,
            tables / 2,
            &|random| {
                let (m, rows) = random::list(random);
                of_list(random, m, &rows)
            },
        );
        self.files(library);
        self.drawn(library, "states reached", REACHED, tables / 2, &|random| {
            let state = states::reached(random);
            of_state(random, stored::store(&state))
        });
        self.drawn(
            library,
            "states of any counts",
            FORMED,
            tables / 2,
            &|random| {
                let state = states::formed(random);
                of_state(random, stored::store(&state))
            },
        );
        self.drawn(library, "states damaged", STATES, 2 * tables, &|random| {
            let bytes = states::damaged(random);
            each_function(random, &bytes)
        });
        self.drawn(
            library,
            "any bytes for a state",
            BYTES,
            tables / 2,
            &|random| {
                let bytes = states::any_bytes(random);
                each_function(random, &bytes)
            },
        );
        self.samples(library);
        self.drawn(library, "counts and places", EDGES, 50, &|random| {
            let mut calls = at_the_edges(&states::reached(random));
            calls.extend(at_the_edges(&states::formed(random)));
            calls
        });
        self.drawn(
            library,
            "reports at places",
            REPORTS,
            tables / 50,
            &|random| {
                let input = if random.chance(4) {
                    random::damaged(random)
                } else {
                    random::file(random)
                };
                let places = edges(program::text(&input).len());
                let report = |(room, at)| Call::Report {
                    input: input.clone(),
                    room,
                    at,
                };
                places.into_iter().map(report).collect()
            },
        );
    }

    /// Files that are refused, or nearly.
    fn files(&mut self, library: &dyn Interface) {
        self.drawn(
            library,
            "damaged files opened",
            DAMAGED,
            self.tables,
            &|random| opened(random::damaged(random)),
        );
        let long = texts::long_inputs();
        self.asked(library, "long files opened", long.len() as u64, &|i| {
            opened(long[i as usize].clone())
        });
        for name in texts::SAMPLES {
            let file = texts::case_file(name);
            let len = file.len() as u64;
            let group = format!("truncations of case {name} opened");
            self.asked(library, &group, len, &|i| {
                opened(file[..i as usize].to_vec())
            });
            let group = format!("one-byte changes of case {name} opened");
            self.asked(library, &group, 255 * len, &|i| {
                let flip = (i % 255) as u8 + 1;
                opened(texts::changed(&file, i / 255, flip))
            });
        }
        let file = texts::longest_file();
        let len = file.len() as u64;
        let group = "truncations of the longest file opened";
        self.asked(library, group, len, &|i| {
            opened(file[..i as usize].to_vec())
        });
        let group = "one-byte changes of the longest file opened";
        self.asked(library, group, 5 * len, &|i| {
            opened(texts::changed(&file, i / 5, FLIPS[i as usize % 5]))
        });
    }

    /// Every one-byte change and every truncation of two stored states.
    fn samples(&mut self, library: &dyn Interface) {
        let seed = self.seed;
        let case = Table::read(&texts::case_file("M")).expect("case M is a table");
        let longest = Table::read(&texts::longest_file()).expect("the longest file is a table");
        let each = |bytes: &[u8], i| each_function(&mut Random::new(seed, STATES, i), bytes);
        for (name, table, flips) in [
            ("case M", case, (1..=255).collect::<Vec<u8>>()),
            ("the longest file", longest, FLIPS.to_vec()),
        ] {
            let bytes = stored::store(&states::after(table, 4));
            let (len, ways) = (bytes.len() as u64, flips.len() as u64);
            let group = format!("one-byte changes of a state of {name}");
            self.asked(library, &group, ways * len, &|i| {
                each(
                    &texts::changed(&bytes, i / ways, flips[(i % ways) as usize]),
                    i,
                )
            });
            let group = format!("truncations and tails of a state of {name}");
            self.asked(library, &group, len + 70, &|i| {
                let tailed = [&bytes[..], &[0; 70]].concat();
                each(&tailed[..i as usize], i)
            });
        }
    }

    fn drawn(
        &mut self,
        library: &dyn Interface,
        name: &str,
        stream: u64,
        count: u64,
        calls: &(dyn Fn(&mut Random) -> Calls + Sync),
    ) {
        let seed = self.seed;
        self.asked(library, name, count, &|i| {
            calls(&mut Random::new(seed, stream, i))
        });
    }

    fn asked(
        &mut self,
        library: &dyn Interface,
        name: &str,
        count: u64,
        calls: &(dyn Fn(u64) -> Calls + Sync),
    ) {
        self.group(&format!("library, {name}"), count, &|i| {
            let calls = calls(i);
            Found::all(calls.iter().map(|call| call.difference(library)))
        });
    }
}

/// Rooms and places on both sides of what `need` bytes ask for; the first is a plain fit.
fn edges(need: usize) -> [(usize, usize); 15] {
    [
        (need, 0),
        (need + 3, 3),
        (need + 9, 4),
        (need + 9, 0),
        (need.saturating_sub(1), 0),
        (need + 3, 4),
        (need, 1),
        (need, need),
        (need, need + 1),
        (need + 5, usize::MAX),
        // If the sum of place and need wraps, it comes to 0, 1 and just below the room.
        (need, need.wrapping_neg()),
        (need, need.wrapping_neg().wrapping_add(1)),
        (need, usize::MAX),
        (0, 0),
        (0, 1),
    ]
}

fn opened(file: Vec<u8>) -> Calls {
    let room = stored::MAX_LEN;
    vec![Call::Open { file, room }]
}

fn pairs(rows: &[Row]) -> Vec<[u32; 2]> {
    rows.iter().map(|row| [row.c, row.t]).collect()
}

/// A table as a file and as a list; where it is taken, what its fresh state and a later one answer.
fn of_table(random: &mut Random, m: u32, rows: &[Row]) -> Calls {
    let file = table::file(m, rows);
    let need = stored::len(rows.len());
    let mut calls = vec![
        Call::Open {
            file: file.clone(),
            room: need,
        },
        Call::Open {
            file,
            room: random.pick(&[0, 21, need - 34, need - 1, need + 1, stored::MAX_LEN]),
        },
    ];
    calls.extend(of_list(random, m, &pairs(rows)));
    if let Ok(table) = Table::from_rows(m, rows) {
        let later = states::after(table.clone(), random.between(1, 64));
        calls.extend(each_function(random, &stored::store(&State::fresh(table))));
        calls.extend(of_state(random, stored::store(&later)));
    }
    calls
}

fn of_list(random: &mut Random, m: u32, rows: &[[u32; 2]]) -> Calls {
    let need = stored::len(rows.len());
    let rooms = [need, need, need - 1, need + 7, 0];
    let places = edges(7 + 11 * rows.len());
    let list = |room| Call::OpenList {
        m,
        rows: rows.to_vec(),
        room,
    };
    let written = |(room, at)| Call::WriteList {
        m,
        rows: rows.to_vec(),
        room,
        at,
    };
    vec![
        list(need),
        list(random.pick(&rooms)),
        written(places[0]),
        written(random.pick(&places)),
    ]
}

/// What a stored state answers, and the leads of all its tasks and of none.
fn of_state(random: &mut Random, bytes: Vec<u8>) -> Calls {
    let mut calls = each_function(random, &bytes);
    let n = u32::from(bytes[1]);
    let tasks = (0..=n + 1).chain([255, 256, 257, u32::MAX]);
    calls.extend(tasks.map(|task| Call::Lead {
        state: bytes.clone(),
        task,
    }));
    calls
}

/// One call of each function that takes a state, with room or at an edge of it.
fn each_function(random: &mut Random, bytes: &[u8]) -> Calls {
    let (m, n) = match *bytes {
        [m, n, ..] => (u32::from(m), usize::from(n)),
        _ => (2, 1),
    };
    let mut place = |need| {
        if random.chance(2) {
            (need, 0)
        } else {
            random.pick(&edges(need))
        }
    };
    let state = || bytes.to_vec();
    let (room, at) = place(18 + 2 * n);
    let verdict = Call::Verdict {
        state: state(),
        room,
        at,
    };
    let (room, at) = place(TOTALS_LEN);
    let totals = Call::Totals {
        state: state(),
        room,
        at,
    };
    let task = random.between(0, n as u32 + 1);
    let lead = Call::Lead {
        state: state(),
        task,
    };
    let count = count(random, bytes);
    let frames = count.min(70) as usize * frame_len(m);
    let (room, at) = random.pick(&edges(frames));
    let run = Call::Run {
        state: state(),
        count,
        room: random.pick(&[frames, room]),
        at: random.pick(&[0, at]),
    };
    vec![verdict, totals, lead, run]
}

/// A count of slots: mostly few, some next to the most that the clock allows.
fn count(random: &mut Random, bytes: &[u8]) -> u32 {
    let clock = match *bytes {
        [_, _, a, b, c, d, ..] => u32::from_be_bytes([a, b, c, d]),
        _ => 0,
    };
    let most = MAX_CLOCK.saturating_sub(clock);
    let few = random.between(0, 70);
    let many = random.pick(&[MAX_CLOCK, MAX_CLOCK + 1, u32::MAX, u32::MAX - clock]);
    let below = most.saturating_sub(1);
    random.pick(&[0, 1, few, few, few, below, most, most + 1, many])
}

/// Every function at every room and place, runs with every count.
fn at_the_edges(state: &State) -> Calls {
    let bytes = stored::store(state);
    let state_of = || bytes.clone();
    let mut calls = Vec::new();
    for (room, at) in edges(18 + 2 * state.table.n) {
        let state = state_of();
        calls.push(Call::Verdict { state, room, at });
    }
    for (room, at) in edges(TOTALS_LEN) {
        let state = state_of();
        calls.push(Call::Totals { state, room, at });
    }
    for (room, at) in edges(7 + 11 * state.table.n) {
        let (m, rows) = (state.table.m, pairs(state.table.list()));
        calls.push(Call::WriteList { m, rows, room, at });
    }
    let most = MAX_CLOCK - state.clock;
    for count in [0, 1, 2, 5, most, most + 1, MAX_CLOCK, u32::MAX] {
        // A count that passes the clock's bound is refused whatever the room.
        for (room, at) in edges(count.min(70) as usize * frame_len(state.table.m)) {
            calls.push(Call::Run {
                state: state_of(),
                count,
                room,
                at,
            });
        }
    }
    calls
}

/// A table opened, then run slot by slot with everything asked at each boundary.
fn run_through(table: Table, slots: u32) -> Calls {
    let mut random = Random::new(0, TABLES, 0);
    let mut calls = opened(table::file(table.m, table.list()));
    for clock in 0..=slots {
        let state = states::after(table.clone(), clock);
        let bytes = stored::store(&state);
        calls.push(Call::Run {
            state: bytes.clone(),
            count: 1,
            room: frame_len(table.m),
            at: 0,
        });
        calls.extend(of_state(&mut random, bytes));
    }
    calls
}

#[cfg(test)]
mod tests {
    use super::*;
    use crate::interface::Own;

    /// Answers rightly, and then changes something: the number that it returns,
    /// the buffer for output or its size.
    struct Altered(fn(u32, &mut [u8], &mut usize) -> u32);

    impl Interface for Altered {
        fn open(&self, file: &[u8], state: &mut [u8], size: &mut usize, line: &mut u32) -> u32 {
            let number = Own.open(file, state, size, line);
            self.0(number, state, size)
        }

        fn open_list(&self, m: u32, rows: &[[u32; 2]], state: &mut [u8], size: &mut usize) -> u32 {
            let number = Own.open_list(m, rows, state, size);
            self.0(number, state, size)
        }

        fn write_list(
            &self,
            m: u32,
            rows: &[[u32; 2]],
            out: &mut [u8],
            at: usize,
            size: &mut usize,
        ) -> u32 {
            let number = Own.write_list(m, rows, out, at, size);
            self.0(number, out, size)
        }

        fn verdict(&self, state: &[u8], out: &mut [u8], at: usize, size: &mut usize) -> u32 {
            let number = Own.verdict(state, out, at, size);
            self.0(number, out, size)
        }

        fn run(
            &self,
            state: &mut [u8],
            count: u32,
            out: &mut [u8],
            at: usize,
            size: &mut usize,
        ) -> u32 {
            let number = Own.run(state, count, out, at, size);
            self.0(number, out, size)
        }

        fn totals(&self, state: &[u8], out: &mut [u8], at: usize, size: &mut usize) -> u32 {
            let number = Own.totals(state, out, at, size);
            self.0(number, out, size)
        }

        fn lead(&self, state: &[u8], task: u32, lead: &mut i64) -> u32 {
            let number = Own.lead(state, task, lead);
            self.0(number, &mut [], &mut 0)
        }

        fn report(&self, input: &[u8], out: &mut [u8], at: usize, size: &mut usize) -> u32 {
            let number = Own.report(input, out, at, size);
            self.0(number, out, size)
        }
    }

    /// How many of how many calls about some tables and their states differ.
    fn failures(alter: fn(u32, &mut [u8], &mut usize) -> u32) -> (usize, usize) {
        let mut calls = Vec::new();
        for i in 0..40 {
            let random = &mut Random::new(5, TABLES, i);
            let (m, rows) = random::rows(random);
            calls.extend(of_table(random, m, &rows));
            calls.extend(at_the_edges(&states::reached(random)));
        }
        let differ = calls
            .iter()
            .filter(|call| call.difference(&Altered(alter)).is_some());
        (differ.count(), calls.len())
    }

    #[test]
    fn only_the_right_outcome_passes() {
        assert_eq!(failures(|number, _, _| number).0, 0);
        let (differ, all) = failures(|number, _, _| number + 1);
        assert_eq!(differ, all);
        // Something beside the number: a refusal that touches its buffer or the size,
        // a byte too far, a size that is one off.
        let alterations: [fn(u32, &mut [u8], &mut usize) -> u32; 4] = [
            |number, out, _| {
                if number != 0
                    && let [first, ..] = out
                {
                    *first ^= 1;
                }
                number
            },
            |number, _, size| {
                if number != 0 {
                    *size = 0;
                }
                number
            },
            |number, out, size| {
                if number == 0
                    && let Some(next) = out.get_mut(*size)
                {
                    *next ^= 1;
                }
                number
            },
            |number, _, size| {
                *size -= usize::from(number == 0 && *size > 0);
                number
            },
        ];
        for alter in alterations {
            assert!(failures(alter).0 > 0);
        }
    }
}
