//! Times of runs with frames and of whole texts: this program's, and beside
//! them the library's where one is linked.

use std::hint::black_box;
use std::time::Instant;

use crate::interface::Interface;
use crate::machine::{State, frame_len};
use crate::program;
use crate::random::Random;
use crate::stored;
use crate::table::{self, Row, Table};

const SLOTS: u32 = 4_096;
/// Many short rounds: most of them then fall between the machine's other work.
const ROUNDS: usize = 501;
const TABLES: u32 = 600;
const TABLE_ROUNDS: usize = 9;

type Library<'a> = Option<&'a dyn Interface>;

/// Shares that sum to a little below the admission limit, periods of 8 to 1,000.
fn rows(n: u32, m: u32, number: u64) -> Vec<Row> {
    let periods: Vec<u32> = (8..=1_000)
        .filter(|&t| 720_720u32.is_multiple_of(t))
        .collect();
    let mut random = Random::new(1, 0, number);
    (0..n)
        .map(|_| {
            let t = random.pick(&periods);
            let even = (m * m * t / (3 * m - 2) / n).clamp(1, t);
            Row {
                c: random.between(even.div_ceil(2), even),
                t,
            }
        })
        .collect()
}

/// Nanoseconds for a slot, this program's and the library's. Both go on from their last state.
fn slot_times(library: Library, n: u32, m: u32) -> (f64, Option<f64>) {
    let table = Table::from_rows(m, &rows(n, m, 0)).expect("a table within its bounds");
    let mut state = State::fresh(table);
    let mut stored = stored::store(&state);
    let mut out = vec![0; SLOTS as usize * frame_len(m)];
    let mut other = out.clone();
    let own = || {
        let run = state.run(SLOTS.into(), &mut out, 0);
        run.expect("a run within the clock");
        black_box(&mut out);
    };
    let asked = library.map(|library| {
        || {
            let number = library.run(&mut stored, SLOTS, &mut other, 0, &mut 0);
            assert_eq!(number, 0, "a run within the clock");
            black_box(&mut other);
        }
    });
    let (own, asked) = in_turn(ROUNDS, own, asked);
    assert!(library.is_none() || (out == other && stored::store(&state) == stored));
    let slot = |seconds| seconds * 1e9 / f64::from(SLOTS);
    (slot(own), asked.map(slot))
}

/// Milliseconds for the whole texts of the tables, each by its own median.
fn table_times(library: Library) -> (f64, Option<f64>) {
    let mut total = (0.0, library.map(|_| 0.0));
    let (mut text, mut other) = (Vec::new(), vec![0; program::MAX_TEXT]);
    for i in 0..TABLES {
        let m = 2 + i % 31;
        let file = table::file(m, &rows(1 + i % 64, m, i.into()));
        let mut size = 0;
        let own = || {
            text.clear();
            program::push(&file, &mut text);
            black_box(&mut text);
        };
        let asked = library.map(|library| {
            || {
                library.report(&file, &mut other, 0, &mut size);
                black_box(&mut other);
            }
        });
        let (own, asked) = in_turn(TABLE_ROUNDS, own, asked);
        assert!(library.is_none() || text == other[..size]);
        total.0 += own * 1e3;
        total.1 = total.1.zip(asked).map(|(total, asked)| total + asked * 1e3);
    }
    total
}

/// The medians in seconds of what is timed in turn, so that both meet the same machine.
fn in_turn(
    rounds: usize,
    mut own: impl FnMut(),
    mut asked: Option<impl FnMut()>,
) -> (f64, Option<f64>) {
    let mut times = [Vec::new(), Vec::new()];
    for _ in 0..rounds {
        times[0].push(time(&mut own));
        times[1].extend(asked.as_mut().map(time));
    }
    let [own, asked] = times.map(|mut times| {
        times.sort_by(f64::total_cmp);
        times.get(times.len() / 2).copied()
    });
    (own.expect("there are rounds"), asked)
}

fn time(run: &mut impl FnMut()) -> f64 {
    let start = Instant::now();
    run();
    start.elapsed().as_secs_f64()
}

fn line((own, asked): (f64, Option<f64>)) -> String {
    match asked {
        None => format!("{own:9.1}"),
        Some(asked) => format!("{own:9.1} {asked:9.1} {:7.2}", asked / own),
    }
}

pub fn run(library: Library) {
    let heads = match library {
        None => "   second",
        Some(_) => "   second   library   ratio",
    };
    println!("ns a slot, {SLOTS} slots a call with frames");
    println!("  n  m {heads}");
    for n in [4, 16, 64] {
        for m in [2, 8, 32] {
            println!(" {n:2} {m:2} {}", line(slot_times(library, n, m)));
        }
    }
    println!("ms for the texts of {TABLES} tables, up to {SLOTS} slots each");
    println!("       {heads}");
    println!("       {}", line(table_times(library)));
}
