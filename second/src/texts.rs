//! The program's text in groups of inputs: what is asked of any subject.

use crate::cases::CASES;
use crate::compare::{Comparison, Found};
use crate::program::{self, MAX_INPUT};
use crate::random::{self, Random};
use crate::subject::{Program, Subject};
use crate::table::{self, MAX_TASKS, Row};

// Streams of random numbers, one for each use.
const TABLES: u64 = 0;
const DAMAGED: u64 = 1;
const PIECES: u64 = 2;
const CUTS: u64 = 3;

/// Small files, of which every one-byte change is tried.
pub const SAMPLES: [&str; 3] = ["J", "L", "M"];

/// Changes of a byte to the neighbours and relatives of a digit.
pub const FLIPS: [u8; 5] = [0x01, 0x08, 0x20, 0x3a, 0x80];

type Ask<'a> = &'a (dyn Fn(&[u8]) -> Result<Vec<u8>, String> + Sync);
type Inputs<'a> = &'a (dyn Fn(u64) -> Vec<u8> + Sync);

impl Comparison {
    /// Everything that concerns a program run by a process.
    pub fn program(&mut self, program: &Program, tables: u64) {
        self.texts("program", program, tables);
        let seed = self.seed;
        let pieces = |input: &[u8]| {
            let mut random = Random::new(seed, CUTS, input.len() as u64);
            let (a, b) = (random.below(input.len() + 1), random.below(input.len() + 1));
            program.fed(&[
                &input[..a.min(b)],
                &input[a.min(b)..a.max(b)],
                &input[a.max(b)..],
            ])
        };
        let inputs = |i| random::file(&mut Random::new(seed, PIECES, i));
        self.answered("program, inputs in pieces", 200, &inputs, &pieces);
    }

    /// Everything that any subject with a text must agree on.
    pub fn texts(&mut self, who: &str, subject: &dyn Subject, tables: u64) {
        let seed = self.seed;
        let ask = |input: &[u8]| subject.text(input);
        let mut group = |name: &str, count, inputs: Inputs| {
            self.answered(&format!("{who}, {name}"), count, inputs, &ask);
        };
        group("worked cases", CASES.len() as u64, &|i| {
            CASES[i as usize].file()
        });
        group("random tables", tables, &|i| {
            random::file(&mut Random::new(seed, TABLES, i))
        });
        group("damaged files", tables / 4, &|i| {
            random::damaged(&mut Random::new(seed, DAMAGED, i))
        });
        let long = long_inputs();
        group("long inputs", long.len() as u64, &|i| {
            long[i as usize].clone()
        });
        for name in SAMPLES {
            let file = case_file(name);
            let len = file.len() as u64;
            group(&format!("truncations of case {name}"), len, &|i| {
                file[..i as usize].to_vec()
            });
            let changes = format!("one-byte changes of case {name}");
            group(&changes, 255 * len, &|i| {
                changed(&file, i / 255, (i % 255) as u8 + 1)
            });
        }
        let file = longest_file();
        let len = file.len() as u64;
        group("truncations of the longest file", len, &|i| {
            file[..i as usize].to_vec()
        });
        group("one-byte changes of the longest file", 5 * len, &|i| {
            changed(&file, i / 5, FLIPS[i as usize % 5])
        });
    }

    fn answered(&mut self, name: &str, count: u64, inputs: Inputs, ask: Ask) {
        self.group(name, count, &|i| {
            let input = inputs(i);
            let expected = program::text(&input);
            Found::all([difference(&input, &expected, ask(&input))])
        });
    }
}

pub fn case_file(name: &str) -> Vec<u8> {
    let case = CASES.iter().find(|case| case.name == name);
    case.expect("the case is in the list").file()
}

/// 64 rows, so that every line number occurs and the file has its full 711 bytes.
pub fn longest_file() -> Vec<u8> {
    let rows: Vec<Row> = (0..MAX_TASKS as u32)
        .map(|i| Row {
            c: 1 + i % 7,
            t: [8, 12, 20, 24, 60, 120][i as usize % 6],
        })
        .collect();
    table::file(32, &rows)
}

pub fn changed(bytes: &[u8], at: u64, flip: u8) -> Vec<u8> {
    let mut bytes = bytes.to_vec();
    bytes[at as usize] ^= flip;
    bytes
}

/// Inputs around and above the most that is read.
pub fn long_inputs() -> Vec<Vec<u8>> {
    let longest = longest_file();
    let m = case_file("M");
    let starts: [&[u8]; 6] = [b"", b"01", b"010203", b"010203\n", &m, &longest];
    let fillers: [&[u8]; 5] = [b"0", b"\n", b"0200010002\n", &[0xff], &m];
    let mut inputs = Vec::new();
    for start in starts {
        for filler in fillers {
            for len in [
                712,
                MAX_INPUT - 1,
                MAX_INPUT,
                MAX_INPUT + 1,
                2 * MAX_INPUT,
                60_000,
            ] {
                let fill = filler.iter().copied().cycle().take(len - start.len());
                inputs.push(start.iter().copied().chain(fill).collect());
            }
        }
    }
    inputs
}

/// What differs, with the input that shows it; nothing if the answer is the expected one.
fn difference(input: &[u8], expected: &[u8], got: Result<Vec<u8>, String>) -> Option<String> {
    let told = match got {
        Ok(got) if got == expected => return None,
        Ok(got) => first_line(expected, &got),
        Err(why) => format!("no answer: {why}"),
    };
    let hex: String = input.iter().map(|byte| format!("{byte:02x}")).collect();
    Some(format!(
        "  input of {} bytes: \"{}\"\n  input in hexadecimal: {hex}\n  {told}\n",
        input.len(),
        input.escape_ascii(),
    ))
}

fn first_line(expected: &[u8], got: &[u8]) -> String {
    let tell = |line: Option<&[u8]>| match line {
        Some(line) => format!("\"{}\"", line.escape_ascii()),
        None => "no such line".to_string(),
    };
    let mut lines = expected.split_inclusive(|&byte| byte == b'\n');
    let mut others = got.split_inclusive(|&byte| byte == b'\n');
    let mut number = 1;
    loop {
        let (line, other) = (lines.next(), others.next());
        if line != other {
            return format!(
                "line {number}: expected {}, got {}",
                tell(line),
                tell(other)
            );
        }
        number += 1;
    }
}

#[cfg(test)]
mod tests {
    use super::*;

    /// Answers rightly but for one change of the text.
    struct Altered(fn(&mut Vec<u8>));

    impl Subject for Altered {
        fn text(&self, input: &[u8]) -> Result<Vec<u8>, String> {
            let mut text = program::text(input);
            self.0(&mut text);
            Ok(text)
        }
    }

    fn failures(alter: fn(&mut Vec<u8>)) -> u64 {
        let subject = Altered(alter);
        let ask = |input: &[u8]| subject.text(input);
        let mut comparison = Comparison::new(7, 0);
        let inputs = |i| random::file(&mut Random::new(7, TABLES, i));
        comparison.answered("tables", 100, &inputs, &ask);
        let inputs = |i| random::damaged(&mut Random::new(7, DAMAGED, i));
        comparison.answered("damaged files", 100, &inputs, &ask);
        assert_eq!(comparison.tally.passed + comparison.tally.failed, 200);
        comparison.tally.failed
    }

    #[test]
    fn only_the_right_answer_passes() {
        assert_eq!(failures(|_| ()), 0);
        assert_eq!(failures(|text| text.push(b'\n')), 200);
        assert_eq!(failures(|text| text.truncate(text.len() - 1)), 200);
        assert!(
            failures(|text| if text.starts_with(b"1f06") {
                text[7] ^= 1
            }) > 0
        );
        assert!(
            failures(|text| if text.starts_with(b"1101") {
                text[3] = b'0'
            }) > 0
        );
    }
}
