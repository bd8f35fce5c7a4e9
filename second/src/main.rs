//! A second program for the same rules, written on its own: it prints the
//! program's text, checks the worked cases and compares others with itself.

// With no library linked nobody is asked the calls of its interface.
#![cfg_attr(not(linked), allow(dead_code))]

mod bench;
mod calls;
mod cases;
mod compare;
mod hex;
mod interface;
mod library;
#[cfg(linked)]
mod linked;
mod machine;
mod program;
mod random;
mod states;
mod stored;
mod subject;
mod table;
mod texts;
mod verdict;

use std::io::{self, Read, Write};
use std::process::ExitCode;

use compare::Comparison;
use subject::Program;

const USAGE: &str = "usage: second run < file
       second cases
       second compare [--program PATH] [--seed N] [--tables N] [--program-tables N]
       second bench
compare and bench take the library in where ZQ_LIBRARY named it when this was built";

const SEED: u64 = 1;
const TABLES: u64 = 20_000;
/// A program costs a process for each input.
const PROGRAM_TABLES: u64 = 4_000;

fn main() -> ExitCode {
    let args: Vec<String> = std::env::args().skip(1).collect();
    let words: Vec<&str> = args.iter().map(String::as_str).collect();
    let done = match words[..] {
        ["run"] => run().map_err(|e| e.to_string()),
        ["cases"] => {
            let mut own = Comparison::new(SEED, 0);
            own.own_cases();
            Ok(ended(own))
        }
        ["compare", ref options @ ..] => compare(options).map(ended),
        ["bench"] => {
            #[cfg(linked)]
            bench::run(Some(&linked::Linked));
            #[cfg(not(linked))]
            bench::run(None);
            Ok(ExitCode::SUCCESS)
        }
        _ => Err(USAGE.to_string()),
    };
    done.unwrap_or_else(|why| {
        eprintln!("{why}");
        ExitCode::from(2)
    })
}

fn run() -> io::Result<ExitCode> {
    let mut input = Vec::new();
    io::stdin()
        .take(program::MAX_INPUT as u64)
        .read_to_end(&mut input)?;
    io::stdout().write_all(&program::text(&input))?;
    Ok(ExitCode::SUCCESS)
}

fn compare(options: &[&str]) -> Result<Comparison, String> {
    let mut path = None;
    let mut program_tables = PROGRAM_TABLES;
    let mut comparison = Comparison::new(SEED, TABLES);
    for option in options.chunks(2) {
        let [name, value] = *option else {
            return Err(USAGE.to_string());
        };
        let number = || {
            value
                .parse()
                .map_err(|_| format!("{name} takes a number, not {value}"))
        };
        match name {
            "--program" => path = Some(value.into()),
            "--seed" => comparison.seed = number()?,
            "--tables" => comparison.tables = number()?,
            "--program-tables" => program_tables = number()?,
            _ => return Err(USAGE.to_string()),
        }
    }
    if path.is_none() && !cfg!(linked) {
        return Err(format!("there is nothing to compare with\n{USAGE}"));
    }
    comparison.own_cases();
    #[cfg(linked)]
    {
        comparison.texts("library", &linked::Linked, comparison.tables);
        comparison.calls(&linked::Linked);
    }
    if let Some(path) = path {
        comparison.program(&Program { path }, program_tables);
    }
    Ok(comparison)
}

fn ended(comparison: Comparison) -> ExitCode {
    let tally = comparison.tally;
    println!("{} passed, {} failed", tally.passed, tally.failed);
    if tally.failed == 0 {
        ExitCode::SUCCESS
    } else {
        ExitCode::FAILURE
    }
}
