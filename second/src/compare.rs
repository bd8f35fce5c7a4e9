//! The comparison: groups of questions, each asked of the subject and of this
//! program, and the first difference of each group shown.

use std::sync::Mutex;
use std::sync::atomic::{AtomicU64, Ordering::Relaxed};
use std::thread;
use std::time::{Duration, Instant};

use crate::cases;

/// What a comparison came to.
#[derive(Default)]
pub struct Tally {
    pub passed: u64,
    pub failed: u64,
}

pub struct Comparison {
    pub seed: u64,
    pub tables: u64,
    pub tally: Tally,
}

/// What one number of a group came to: what passed, what failed, and the first difference.
#[derive(Default)]
pub struct Found {
    tally: Tally,
    first: Option<String>,
}

impl Found {
    /// Answers in order, each with what differs, or none.
    pub fn all(differences: impl IntoIterator<Item = Option<String>>) -> Found {
        let mut found = Found::default();
        for difference in differences {
            match difference {
                None => found.tally.passed += 1,
                Some(shown) => {
                    found.tally.failed += 1;
                    found.first.get_or_insert(shown);
                }
            }
        }
        found
    }
}

impl Comparison {
    pub fn new(seed: u64, tables: u64) -> Comparison {
        Comparison {
            seed,
            tables,
            tally: Tally::default(),
        }
    }

    /// The worked cases on this program itself: a rival that is wrong proves nothing.
    pub fn own_cases(&mut self) {
        let (passed, failed) = cases::check();
        for case in &failed {
            println!("this program itself differs from {case}");
        }
        self.tally.passed += passed;
        self.tally.failed += failed.len() as u64;
    }

    /// Checks the numbers below `count` on all processors and shows the first that differs.
    pub fn group(&mut self, name: &str, count: u64, check: &(dyn Fn(u64) -> Found + Sync)) {
        let next = AtomicU64::new(0);
        let (passed, failed) = (AtomicU64::new(0), AtomicU64::new(0));
        let first: Mutex<Option<(u64, String)>> = Mutex::new(None);
        let spoken = Mutex::new(Instant::now());
        let work = || {
            loop {
                let i = next.fetch_add(1, Relaxed);
                if i >= count {
                    break;
                }
                if let Ok(mut spoken) = spoken.try_lock()
                    && spoken.elapsed() > Duration::from_secs(2)
                {
                    eprintln!("{name}: {i} of {count}");
                    *spoken = Instant::now();
                }
                let found = check(i);
                passed.fetch_add(found.tally.passed, Relaxed);
                failed.fetch_add(found.tally.failed, Relaxed);
                let Some(shown) = found.first else {
                    continue;
                };
                let mut first = first.lock().unwrap();
                // Threads finish out of order; the lowest number is the same in every run.
                if first.as_ref().is_none_or(|&(number, _)| i < number) {
                    *first = Some((i, shown));
                }
            }
        };
        thread::scope(|scope| {
            for _ in 0..thread::available_parallelism().map_or(1, usize::from) {
                scope.spawn(work);
            }
        });
        let (passed, failed) = (passed.into_inner(), failed.into_inner());
        if let Some((number, shown)) = first.into_inner().unwrap() {
            println!(
                "{name}: {failed} of {} differ; the first is number {number} (seed {})",
                passed + failed,
                self.seed
            );
            print!("{shown}");
        } else {
            println!("{name}: {passed} agree");
        }
        self.tally.passed += passed;
        self.tally.failed += failed;
    }
}
