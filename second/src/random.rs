//! A small deterministic generator, and tables drawn with it over the whole
//! range of bounds, thick where a wrong program would show.

use crate::table::{self, MAX_CORES, MAX_PERIOD, MAX_TASKS, MIN_CORES, Row};
use crate::verdict::MAX_REPEAT_LENGTH;

/// splitmix64.
pub struct Random(u64);

const GOLDEN: u64 = 0x9e37_79b9_7f4a_7c15;

fn mix(mut z: u64) -> u64 {
    z = (z ^ z >> 30).wrapping_mul(0xbf58_476d_1ce4_e5b9);
    z = (z ^ z >> 27).wrapping_mul(0x94d0_49bb_1331_11eb);
    z ^ z >> 31
}

impl Random {
    /// Each number of each stream starts its own sequence, so that any one
    /// can be drawn alone and on any thread.
    pub fn new(seed: u64, stream: u64, number: u64) -> Random {
        Random(
            [seed, stream, number]
                .iter()
                .fold(0, |state, part| mix((state ^ part).wrapping_add(GOLDEN))),
        )
    }

    pub fn next(&mut self) -> u64 {
        self.0 = self.0.wrapping_add(GOLDEN);
        mix(self.0)
    }

    /// A number below `bound`; the tiny bias of the remainder does no harm here.
    pub fn below(&mut self, bound: usize) -> usize {
        (self.next() % bound as u64) as usize
    }

    pub fn between(&mut self, low: u32, high: u32) -> u32 {
        low + self.below((high - low) as usize + 1) as u32
    }

    /// A number from 0 to `most`.
    pub fn up_to(&mut self, most: u64) -> u64 {
        self.next() % most.saturating_add(1)
    }

    /// True once in `of` draws.
    pub fn chance(&mut self, of: usize) -> bool {
        self.below(of) == 0
    }

    pub fn pick<T: Copy>(&mut self, list: &[T]) -> T {
        list[self.below(list.len())]
    }

    fn shuffle<T>(&mut self, list: &mut [T]) {
        for i in (1..list.len()).rev() {
            list.swap(i, self.below(i + 1));
        }
    }
}

/// A file of a random table; most are in bounds.
pub fn file(random: &mut Random) -> Vec<u8> {
    let (m, rows) = rows(random);
    table::file(m, &rows)
}

type Draft = (u32, Vec<Row>);

/// The cores and rows of a random table; most are in bounds.
pub fn rows(random: &mut Random) -> Draft {
    const KINDS: &[fn(&mut Random) -> Draft] = &[
        small,
        smooth,
        smooth,
        harmonic,
        any_periods,
        products_at_bound,
        repeat_length_at_bound,
        admission_limit,
        admission_limit,
        exact_shares,
        ties,
        full_shares,
        heavy_out_of_order,
        out_of_bounds,
    ];
    random.pick(KINDS)(random)
}

/// Short tables in which everything happens within a few slots.
fn small(random: &mut Random) -> Draft {
    let m = random.between(MIN_CORES, 5);
    let n = random.between(1, 10);
    let rows = (0..n).map(|_| {
        let t = random.between(1, 12);
        Row {
            c: random.between(1, t),
            t,
        }
    });
    (m, rows.collect())
}

fn cores(random: &mut Random) -> u32 {
    match random.below(4) {
        0 => random.between(MIN_CORES, 4),
        1 => random.pick(&[MIN_CORES, MAX_CORES - 1, MAX_CORES]),
        _ => random.between(MIN_CORES, MAX_CORES),
    }
}

fn count(random: &mut Random) -> usize {
    match random.below(4) {
        0 => random.between(1, 8) as usize,
        1 => random.pick(&[1, MAX_TASKS - 1, MAX_TASKS]),
        _ => random.between(1, MAX_TASKS as u32) as usize,
    }
}

/// Divisors of a number with many, so that the repeat length stays within it.
fn divisors(random: &mut Random) -> Vec<u32> {
    let whole = random.pick(&[
        12,
        60,
        64,
        360,
        5_040,
        55_440,
        720_720,
        32_432_400,
        735_134_400u32,
    ]);
    (1..=MAX_PERIOD.min(whole))
        .filter(|&d| whole.is_multiple_of(d))
        .collect()
}

/// One way to draw executions for a whole table, from sparse to overloaded.
fn executions(random: &mut Random, m: u32, periods: Vec<u32>) -> Draft {
    let way = random.below(6);
    let rows = periods.into_iter().map(|t| {
        let c = match way {
            0 => random.between(1, t),
            1 => random.between(1, t.div_ceil(8)),
            2 => around_share(random, m, t),
            3 => 1,
            4 => t - random.below(t.min(3) as usize) as u32,
            _ => match random.below(3) {
                0 => t,
                1 => around_share(random, m, t),
                _ => random.between(1, t),
            },
        };
        Row { c, t }
    });
    (m, rows.collect())
}

/// The last light or first heavy executions of a period, near m/(3m-2).
fn around_share(random: &mut Random, m: u32, t: u32) -> u32 {
    (t * m / (3 * m - 2))
        .saturating_add_signed(random.pick(&[-1, 0, 1]))
        .clamp(1, t)
}

fn smooth(random: &mut Random) -> Draft {
    let (m, n) = (cores(random), count(random));
    let divisors = divisors(random);
    let periods = (0..n).map(|_| random.pick(&divisors)).collect();
    executions(random, m, periods)
}

/// Each period divides the next longer one.
fn harmonic(random: &mut Random) -> Draft {
    let (m, n) = (cores(random), count(random));
    let mut chain = vec![random.between(1, 20)];
    while let Some(&last) = chain.last() {
        let next = last * random.between(2, 4);
        if next > MAX_PERIOD || chain.len() > 12 {
            break;
        }
        chain.push(next);
    }
    let periods = (0..n).map(|_| random.pick(&chain)).collect();
    executions(random, m, periods)
}

/// Few rows with any periods: the repeat length falls on both sides of its bound.
fn any_periods(random: &mut Random) -> Draft {
    let m = cores(random);
    let n = random.between(1, 4);
    let top = random.pick(&[300, 2_000, 30_000, MAX_PERIOD]);
    let periods = (0..n).map(|_| random.between(1, top)).collect();
    executions(random, m, periods)
}

/// Two periods whose product lies next to the bound, with others that divide them.
fn products_at_bound(random: &mut Random) -> Draft {
    let m = cores(random);
    let a = random.between(MAX_REPEAT_LENGTH.div_ceil(MAX_PERIOD) + 2, MAX_PERIOD);
    let b = MAX_REPEAT_LENGTH / a + random.between(0, 3) - 1;
    let mut periods = vec![a, b];
    for _ in 0..random.below(5) {
        let of = random.pick(&[a, b]);
        let d = random.between(1, 12);
        periods.push(if of.is_multiple_of(d) { of / d } else { of });
    }
    random.shuffle(&mut periods);
    executions(random, m, periods)
}

/// Periods made of the prime powers of a number next to the bound.
fn repeat_length_at_bound(random: &mut Random) -> Draft {
    let m = cores(random);
    let mut powers = loop {
        let whole = MAX_REPEAT_LENGTH - 500 + random.below(1_000) as u32;
        let powers = prime_powers(whole);
        if powers.iter().all(|&p| p <= MAX_PERIOD) {
            break powers;
        }
    };
    random.shuffle(&mut powers);
    let mut periods = vec![1];
    for power in powers {
        match periods.last_mut() {
            Some(last) if *last * power <= MAX_PERIOD && !random.chance(6) => *last *= power,
            _ => periods.push(power),
        }
    }
    random.shuffle(&mut periods);
    executions(random, m, periods)
}

fn prime_powers(mut whole: u32) -> Vec<u32> {
    let mut powers = Vec::new();
    let mut p = 2;
    while p * p <= whole {
        let mut power = 1;
        while whole.is_multiple_of(p) {
            whole /= p;
            power *= p;
        }
        if power > 1 {
            powers.push(power);
        }
        p += 1;
    }
    if whole > 1 {
        powers.push(whole);
    }
    powers
}

/// Shares that sum to exactly m²/(3m-2), or one unit of work off it.
fn admission_limit(random: &mut Random) -> Draft {
    let m = cores(random);
    let whole = 3 * m - 2;
    let least = (m * m).div_ceil(whole) as usize;
    let most = MAX_TASKS.min((m * m) as usize);
    let n = least + random.below(most - least + 1);
    // Numerators over 3m-2: start even at 1, then deal the rest out, some of it in lumps.
    let mut numerators = vec![1; n];
    let mut rest = m * m - n as u32;
    while rest > 0 {
        let i = random.below(n);
        let room = (whole - numerators[i]).min(rest);
        let lump = match random.below(3) {
            0 => room,
            1 => room.min(m.saturating_sub(numerators[i])),
            _ => room.min(1 + random.below(3) as u32),
        };
        numerators[i] += lump;
        rest -= lump;
    }
    let scale = random.pick(&[1, 6, 12, 60, 120, 360u32]);
    let scales: Vec<u32> = (1..=scale).filter(|&d| scale.is_multiple_of(d)).collect();
    let mut rows: Vec<Row> = numerators
        .into_iter()
        .map(|c| {
            let k = random.pick(&scales);
            Row {
                c: k * c,
                t: k * whole,
            }
        })
        .collect();
    // Within one period work may change hands and the sum stays.
    for _ in 0..n {
        let (i, j) = (random.below(n), random.below(n));
        if i != j && rows[i].t == rows[j].t && rows[i].c > 1 && rows[j].c < rows[j].t {
            rows[i].c -= 1;
            rows[j].c += 1;
        }
    }
    let i = random.below(n);
    match random.below(4) {
        0 if rows[i].c < rows[i].t => rows[i].c += 1,
        1 if rows[i].c > 1 => rows[i].c -= 1,
        _ => {}
    }
    (m, rows)
}

/// Shares of exactly m/(3m-2), some a unit off, in lowest terms or not.
fn exact_shares(random: &mut Random) -> Draft {
    let (m, n) = (cores(random), count(random));
    let halved = m.is_multiple_of(2) && random.chance(2);
    let (c, t) = if halved {
        (m / 2, 3 * m / 2 - 1)
    } else {
        (m, 3 * m - 2)
    };
    let scales = [1, 2, 3, 4, 6, 12, 120, 600u32];
    let rows = (0..n).map(|_| {
        let (k, off) = (random.pick(&scales), random.pick(&[-1, 0, 0, 0, 1]));
        Row {
            c: (k * c).saturating_add_signed(off).clamp(1, k * t),
            t: k * t,
        }
    });
    (m, rows.collect())
}

/// Two or three periods in all: the order rests on table order.
fn ties(random: &mut Random) -> Draft {
    let (m, n) = (cores(random), count(random));
    let divisors = divisors(random);
    let few: Vec<u32> = (0..random.between(1, 3))
        .map(|_| random.pick(&divisors))
        .collect();
    let periods = (0..n).map(|_| random.pick(&few)).collect();
    executions(random, m, periods)
}

/// Mostly C = T, fewer or more of them than cores.
fn full_shares(random: &mut Random) -> Draft {
    let (m, n) = (cores(random), count(random));
    let divisors = divisors(random);
    let rows = (0..n).map(|_| {
        let t = random.pick(&divisors);
        Row {
            c: if random.chance(5) {
                random.between(1, t)
            } else {
                t
            },
            t,
        }
    });
    (m, rows.collect())
}

/// Heavy tasks among light ones, their periods falling or rising along the table.
fn heavy_out_of_order(random: &mut Random) -> Draft {
    let (m, n) = (cores(random), count(random));
    let divisors = divisors(random);
    let mut periods: Vec<u32> = (0..n).map(|_| random.pick(&divisors)).collect();
    periods.sort_unstable();
    if !random.chance(3) {
        periods.reverse();
    }
    let part = random.between(2, 6) as usize;
    let rows = periods.into_iter().map(|t| {
        let first_heavy = t * m / (3 * m - 2) + 1;
        let c = if random.chance(part) && first_heavy <= t {
            random.between(first_heavy, t)
        } else {
            random.between(1, (first_heavy - 1).clamp(1, 1 + t / 8))
        };
        Row { c, t }
    });
    (m, rows.collect())
}

/// A table with a few numbers on the wrong side of their bounds.
fn out_of_bounds(random: &mut Random) -> Draft {
    let (mut m, mut rows) = smooth(random);
    for _ in 0..random.between(1, 3) {
        let i = random.below(rows.len());
        match random.below(8) {
            0 => m = random.pick(&[0, 1, MAX_CORES + 1, 0x80, 0xff]),
            1 => rows.resize(random.pick(&[65, 66, 80, 255]), rows[i]),
            2 => rows.resize(MAX_TASKS, rows[i]),
            3 => rows[i].c = 0,
            4 => rows[i].c = (rows[i].t + 1).min(MAX_PERIOD),
            5 => rows[i] = Row { c: 0, t: 0 },
            6 => {
                rows[i] = Row {
                    c: random.between(0, MAX_PERIOD),
                    t: random.between(0, MAX_PERIOD),
                }
            }
            _ => {
                rows[i] = Row {
                    c: MAX_PERIOD,
                    t: MAX_PERIOD,
                }
            }
        }
    }
    (m, rows)
}

/// A list of rows, most with a number next to a bound or far beyond what a file can hold.
pub fn list(random: &mut Random) -> (u32, Vec<[u32; 2]>) {
    let (mut m, rows) = rows(random);
    let mut rows: Vec<[u32; 2]> = rows.iter().map(|row| [row.c, row.t]).collect();
    for _ in 0..random.between(0, 3) {
        // Numbers that are in bounds again when they are cut to 8 or 16 bits.
        let i = random.below(rows.len());
        match random.below(8) {
            0 => m = random.pick(&[0, 1, 2, MAX_CORES, MAX_CORES + 1, u32::MAX]),
            1 => m |= random.pick(&[1 << 8, 1 << 16, 1 << 31]),
            2 => rows.resize(random.pick(&[63, 64, 65, 66, 255, 256, 257, 320]), rows[i]),
            3 => rows[i][random.below(2)] |= random.pick(&[1 << 16, 1 << 31]),
            4 => rows[i] = rows[i].map(|number| number + (1 << 16)),
            5 => rows[i][random.below(2)] = random.next() as u32,
            6 => rows[i] = random.pick(&[[0, 0], [0, 1], [1, 0], [2, 1], [u32::MAX, u32::MAX]]),
            _ => {
                let t = MAX_PERIOD + random.between(0, 1);
                rows[i] = [random.pick(&[0, 1, t, t + 1]), t];
            }
        }
    }
    if random.chance(30) {
        rows.clear();
    }
    (m, rows)
}

/// A file with one to three edits of the kind that hands and transfers make.
pub fn damaged(random: &mut Random) -> Vec<u8> {
    let mut file = file(random);
    for _ in 0..random.between(1, 3) {
        damage(random, &mut file);
    }
    file
}

fn damage(random: &mut Random, file: &mut Vec<u8>) {
    let at = random.below(file.len() + 1);
    let line = file[..at]
        .iter()
        .rposition(|&byte| byte == b'\n')
        .map_or(0, |i| i + 1);
    let end = file[line..]
        .iter()
        .position(|&byte| byte == b'\n')
        .map_or(file.len(), |i| line + i + 1);
    match random.below(13) {
        0 => file.truncate(at),
        1 => file.insert(at, any_byte(random)),
        2 if at < file.len() => drop(file.remove(at)),
        3 if at < file.len() => file[at] = any_byte(random),
        4 if at < file.len() => file[at] = file[at].to_ascii_uppercase(),
        5 => file.make_ascii_uppercase(),
        6 => drop(file.drain(line..end)),
        7 => {
            let copy = file[line..end].to_vec();
            file.splice(line..line, copy);
        }
        8 => file.insert(end.saturating_sub(1), random.pick(b"\r \t0")),
        9 => file.extend_from_slice(random.pick(&[
            &b"\n"[..],
            b"0",
            b"\0",
            b"0200010001\n",
            b"14\n",
        ])),
        10 if file.len() > 5 => file[5] = random.pick(b"0123456789abcdef"),
        11 => file.rotate_left(end),
        _ => drop(file.pop()),
    }
}

fn any_byte(random: &mut Random) -> u8 {
    if random.chance(3) {
        random.next() as u8
    } else {
        random.pick(b"0123456789abcdefAFg\n\r \0")
    }
}

#[cfg(test)]
mod tests {
    use super::*;
    use crate::table::Table;
    use crate::verdict;

    /// The first random tables that pass their tests, with their repeat lengths.
    struct Drawn(Vec<(u32, Vec<Row>, u32)>);

    impl Drawn {
        fn new() -> Drawn {
            let drafts = (0..4_000).map(|i| rows(&mut Random::new(1, 0, i)));
            let taken = drafts.filter(|(m, rows)| Table::from_rows(*m, rows).is_ok());
            let with_length = taken.filter_map(|(m, rows)| {
                let h = verdict::repeat_length(&rows)?;
                Some((m, rows, h))
            });
            Drawn(with_length.collect())
        }

        /// How many have a property.
        fn with(&self, property: impl Fn(u32, &[Row], u32) -> bool) -> usize {
            let tables = self.0.iter();
            tables.filter(|(m, rows, h)| property(*m, rows, *h)).count()
        }
    }

    #[test]
    fn tables_are_drawn_over_the_whole_range() {
        let drawn = Drawn::new();
        for m in MIN_CORES..=MAX_CORES {
            assert!(drawn.with(|cores, _, _| cores == m) > 10, "{m} cores");
        }
        for n in 1..=MAX_TASKS {
            assert!(drawn.with(|_, rows, _| rows.len() == n) > 5, "{n} tasks");
        }
        assert!(drawn.with(|_, rows, _| rows.iter().any(|row| row.t > 60_000)) > 100);
        assert!(drawn.with(|_, rows, _| rows.iter().any(|row| row.t == MAX_PERIOD)) > 1);
        assert!(drawn.with(|_, rows, _| rows.iter().any(|row| row.t == 1)) > 100);
        assert!(drawn.with(|_, _, h| h > MAX_REPEAT_LENGTH - 2_000) > 50);
    }

    #[test]
    fn tables_are_drawn_on_both_sides_of_every_line() {
        let drawn = Drawn::new();
        let sides = |m, rows: &[Row], h| {
            let (load, limit) = verdict::sides(m, rows, h);
            load.cmp(&limit)
        };
        assert!(drawn.with(|m, rows, h| sides(m, rows, h).is_lt()) > 500);
        assert!(drawn.with(|m, rows, h| sides(m, rows, h).is_eq()) > 100);
        assert!(drawn.with(|m, rows, h| sides(m, rows, h).is_gt()) > 500);
        let share = |m: u32, row: &Row| (row.c * (3 * m - 2)).cmp(&(row.t * m));
        assert!(drawn.with(|m, rows, _| rows.iter().any(|row| share(m, row).is_eq())) > 200);
        assert!(drawn.with(|m, rows, _| rows.iter().any(|row| share(m, row).is_gt())) > 500);
        assert!(drawn.with(|_, rows, _| rows.iter().any(|row| row.c == row.t)) > 500);
        let harmonic = |a: &Row, b: &Row| a.t.is_multiple_of(b.t) || b.t.is_multiple_of(a.t);
        let chain = |rows: &[Row]| rows.iter().all(|a| rows.iter().all(|b| harmonic(a, b)));
        assert!(drawn.with(|_, rows, _| rows.len() > 4 && chain(rows)) > 100);
        assert!(drawn.with(|_, rows, _| !chain(rows)) > 500);
    }
}
