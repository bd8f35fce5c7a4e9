//! Task tables: rows, the tests they must pass, and their files.

use crate::hex;
use crate::verdict;

pub const MIN_CORES: u32 = 2;
pub const MAX_CORES: u32 = 32;
pub const MAX_TASKS: usize = 64;
pub const MAX_PERIOD: u32 = 65_535;

const HEADER_LEN: usize = 7;
const ROW_LEN: usize = 11;

/// Why something was refused; the values are the numbers of refusal.
#[derive(Clone, Copy, PartialEq, Eq, Debug)]
#[repr(u8)]
pub enum Refusal {
    Line = 1,
    Cores = 2,
    Tasks = 3,
    Row = 4,
    RepeatLength = 5,
    BytesFollow = 6,
    Room = 7,
    Clock = 8,
    State = 9,
}

#[derive(Clone, Copy, PartialEq, Eq, Debug, Default)]
pub struct Row {
    pub c: u32,
    pub t: u32,
}

/// Fields are open because a state given back may hold any numbers;
/// `Table::test` says whether they make a table.
#[derive(Clone, PartialEq, Eq, Debug)]
pub struct Table {
    pub m: u32,
    pub n: usize,
    pub rows: [Row; MAX_TASKS],
}

impl Table {
    pub fn from_rows(m: u32, rows: &[Row]) -> Result<Table, Refusal> {
        test_rows(m, rows)?;
        let mut table = Table {
            m,
            n: rows.len(),
            rows: [Row::default(); MAX_TASKS],
        };
        table.rows[..rows.len()].copy_from_slice(rows);
        Ok(table)
    }

    /// Reads a file; a refusal comes with its line.
    pub fn read(file: &[u8]) -> Result<Table, (Refusal, u32)> {
        let (m, n) = header(file).ok_or((Refusal::Line, 1))?;
        test_cores(m).map_err(|r| (r, 1))?;
        test_count(n).map_err(|r| (r, 1))?;

        let mut table = Table {
            m,
            n,
            rows: [Row::default(); MAX_TASKS],
        };
        let mut rest = &file[HEADER_LEN..];
        for i in 0..n {
            let line = i as u32 + 2;
            let row = row(rest).ok_or((Refusal::Line, line))?;
            test_row(row).map_err(|r| (r, line))?;
            table.rows[i] = row;
            rest = &rest[ROW_LEN..];
        }
        if !rest.is_empty() {
            return Err((Refusal::BytesFollow, n as u32 + 2));
        }
        if verdict::repeat_length(table.list()).is_none() {
            return Err((Refusal::RepeatLength, 0));
        }
        Ok(table)
    }

    /// The tests of a list of rows, for a table that came from elsewhere.
    pub fn test(&self) -> Result<(), Refusal> {
        test_cores(self.m)?;
        test_count(self.n)?;
        test_rows(self.m, self.list())
    }

    pub fn list(&self) -> &[Row] {
        &self.rows[..self.n]
    }
}

/// Writes a list of rows as a file into `out` from `at` on; gives the length.
pub fn write(m: u32, rows: &[Row], out: &mut [u8], at: usize) -> Result<usize, Refusal> {
    test_rows(m, rows)?;
    let len = HEADER_LEN + ROW_LEN * rows.len();
    let Some(out) = out.get_mut(at..).and_then(|tail| tail.get_mut(..len)) else {
        return Err(Refusal::Room);
    };
    put_lines(m, rows, out);
    Ok(len)
}

/// The file of any numbers that fit its fields, in bounds or not.
pub fn file(m: u32, rows: &[Row]) -> Vec<u8> {
    let mut out = vec![0; HEADER_LEN + ROW_LEN * rows.len()];
    put_lines(m, rows, &mut out);
    out
}

fn put_lines(m: u32, rows: &[Row], out: &mut [u8]) {
    let (head, body) = out.split_at_mut(HEADER_LEN);
    hex::put(head, &[0x01, m as u8, rows.len() as u8]);
    for (line, row) in body.chunks_exact_mut(ROW_LEN).zip(rows) {
        let (c, t) = ((row.c as u16).to_be_bytes(), (row.t as u16).to_be_bytes());
        hex::put(line, &[0x02, c[0], c[1], t[0], t[1]]);
    }
}

fn test_rows(m: u32, rows: &[Row]) -> Result<(), Refusal> {
    test_cores(m)?;
    test_count(rows.len())?;
    rows.iter().try_for_each(|&row| test_row(row))?;
    match verdict::repeat_length(rows) {
        Some(_) => Ok(()),
        None => Err(Refusal::RepeatLength),
    }
}

fn test_cores(m: u32) -> Result<(), Refusal> {
    if (MIN_CORES..=MAX_CORES).contains(&m) {
        Ok(())
    } else {
        Err(Refusal::Cores)
    }
}

fn test_count(n: usize) -> Result<(), Refusal> {
    if (1..=MAX_TASKS).contains(&n) {
        Ok(())
    } else {
        Err(Refusal::Tasks)
    }
}

fn test_row(row: Row) -> Result<(), Refusal> {
    if row.c == 0 || row.c > row.t || row.t > MAX_PERIOD {
        Err(Refusal::Row)
    } else {
        Ok(())
    }
}

fn header(bytes: &[u8]) -> Option<(u32, usize)> {
    let [0x01, m, n] = hex::line::<3>(bytes)? else {
        return None;
    };
    Some((m.into(), n.into()))
}

fn row(bytes: &[u8]) -> Option<Row> {
    let [0x02, c1, c0, t1, t0] = hex::line::<5>(bytes)? else {
        return None;
    };
    Some(Row {
        c: u16::from_be_bytes([c1, c0]).into(),
        t: u16::from_be_bytes([t1, t0]).into(),
    })
}

#[cfg(test)]
mod tests {
    use super::*;

    fn refused(file: &[u8]) -> (u8, u32) {
        let (refusal, line) = Table::read(file).unwrap_err();
        (refusal as u8, line)
    }

    #[test]
    fn the_first_test_that_holds_gives_the_number() {
        assert_eq!(refused(b""), (1, 1));
        assert_eq!(refused(b"010203"), (1, 1));
        assert_eq!(refused(b"01020A\n"), (1, 1));
        assert_eq!(refused(b"020203\n"), (1, 1));
        assert_eq!(refused(b"010100\n"), (2, 1));
        assert_eq!(refused(b"012141\n"), (2, 1));
        assert_eq!(refused(b"010200\n"), (3, 1));
        assert_eq!(refused(b"010241\n"), (3, 1));
        // A due row that is missing is refused on the line where it was due.
        assert_eq!(refused(b"010201\n"), (1, 2));
        assert_eq!(refused(b"010202\n0200010002\n"), (1, 3));
        // Row by row: a row out of bounds comes before a bad line below it.
        assert_eq!(refused(b"010202\n0200030002\nx"), (4, 2));
        assert_eq!(refused(b"010202\n0200000000\n"), (4, 2));
        assert_eq!(refused(b"010202\nx\n0200030002\n"), (1, 2));
        // Bytes that follow come before the repeat length.
        assert_eq!(refused(b"010202\n0200017b87\n0200017b88\n\n"), (6, 4));
        assert_eq!(refused(b"010202\n0200017b87\n0200017b88\n"), (5, 0));
        assert_eq!(refused(b"010201\n0200010002\r\n"), (1, 2));
    }

    #[test]
    fn a_written_table_reads_back() {
        let rows: Vec<Row> = (0..64)
            .map(|i| Row {
                c: i + 1,
                t: 720_720 / 11 / (i % 2 + 1),
            })
            .collect();
        let mut out = [b'.'; 720];
        assert_eq!(write(32, &rows, &mut out, 5), Ok(711));
        assert_eq!((&out[..5], &out[716..]), (&b"....."[..], &b"...."[..]));
        assert_eq!(
            Table::read(&out[5..716]),
            Table::from_rows(32, &rows).map_err(|r| (r, 0))
        );

        let same = out;
        assert_eq!(write(32, &rows, &mut out, 10), Err(Refusal::Room));
        assert_eq!(write(32, &rows, &mut out, 721), Err(Refusal::Room));
        assert_eq!(write(33, &rows, &mut out, 721), Err(Refusal::Cores));
        assert_eq!(out, same);
    }
}
