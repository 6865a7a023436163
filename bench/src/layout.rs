//! The layout of a batch sheet, as both plain planners read it: refusals 1 to 6. The plain writer has the ranges of its
//! figures from here.
use batchplan::{Answer, Cause, Refusal};

pub struct Sizes {
    pub n: usize,
    pub m: usize,
    pub p: i64,
    pub d: i64,
    pub k: usize,
}

/// An entry: what its key says, and its value.
#[derive(Clone, Copy)]
pub struct Entry {
    pub row: usize,
    pub column: usize,
    pub value: i32,
}

/// A plan's low and gap, or the refusal, as the library answers them.
pub fn answer(planned: Result<(i64, i64), Refusal>) -> Answer {
    match planned {
        Ok((low, gap)) => Answer::Plan { low, gap },
        Err(refusal) => Answer::Refused(refusal),
    }
}

pub fn refuse(cause: Cause, place: usize) -> Refusal {
    Refusal { cause, place }
}

/// The sizes, and how many entries there are.
pub fn read_sizes(sheet: &[u8]) -> Result<(Sizes, usize), Refusal> {
    if sheet.len() < 12 {
        return Err(refuse(Cause::Short, 0));
    }
    let [n, m, e, p, d, k] =
        [0, 2, 4, 6, 8, 10].map(|at| usize::from(u16::from_le_bytes([sheet[at], sheet[at + 1]])));
    if !(1..=32).contains(&n) || m > 16 || e > n * (m + 3) + 2 * m {
        return Err(refuse(Cause::Dimensions, 0));
    }
    if sheet.len() != 12 + 6 * e {
        return Err(refuse(Cause::Length, 0));
    }
    if !(1..=1024).contains(&p) || !(1..=1024).contains(&d) || !(1..=4096).contains(&k) {
        return Err(refuse(Cause::Parameters, 0));
    }
    let (p, d) = (p as i64, d as i64);
    Ok((Sizes { n, m, p, d, k }, e))
}

fn check_keys(size: &Sizes, keys: impl Iterator<Item = usize>) -> Result<(), Refusal> {
    let mut floor = 0;
    for (i, key) in keys.enumerate() {
        let (row, column) = (key / 64, key % 64);
        let named = row <= size.m + 2 && column <= size.n + 1 && (column < size.n || row > 2);
        if key < floor || !named {
            return Err(refuse(Cause::Key, i));
        }
        floor = key + 1;
    }
    Ok(())
}

pub fn in_range(n: usize, entry: Entry) -> bool {
    let range = match entry.row {
        0 => -10_000..=10_000,
        1 | 2 => 1..=1_000,
        _ if entry.column < n => -1_000..=1_000,
        _ if entry.column == n => -32_000_000..=32_000_000,
        _ => 1..=1_073_741_824,
    };
    entry.value != 0 && range.contains(&entry.value)
}

/// Makes the figures of a sheet, all 0, and stores each entry in them.
pub fn read<Figures>(
    sheet: &[u8],
    make: impl FnOnce(Sizes) -> Figures,
    store: impl Fn(&mut Figures, Entry),
) -> Result<Figures, Refusal> {
    let (size, e) = read_sizes(sheet)?;
    let (keys, values) = sheet[12..].split_at(2 * e);
    let keys = keys.chunks_exact(2);
    let keys = keys.map(|two| usize::from(u16::from_le_bytes([two[0], two[1]])));
    check_keys(&size, keys.clone())?;
    let n = size.n;
    let mut figures = make(size);
    for (i, (key, four)) in keys.zip(values.chunks_exact(4)).enumerate() {
        let value = i32::from_le_bytes([four[0], four[1], four[2], four[3]]);
        let (row, column) = (key / 64, key % 64);
        let entry = Entry { row, column, value };
        if !in_range(n, entry) {
            return Err(refuse(Cause::Value, i));
        }
        store(&mut figures, entry);
    }
    Ok(figures)
}
