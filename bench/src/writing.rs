//! Writing a sheet: the proved writer beside two plain ones, from document 02, M-101, and docs/TASK.md, T2 and T3. One
//! gathers the entries in a vector, as one writes it without further thought; the other puts each straight into the
//! buffer.
use crate::layout::{in_range, refuse, Entry};
use crate::sheets::{Generator, Sheet};
use crate::{headline, line, nanoseconds, ROUNDS};
use batchplan::{write_sheet, Arrays, Cause, Refusal, Sizes, SHEET_BYTES};
use std::hint::black_box;

type Writer = fn(Sizes, &Arrays, &mut [u8]) -> Result<usize, Refusal>;

/// The proved writer first, then the two that it is compared with.
const WRITERS: [Writer; 3] = [write_sheet, gather, put];

/// Refusals 2 and 4.
fn check_sizes(size: Sizes, arrays: &Arrays) -> Result<(), Refusal> {
    let Sizes { n, m, p, d, k } = size;
    let Arrays { cost, least, most, a, b, start } = *arrays;
    let due = [n, n, n, n.wrapping_mul(m), m, m];
    if !(1..=32).contains(&n) || m > 16 || [cost, least, most, a, b, start].map(<[i32]>::len) != due
    {
        return Err(refuse(Cause::Dimensions, 0));
    }
    if !(1..=1024).contains(&p) || !(1..=1024).contains(&d) || !(1..=4096).contains(&k) {
        return Err(refuse(Cause::Parameters, 0));
    }
    Ok(())
}

/// Refusals 7 and 8, or the length of the sheet of e entries.
fn length_of(e: usize, arrays: &Arrays, room: usize) -> Result<usize, Refusal> {
    if let Some(j) = (0..arrays.least.len()).find(|&j| arrays.least[j] > arrays.most[j]) {
        return Err(refuse(Cause::Bounds, j));
    }
    let length = 12 + 6 * e;
    if room < length {
        return Err(refuse(Cause::Buffer, length));
    }
    Ok(length)
}

/// Every figure that is not 0, row by row.
fn entries(size: Sizes, arrays: &Arrays) -> Vec<Entry> {
    let mut entries = Vec::new();
    for (row, figures) in [arrays.cost, arrays.least, arrays.most].into_iter().enumerate() {
        for j in 0..size.n {
            entries.push(Entry { row, column: j, value: figures[j] });
        }
    }
    for i in 0..size.m {
        let row = 3 + i;
        for j in 0..size.n {
            entries.push(Entry { row, column: j, value: arrays.a[i * size.n + j] });
        }
        entries.push(Entry { row, column: size.n, value: arrays.b[i] });
        entries.push(Entry { row, column: size.n + 1, value: arrays.start[i] });
    }
    entries.retain(|entry| entry.value != 0);
    entries
}

/// The writer with a vector.
fn gather(size: Sizes, arrays: &Arrays, sheet: &mut [u8]) -> Result<usize, Refusal> {
    check_sizes(size, arrays)?;
    let entries = entries(size, arrays);
    if entries.iter().any(|entry| !in_range(size.n, *entry)) {
        return Err(refuse(Cause::Value, 0));
    }
    let length = length_of(entries.len(), arrays, sheet.len())?;
    let mut bytes = Vec::with_capacity(length);
    for size in [size.n, size.m, entries.len(), size.p, size.d, size.k] {
        bytes.extend((size as u16).to_le_bytes());
    }
    for entry in &entries {
        bytes.extend((64 * entry.row as u16 + entry.column as u16).to_le_bytes());
    }
    for entry in &entries {
        bytes.extend(entry.value.to_le_bytes());
    }
    sheet[..length].copy_from_slice(&bytes);
    Ok(length)
}

/// The writer without.
fn put(size: Sizes, arrays: &Arrays, sheet: &mut [u8]) -> Result<usize, Refusal> {
    check_sizes(size, arrays)?;
    let Arrays { cost, least, most, a, b, start } = *arrays;
    let within = |figures: &[i32], least: i32, greatest: i32| {
        figures.iter().all(|&value| value == 0 || (least <= value && value <= greatest))
    };
    let bounds = within(least, 1, 1_000) && within(most, 1, 1_000);
    let rows = within(a, -1_000, 1_000) && within(b, -32_000_000, 32_000_000);
    if !(within(cost, -10_000, 10_000) && bounds && rows && within(start, 1, 1_073_741_824)) {
        return Err(refuse(Cause::Value, 0));
    }
    let present = |figures: &[i32]| figures.iter().filter(|&&value| value != 0).count();
    let e = [cost, least, most, a, b, start].map(present).iter().sum();
    let length = length_of(e, arrays, sheet.len())?;
    let (sizes, rest) = sheet[..length].split_at_mut(12);
    for (two, size) in sizes.chunks_exact_mut(2).zip([size.n, size.m, e, size.p, size.d, size.k]) {
        two.copy_from_slice(&(size as u16).to_le_bytes());
    }
    let (keys, values) = rest.split_at_mut(2 * e);
    let mut places = keys.chunks_exact_mut(2).zip(values.chunks_exact_mut(4));
    let mut put_run = |key: usize, figures: &[i32]| {
        for (j, value) in figures.iter().enumerate().filter(|(_, &value)| value != 0) {
            if let Some((two, four)) = places.next() {
                two.copy_from_slice(&((key + j) as u16).to_le_bytes());
                four.copy_from_slice(&value.to_le_bytes());
            }
        }
    };
    put_run(0, cost);
    put_run(64, least);
    put_run(128, most);
    for i in 0..size.m {
        put_run(64 * (3 + i), &a[i * size.n..][..size.n]);
        put_run(64 * (3 + i) + size.n, &[b[i], start[i]]);
    }
    Ok(length)
}

/// What is written: sizes, the six arrays, and the length of the buffer.
#[derive(Clone)]
struct Table {
    size: Sizes,
    arrays: [Vec<i32>; 6],
    room: usize,
}

impl Table {
    fn new(sheet: &Sheet) -> Table {
        let (n, m) = (sheet.cost.len(), sheet.limits.len());
        let (p, d, k) = (sheet.p.into(), sheet.d.into(), sheet.k.into());
        let of_limits = |column: usize| sheet.limits.iter().map(|limit| limit[column]).collect();
        let a = sheet.limits.iter().flat_map(|limit| limit[..n].to_vec()).collect();
        let [cost, least, most] = [&sheet.cost, &sheet.least, &sheet.most].map(Vec::clone);
        let arrays = [cost, least, most, a, of_limits(n), of_limits(n + 1)];
        Table { size: Sizes { n, m, p, d, k }, arrays, room: SHEET_BYTES }
    }

    /// The same with one thing changed: a size, the length of an array, a figure or the length of the buffer.
    fn damaged(mut self, generator: &mut Generator) -> Table {
        let array = &mut self.arrays[generator.between(0, 5) as usize];
        match generator.between(0, 7) {
            0 => self.size.d = generator.between(0, 2_000) as usize,
            1 => self.size.m = generator.between(0, 20) as usize,
            2 => array.push(1),
            3 => drop(array.pop()),
            4 => self.room = generator.between(0, 60) as usize,
            _ if array.is_empty() => {}
            _ => {
                let place = generator.between(0, array.len() as i32 - 1) as usize;
                array[place] = generator.between(-1_100, 1_100);
            }
        }
        self
    }

    fn arrays(&self) -> Arrays<'_> {
        let [cost, least, most, a, b, start] = self.arrays.each_ref().map(|array| &array[..]);
        Arrays { cost, least, most, a, b, start }
    }

    /// What a writer answers, and the buffer afterwards.
    fn outcome(&self, writer: Writer) -> (Result<usize, Refusal>, Vec<u8>) {
        let mut sheet = vec![0xa5; self.room];
        (writer(self.size, &self.arrays(), &mut sheet), sheet)
    }

    fn time(&self, writer: Writer, calls: usize) -> f64 {
        let (arrays, mut sheet) = (self.arrays(), vec![0; self.room]);
        nanoseconds(calls, || {
            let _ = black_box(writer(self.size, black_box(&arrays), black_box(&mut sheet)));
        })
    }
}

/// The writers agree on a sheet, which they write as it is, and on tables that differ from its own in one thing.
fn check(sheet: &Sheet) {
    let (table, bytes) = (Table::new(sheet), sheet.bytes());
    let (answer, written) = table.outcome(write_sheet);
    assert!(answer == Ok(bytes.len()) && written.starts_with(&bytes), "{}: {answer:?}", sheet.name);
    let mut generator = Generator(4);
    let damaged = (0..300).map(|_| table.clone().damaged(&mut generator));
    for each in damaged.chain([table.clone()]) {
        let proved = each.outcome(WRITERS[0]);
        let same = WRITERS.iter().all(|&writer| each.outcome(writer) == proved);
        assert!(same, "{}: the writers differ", sheet.name);
    }
}

fn write_line(sheet: &Sheet) {
    let table = Table::new(sheet);
    let calls = (2e6 / table.time(gather, 3)).clamp(1.0, 20_000.0) as usize;
    let round = |_| vec![WRITERS.map(|writer| table.time(writer, calls))];
    let rounds: Vec<_> = (0..ROUNDS).map(round).collect();
    line(sheet.name, &rounds, |round| round[0]);
}

pub fn compare(sheets: &[Sheet]) {
    sheets.iter().for_each(check);
    headline("writing a sheet");
    sheets.iter().for_each(write_line);
}
