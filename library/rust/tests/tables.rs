//! Sheets that are written from slices and from tables: the bytes of C1, arrays of wrong lengths, the ends of the
//! ranges, the order of the refusals, buffers of many lengths, and that what is written is read and planned.
mod common;

use batchplan::{
    listing, write_sheet, Arrays, Cause, LimitRow, Material, Plan, Refusal, Sizes, Steps, Table,
    SHEET_BYTES,
};
use common::{filled, sheet, Generator, C1};

/// The sheet of C1 (docs/TASK.md, T11.1).
const C1_SHEET: [u8; 54] = [
    2, 0, 1, 0, 7, 0, 1, 0, 8, 0, 4, 0, 0, 0, 1, 0, 0x80, 0, 0x81, 0, 0xc0, 0, 0xc1, 0, 0xc2, 0, 3,
    0, 0, 0, 1, 0, 0, 0, 10, 0, 0, 0, 10, 0, 0, 0, 0xfe, 0xff, 0xff, 0xff, 0xff, 0xff, 0xff, 0xff,
    0xf4, 0xff, 0xff, 0xff,
];

/// The least and the greatest figure of each array that is not 0, in the order of `Figures::arrays`.
const RANGES: [(i32, i32); 6] = [
    (-10_000, 10_000),
    (1, 1_000),
    (1, 1_000),
    (-1_000, 1_000),
    (-32_000_000, 32_000_000),
    (1, 1_073_741_824),
];

/// What `write_sheet` takes besides a buffer.
#[derive(Clone)]
struct Figures {
    sizes: Sizes,
    /// Costs, least amounts, most amounts, coefficients, right-hand sides, starts.
    arrays: [Vec<i32>; 6],
}

impl Figures {
    /// So many materials and limits, with all figures 0.
    fn zeros(n: usize, m: usize) -> Figures {
        let arrays = [n, n, n, n * m, m, m].map(|length| vec![0; length]);
        Figures { sizes: Sizes { n, m, p: 1, d: 1, k: 1 }, arrays }
    }

    /// The sizes and figures of a sheet with these sizes n, m, p, D, k and these entries.
    fn of_entries(sizes: [u16; 5], entries: &[(u16, i32)]) -> Figures {
        let [n, m, p, d, k] = sizes.map(usize::from);
        let mut figures = Figures { sizes: Sizes { n, m, p, d, k }, ..Figures::zeros(n, m) };
        for &(key, value) in entries {
            let (row, column) = (usize::from(key) / 64, usize::from(key) % 64);
            let (array, place) = match row {
                0..3 => (row, column),
                _ if column < n => (3, n * (row - 3) + column),
                _ => (4 + column - n, row - 3),
            };
            figures.arrays[array][place] = value;
        }
        figures
    }

    fn c1() -> Figures {
        Figures::of_entries([2, 1, 1, 8, 4], &C1)
    }

    /// Writes to a buffer of so many bytes. Those after the sheet are as they were, and so are all at a refusal.
    fn written_to(&self, room: usize) -> Result<Vec<u8>, Refusal> {
        let [cost, least, most, a, b, start] = self.arrays.each_ref().map(Vec::as_slice);
        let mut buffer = filled(room);
        let written =
            write_sheet(self.sizes, &Arrays { cost, least, most, a, b, start }, &mut buffer);
        let end = written.unwrap_or(0);
        assert_eq!(buffer[end..], filled(room)[end..]);
        buffer.truncate(end);
        written.map(|_| buffer)
    }

    /// Writes to a buffer that takes every sheet.
    fn written(&self) -> Result<Vec<u8>, Refusal> {
        self.written_to(SHEET_BYTES)
    }

    /// The same figures in a table.
    fn table(&self) -> Table {
        let Sizes { n, p, d, k, .. } = self.sizes;
        let [cost, least, most, a, b, start] = &self.arrays;
        let materials =
            (0..n).map(|j| Material { cost: cost[j], least: least[j], most: most[j] }).collect();
        let limits = a
            .chunks(n)
            .zip(b.iter().zip(start))
            .map(|(row, (&rhs, &start))| LimitRow { coefficients: row.to_vec(), rhs, start })
            .collect();
        Table::new(Steps { p, d, k }, materials, limits).unwrap()
    }
}

fn refused<T>(cause: Cause, place: usize) -> Result<T, Refusal> {
    Err(Refusal { cause, place })
}

#[test]
fn c1_from_arrays_and_from_a_table() {
    assert_eq!(Figures::c1().written(), Ok(C1_SHEET.to_vec()));
    assert_eq!(Figures::c1().table().write(), Ok(C1_SHEET.to_vec()));
    assert_eq!(
        listing(&Figures::c1().written().unwrap()),
        "steps 4\nmat 0 10\nmat 1 20\nlim 0 12 8\nlow 104\ngap -16\n"
    );
}

#[test]
fn a_table_that_goes_on_from_a_plan() {
    let plan = Plan::of_sheet(&C1_SHEET).unwrap();
    let (steps, materials, mut limits) = Figures::c1().table().into_parts();
    for (row, limit) in limits.iter_mut().zip(&plan.limits) {
        row.start = limit.multiplier;
    }
    let next = Table::new(steps, materials, limits).unwrap();
    let entries: Vec<_> = C1.into_iter().chain([(195, 12)]).collect();
    assert_eq!(next.write(), Ok(sheet([2, 1, 1, 8, 4], &entries)));
    assert_eq!(
        listing(&next.write().unwrap()),
        "steps 4\nmat 0 10\nmat 1 30\nlim 0 14 -2\nlow 104\ngap 64\n"
    );
}

#[test]
fn arrays_of_other_lengths() {
    for (n, m) in [(2, 1), (1, 0), (3, 2), (32, 16)] {
        let right = Figures::zeros(n, m);
        assert_eq!(right.written().unwrap().len(), 12);
        for array in 0..6 {
            let due = right.arrays[array].len();
            let others = [0, 1, due.saturating_sub(1), due + 1, due + n, due + m, 2 * due, 1_000];
            for length in others.into_iter().filter(|&length| length != due) {
                let mut wrong = right.clone();
                wrong.arrays[array].resize(length, 0);
                assert_eq!(
                    wrong.written(),
                    refused(Cause::Dimensions, 0),
                    "n {n}, m {m}, array {array} with {length} figures"
                );
            }
        }
    }
}

#[test]
fn tables_with_a_row_of_another_length() {
    let (steps, materials, limits) = Figures::zeros(3, 2).table().into_parts();
    for (limit, length) in [(0, 0), (0, 2), (0, 4), (1, 0), (1, 2), (1, 4)] {
        let mut wrong = limits.clone();
        wrong[limit].coefficients.resize(length, 0);
        assert_eq!(Table::new(steps, materials.clone(), wrong), refused(Cause::Dimensions, 0));
    }
    assert_eq!(Table::new(steps, vec![], limits), refused(Cause::Dimensions, 0));
}

#[test]
fn tables_with_too_many_rows_or_none() {
    let steps = Steps { p: 1, d: 1, k: 1 };
    for (n, m, good) in
        [(0, 0, false), (1, 0, true), (32, 16, true), (33, 16, false), (32, 17, false)]
    {
        let row = LimitRow { coefficients: vec![0; n], ..LimitRow::default() };
        let table = Table::new(steps, vec![Material::default(); n], vec![row; m]).unwrap();
        assert_eq!((table.materials().len(), table.limits().len()), (n, m));
        let sheet = sheet([n as u16, m as u16, 1, 1, 1], &[]);
        let expected = if good { Ok(sheet) } else { refused(Cause::Dimensions, 0) };
        assert_eq!(table.write(), expected, "n {n}, m {m}");
    }
}

/// Gives one of the sizes a value.
type SetSize = fn(&mut Sizes, usize);

#[test]
fn sizes_at_the_ends_of_their_ranges() {
    let with = |change: SetSize, value| {
        let mut figures = Figures::zeros(1, 0);
        change(&mut figures.sizes, value);
        // arrays of the lengths that small sizes ask for; the others are refused whatever the lengths are
        if figures.sizes.n.max(figures.sizes.m) < 100 {
            figures.arrays = Figures::zeros(figures.sizes.n, figures.sizes.m).arrays;
        }
        figures.written().map(|sheet| Plan::of_sheet(&sheet).unwrap())
    };
    let sizes: [(SetSize, usize, usize, Cause); 5] = [
        (|sizes, n| sizes.n = n, 1, 32, Cause::Dimensions),
        (|sizes, m| sizes.m = m, 0, 16, Cause::Dimensions),
        (|sizes, p| sizes.p = p, 1, 1_024, Cause::Parameters),
        (|sizes, d| sizes.d = d, 1, 1_024, Cause::Parameters),
        (|sizes, k| sizes.k = k, 1, 4_096, Cause::Parameters),
    ];
    for (change, least, greatest, cause) in sizes {
        for value in [least, least + 1, greatest] {
            assert!(with(change, value).is_ok(), "{cause:?}: {value}");
        }
        // cut to 16 or 32 bits, the last three would be in range
        let others = [greatest + 1, usize::MAX, 1 << 63, 65_537, (1 << 32) + 1, (1 << 63) + 1];
        for value in others.into_iter().chain(least.checked_sub(1)) {
            assert_eq!(with(change, value), refused(cause, 0), "{value}");
        }
    }
    // n times m is 0 in 64 bits
    let mut figures = Figures::zeros(0, 0);
    figures.sizes = Sizes { n: 1 << 32, m: 1 << 32, ..figures.sizes };
    assert_eq!(figures.written(), refused(Cause::Dimensions, 0));
}

#[test]
fn figures_at_the_ends_of_their_ranges() {
    for (array, (least, greatest)) in RANGES.into_iter().enumerate() {
        for place in [0, 1] {
            let with = |value| {
                let mut figures = Figures::zeros(2, 2);
                figures.arrays[2] = vec![1_000; 2];
                figures.arrays[array][place] = value;
                figures.written().map(|sheet| sheet.len())
            };
            // without the figure there are the two most amounts, or the other of them
            let length = if array == 2 { 18 } else { 24 };
            assert_eq!(with(0), Ok(length), "array {array}");
            for value in [least, greatest] {
                assert_eq!(with(value), Ok(length + 6), "array {array}, {value}");
            }
            for value in [greatest + 1, i32::MAX, i32::MIN, -1, least - 1] {
                if value != 0 && !(least..=greatest).contains(&value) {
                    assert_eq!(with(value), refused(Cause::Value, 0), "array {array}, {value}");
                }
            }
        }
    }
}

#[test]
fn the_first_material_with_crossed_bounds() {
    let mut figures = Figures::zeros(4, 1);
    figures.arrays[1] = vec![0, 5, 6, 7];
    figures.arrays[2] = vec![0, 5, 5, 0];
    assert_eq!(figures.written(), refused(Cause::Bounds, 2));
    // the most amount is absent
    figures.arrays[2] = vec![0, 0, 5, 0];
    assert_eq!(figures.written(), refused(Cause::Bounds, 1));
}

/// What is done to figures and to the length of a buffer, so that they are refused.
type Damage = fn(&mut Figures, &mut usize);

#[test]
fn refusals_in_their_order() {
    let damages: [(Cause, usize, Damage); 5] = [
        (Cause::Dimensions, 0, |figures, _| figures.arrays[5].push(0)),
        (Cause::Parameters, 0, |figures, _| figures.sizes.d = 0),
        (Cause::Value, 0, |figures, _| figures.arrays[4][0] = 32_000_001),
        (Cause::Bounds, 1, |figures, _| figures.arrays[1][1] = 11),
        (Cause::Buffer, 54, |_, room| *room = 53),
    ];
    for (first, &(cause, place, damage)) in damages.iter().enumerate() {
        for &(later, _, other) in &damages[first..] {
            let (mut figures, mut room) = (Figures::c1(), 54);
            damage(&mut figures, &mut room);
            if later != cause {
                other(&mut figures, &mut room);
            }
            assert_eq!(figures.written_to(room), refused(cause, place), "{cause:?} and {later:?}");
        }
    }
}

#[test]
fn c1_to_buffers_of_each_length() {
    for room in 0..=70 {
        let expected = if room < 54 { refused(Cause::Buffer, 54) } else { Ok(C1_SHEET.to_vec()) };
        assert_eq!(Figures::c1().written_to(room), expected, "{room} bytes");
        let mut buffer = filled(room);
        let written = Figures::c1().table().write_to(&mut buffer);
        assert_eq!(written, expected.map(|sheet| sheet.len()), "{room} bytes");
        let end = written.unwrap_or(0);
        assert_eq!((&buffer[..end], &buffer[end..]), (&C1_SHEET[..end], &filled(room)[end..]));
    }
}

/// With the least and with the greatest figures in turn, and then the other way round.
#[test]
fn all_figures_of_the_longest_sheet() {
    for turn in [0, 1] {
        let mut figures = Figures::zeros(32, 16);
        for (array, (least, greatest)) in figures.arrays.iter_mut().zip(RANGES) {
            for (place, figure) in array.iter_mut().enumerate() {
                *figure = if (place + turn) % 2 == 0 { least } else { greatest };
            }
        }
        let rows =
            (0..19).flat_map(|row| (0..if row < 3 { 32 } else { 34 }).map(move |j| (row, j)));
        let entries: Vec<_> = rows
            .map(|(row, column)| {
                let (array, place) = match (row, column) {
                    (0..3, _) => (row, column),
                    (_, 0..32) => (3, 32 * (row - 3) + column),
                    _ => (column - 28, row - 3),
                };
                ((64 * row + column) as u16, figures.arrays[array][place])
            })
            .collect();
        let expected = sheet([32, 16, 1, 1, 1], &entries);
        assert_eq!(expected.len(), SHEET_BYTES);
        assert_eq!(figures.written_to(SHEET_BYTES - 1), refused(Cause::Buffer, SHEET_BYTES));
        assert_eq!(figures.written_to(SHEET_BYTES).as_ref(), Ok(&expected));
        assert_eq!(figures.written_to(SHEET_BYTES + 9).as_ref(), Ok(&expected));
        assert_eq!(figures.table().write(), Ok(expected));
    }
}

#[test]
fn one_slice_for_several_arrays() {
    let (zeros, tens) = ([0; 2], [10; 2]);
    let sizes = Sizes { n: 2, m: 2, p: 1, d: 1, k: 1 };
    let arrays =
        Arrays { cost: &tens, least: &zeros, most: &tens, a: &[0; 4], b: &tens, start: &zeros };
    let mut buffer = [0; 48];
    assert_eq!(write_sheet(sizes, &arrays, &mut buffer), Ok(48));
    let entries = [(0, 10), (1, 10), (128, 10), (129, 10), (194, 10), (258, 10)];
    assert_eq!(buffer[..], sheet([2, 2, 1, 1, 1], &entries));
}

/// The figures of a sheet, written, give the sheet back where it is read, and else its refusal, with the place 0 for 6.
#[test]
fn small_sheets_written_again() {
    let mut generator = Generator(4);
    let mut met = [0; 3];
    for _ in 0..3_000 {
        let (sizes, mut entries) = generator.parts();
        if generator.below(8) == 0 {
            // least and most amounts exchanged
            for (key, _) in entries.iter_mut().filter(|entry| (64..192).contains(&entry.0)) {
                *key ^= 192;
            }
            entries.sort_unstable();
        }
        let bytes = sheet(sizes, &entries);
        let (expected, kind) = match Plan::of_sheet(&bytes) {
            Err(Refusal { cause: Cause::Value, .. }) => (refused(Cause::Value, 0), 1),
            Err(Refusal { cause: Cause::Bounds, place }) => (refused(Cause::Bounds, place), 2),
            _ => (Ok(bytes), 0),
        };
        let figures = Figures::of_entries(sizes, &entries);
        assert_eq!(figures.written(), expected);
        assert_eq!(figures.table().write(), expected);
        met[kind] += 1;
    }
    assert!(met.iter().all(|&count| count > 9), "sheets and refusals 6 and 7 occur: {met:?}");
}
