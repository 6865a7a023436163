//! Sheets as free MPS: the texts of docs/TASK.md, the longest one, the refusals and their order, buffers of many
//! lengths, the sheets of examples/, and sheets by chance against texts that are made of their entries.
mod common;

use std::fs;

use batchplan::{mps, write_mps, Cause, Plan, Refusal, MPS_BYTES, SHEET_BYTES};
use common::{filled, sheet, Generator, C1};

/// The text of C1 (docs/TASK.md, T11.6).
const C1_TEXT: &str = "\
NAME SHEET
ROWS
 N COST
 L L0
COLUMNS
 X0 COST 3
 X0 L0 -2
 X1 COST 1
 X1 L0 -1
RHS
 RHS L0 -12
BOUNDS
 LO BND X0 0
 UP BND X0 10
 LO BND X1 0
 UP BND X1 10
ENDATA
";

/// The text of C7, a sheet of one material without figures.
const C7_TEXT: &str =
    "NAME SHEET\nROWS\n N COST\nCOLUMNS\n X0 COST 0\nRHS\nBOUNDS\n LO BND X0 0\n UP BND X0 0\nENDATA\n";

fn c1() -> Vec<u8> {
    sheet([2, 1, 1, 8, 4], &C1)
}

fn refused<T>(cause: Cause, place: usize) -> Result<T, Refusal> {
    Err(Refusal { cause, place })
}

/// Writes to a buffer of so many bytes. Those after the text are as they were, and so are all at a refusal.
fn written_to(sheet: &[u8], room: usize) -> Result<String, Refusal> {
    let mut buffer = filled(room);
    let written = write_mps(sheet, &mut buffer);
    let end = written.unwrap_or(0);
    assert_eq!(buffer[end..], filled(room)[end..]);
    buffer.truncate(end);
    written.map(|_| String::from_utf8(buffer).unwrap())
}

/// The text of sizes and entries, as docs/TASK.md, T14, lays it out.
fn text_of([n, m, ..]: [u16; 5], entries: &[(u16, i32)]) -> String {
    let figure = |row, column| {
        let found = entries.iter().find(|entry| entry.0 == 64 * row + column);
        found.map_or(0, |entry| entry.1)
    };
    let mut text = String::from("NAME SHEET\nROWS\n N COST\n");
    for i in 0..m {
        text += &format!(" L L{i}\n");
    }
    text += "COLUMNS\n";
    for j in 0..n {
        text += &format!(" X{j} COST {}\n", figure(0, j));
        for (i, a) in (0..m).map(|i| (i, figure(3 + i, j))).filter(|limit| limit.1 != 0) {
            text += &format!(" X{j} L{i} {a}\n");
        }
    }
    text += "RHS\n";
    for (i, b) in (0..m).map(|i| (i, figure(3 + i, n))).filter(|limit| limit.1 != 0) {
        text += &format!(" RHS L{i} {b}\n");
    }
    text += "BOUNDS\n";
    for j in 0..n {
        text += &format!(" LO BND X{j} {}\n UP BND X{j} {}\n", figure(1, j), figure(2, j));
    }
    text + "ENDATA\n"
}

/// The sizes n, m, p, D, k and the entries of a sheet that is read.
fn parts_of(sheet: &[u8]) -> ([u16; 5], Vec<(u16, i32)>) {
    let number = |at: usize| u16::from_le_bytes([sheet[at], sheet[at + 1]]);
    let values = 12 + 2 * usize::from(number(4));
    let keys = (12..values).step_by(2).map(number);
    let entries = keys.zip(sheet[values..].chunks_exact(4));
    (
        [0, 2, 6, 8, 10].map(number),
        entries.map(|(key, value)| (key, i32::from_le_bytes(value.try_into().unwrap()))).collect(),
    )
}

/// What a sheet gives in a buffer that takes every text: the refusal of its plan, where that comes before the steps,
/// and else the text of its figures.
fn expected(sheet: &[u8]) -> Result<String, Refusal> {
    match Plan::of_sheet(sheet) {
        Err(refusal) if refusal.cause.number() <= 7 => Err(refusal),
        _ => {
            let (sizes, entries) = parts_of(sheet);
            Ok(text_of(sizes, &entries))
        }
    }
}

#[test]
fn texts_of_c1_and_c7() {
    assert_eq!(mps(&c1()).as_deref(), Ok(C1_TEXT));
    assert_eq!(mps(&sheet([1, 0, 1, 1, 1], &[])).as_deref(), Ok(C7_TEXT));
}

/// With another step length, another step count and a start C1 has the same text.
#[test]
fn a_text_has_neither_steps_nor_starts() {
    let started: Vec<_> = C1.into_iter().chain([(195, 12)]).collect();
    assert_eq!(mps(&sheet([2, 1, 1024, 1, 4096], &started)).as_deref(), Ok(C1_TEXT));
}

/// A sheet whose plan is refused with 9 or 10 has a text: no step is taken.
#[test]
fn sheets_that_steps_refuse_have_texts() {
    for (cause, sizes, entries) in [
        (Cause::Infeasible, [1, 1, 1, 1, 2], &[(0, 1), (128, 1), (192, -1), (193, -5)][..]),
        (Cause::Diverged, [1, 1, 1024, 1, 1], &[(193, -1_048_577)]),
    ] {
        let sheet = sheet(sizes, entries);
        assert_eq!(Plan::of_sheet(&sheet).unwrap_err().cause, cause);
        assert_eq!(mps(&sheet), Ok(text_of(sizes, entries)));
    }
}

#[test]
fn c1_in_buffers_of_each_length() {
    for room in (0..=180).chain([MPS_BYTES - 1, MPS_BYTES, MPS_BYTES + 1]) {
        let expected = if room < 164 { refused(Cause::Text, 164) } else { Ok(C1_TEXT.to_owned()) };
        assert_eq!(written_to(&c1(), room), expected, "{room} bytes");
    }
}

/// All figures of the largest sizes, each with as many characters as it can have.
#[test]
fn the_longest_text() {
    let rows = (0..19).flat_map(|row| (0..if row < 3 { 32 } else { 34 }).map(move |j| (row, j)));
    let entries: Vec<_> = rows
        .map(|(row, column)| {
            let figure = match (row, column) {
                (0, _) => -10_000,
                (1 | 2, _) => 1_000,
                (_, 0..32) => -1_000,
                (_, 32) => -32_000_000,
                _ => 1_073_741_824,
            };
            (64 * row + column, figure)
        })
        .collect();
    let sizes = [32, 16, 1, 1, 1];
    let sheet = sheet(sizes, &entries);
    let text = text_of(sizes, &entries);
    assert_eq!((sheet.len(), text.len()), (SHEET_BYTES, MPS_BYTES));
    assert_eq!(written_to(&sheet, MPS_BYTES - 1), refused(Cause::Text, MPS_BYTES));
    assert_eq!(written_to(&sheet, MPS_BYTES).as_ref(), Ok(&text));
    assert_eq!(written_to(&sheet, MPS_BYTES + 9).as_ref(), Ok(&text));
    assert_eq!(mps(&sheet), Ok(text));
}

/// Each with a buffer that is too short besides: what is wrong with a sheet comes before 11.
#[test]
fn refusals_in_their_order() {
    let crossed = sheet([2, 0, 1, 1, 1], &[(65, 4), (129, 3)]);
    let whole = c1();
    let damaged = [
        (Cause::Short, 0, whole[..11].to_vec()),
        (Cause::Dimensions, 0, vec![0; 1 << 20]),
        (Cause::Length, 0, whole[..53].to_vec()),
        (Cause::Parameters, 0, sheet([2, 1, 1, 0, 4], &C1)),
        (Cause::Key, 1, sheet([2, 0, 1, 1, 1], &[(1, 1), (1, 1)])),
        (Cause::Value, 0, sheet([2, 0, 1, 1, 1], &[(1, 10_001)])),
        (Cause::Bounds, 1, crossed),
        (Cause::Text, 164, whole),
    ];
    for (cause, place, sheet) in damaged {
        for room in [0, 1, 163] {
            assert_eq!(written_to(&sheet, room), refused(cause, place), "{cause:?}, {room} bytes");
        }
        if cause != Cause::Text {
            assert_eq!(mps(&sheet), refused(cause, place));
            assert_eq!(written_to(&sheet, MPS_BYTES), refused(cause, place));
        }
    }
}

#[test]
fn a_refusal_in_words() {
    let refusal = write_mps(&c1(), &mut []).unwrap_err();
    assert_eq!(refusal.cause.number(), 11);
    assert_eq!(refusal.to_string(), "refused 11 at 164: the buffer is too short for the MPS text");
}

/// Every sheet of examples/ has a text where it is read, and else the refusal of its plan. The text goes into a buffer
/// that it just fills, or that is longer, and not into one that is a byte shorter.
#[test]
fn sheets_of_the_examples() {
    let folder = concat!(env!("CARGO_MANIFEST_DIR"), "/../../examples");
    let files = fs::read_dir(folder).unwrap().map(|entry| entry.unwrap().path());
    let mut met = [0; 2];
    for file in files.filter(|file| file.extension().is_some_and(|kind| kind == "sheet")) {
        let sheet = fs::read(&file).unwrap();
        let made = mps(&sheet);
        assert_eq!(made, expected(&sheet), "{}", file.display());
        met[usize::from(made.is_ok())] += 1;
        if let Ok(text) = made {
            let length = text.len();
            assert_eq!(written_to(&sheet, length - 1), refused(Cause::Text, length));
            assert_eq!(written_to(&sheet, length).as_ref(), Ok(&text));
            assert_eq!(written_to(&sheet, length + 9).as_ref(), Ok(&text));
        }
    }
    assert!(met.iter().all(|&count| count > 0), "texts and refusals occur: {met:?}");
}

#[test]
fn small_sheets() {
    let mut generator = Generator(6);
    let mut met = [0; 4];
    for _ in 0..3_000 {
        let (sizes, mut entries) = generator.parts();
        if generator.below(8) == 0 {
            // no most amounts: every least amount is above its most
            entries.retain(|&(key, _)| key / 64 != 2);
        }
        let sheet = sheet(sizes, &entries);
        let whole = expected(&sheet);
        assert_eq!(mps(&sheet), whole);
        let room = 100 + generator.below(400) as usize;
        let in_room = whole.and_then(|text| match text.len() {
            length if room < length => refused(Cause::Text, length),
            _ => Ok(text),
        });
        met[match in_room {
            Ok(_) => 0,
            Err(Refusal { cause: Cause::Value, .. }) => 1,
            Err(Refusal { cause: Cause::Bounds, .. }) => 2,
            Err(_) => 3,
        }] += 1;
        assert_eq!(written_to(&sheet, room), in_room);
    }
    assert!(met.iter().all(|&count| count > 9), "texts and refusals 6, 7, 11 occur: {met:?}");
}
