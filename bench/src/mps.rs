//! A sheet as free MPS: the proved text beside two plain ones, from docs/TASK.md, T2, T3, T7 and T14. One has its
//! figures in vectors and Rust's own formatting into a string, as one writes it without further thought. The other is
//! the fastest that was found in a short time: it looks at each entry once, and puts names and numbers into the buffer
//! out of tables, as words of 4 or 8 bytes whose surplus is covered by what comes after.
//!
//! All three read the sheet, and reading is part of what is timed.
use crate::layout::{read, read_sizes, refuse};
use crate::listing::Text;
use crate::plain;
use crate::sheets::{longest_text, Generator, Sheet};
use crate::{headline_beside, line, nanoseconds, Round};
use batchplan::{write_mps, Cause, Refusal, MPS_BYTES};
use std::fmt::{self, Write};
use std::hint::black_box;

/// Many short rounds, as of a listing.
const ROUNDS: usize = 2_001;

/// How long the proved writer's turn in a round is, in nanoseconds. The others make as many calls.
const TURN: f64 = 5e4;

type Writer = fn(&[u8], &mut [u8]) -> Result<usize, Refusal>;

/// The proved writer first, then the two that it is compared with.
const WRITERS: [Writer; 3] = [write_mps, formatted, tabled];

/// What is timed: a name and a sheet.
type Case = (&'static str, Vec<u8>);

/// Copies a text that is written elsewhere, or refuses with 11.
fn copy(whole: &[u8], text: &mut [u8]) -> Result<usize, Refusal> {
    if text.len() < whole.len() {
        return Err(refuse(Cause::Text, whole.len()));
    }
    text[..whole.len()].copy_from_slice(whole);
    Ok(whole.len())
}

/// Refusals 1 to 7, or the figures.
fn read_figures(sheet: &[u8]) -> Result<plain::Figures, Refusal> {
    let f = read(sheet, plain::Figures::new, plain::Figures::store)?;
    match (0..f.size.n).find(|&j| f.least[j] > f.most[j]) {
        Some(j) => Err(refuse(Cause::Bounds, j)),
        None => Ok(f),
    }
}

fn write_lines(f: &plain::Figures, text: &mut String) -> fmt::Result {
    let (n, m) = (f.size.n, f.size.m);
    writeln!(text, "NAME SHEET")?;
    writeln!(text, "ROWS")?;
    writeln!(text, " N COST")?;
    for i in 0..m {
        writeln!(text, " L L{i}")?;
    }
    writeln!(text, "COLUMNS")?;
    for j in 0..n {
        writeln!(text, " X{j} COST {}", f.cost[j])?;
        for i in 0..m {
            let a = f.a[i * n + j];
            if a != 0 {
                writeln!(text, " X{j} L{i} {a}")?;
            }
        }
    }
    writeln!(text, "RHS")?;
    for i in 0..m {
        if f.b[i] != 0 {
            writeln!(text, " RHS L{i} {}", f.b[i])?;
        }
    }
    writeln!(text, "BOUNDS")?;
    for j in 0..n {
        writeln!(text, " LO BND X{j} {}", f.least[j])?;
        writeln!(text, " UP BND X{j} {}", f.most[j])?;
    }
    writeln!(text, "ENDATA")
}

/// The writer with Rust's own formatting.
fn formatted(sheet: &[u8], text: &mut [u8]) -> Result<usize, Refusal> {
    let f = read_figures(sheet)?;
    let mut whole = String::new();
    write_lines(&f, &mut whole).expect("a string takes every text");
    copy(whole.as_bytes(), text)
}

/// What a text carries, in as few bits as the ranges allow: costs, least and most amounts and coefficients in rows as
/// the sheet has them, and the right-hand sides.
struct Figures {
    n: usize,
    m: usize,
    rows: [[i16; 32]; 19],
    b: [i32; 16],
}

fn within(figures: &[i16], least: i16, greatest: i16) -> bool {
    figures.iter().fold(true, |all, &figure| all & (least <= figure) & (figure <= greatest))
}

impl Figures {
    /// Those of a sheet; `false` where it is refused. The ranges of 16-bit figures are tested when all are there, a row
    /// at a time; an absent one is 0, which is in each. Keys that rise are all in their rows when the last is.
    fn read(&mut self, sheet: &[u8]) -> bool {
        let Ok((size, e)) = read_sizes(sheet) else { return false };
        (self.n, self.m) = (size.n, size.m);
        let (keys, values) = sheet[12..].split_at(2 * e);
        let (mut sound, mut floor) = (true, 0);
        for (two, four) in keys.chunks_exact(2).zip(values.chunks_exact(4)) {
            let key = usize::from(u16::from_le_bytes([two[0], two[1]]));
            let value = i32::from_le_bytes([four[0], four[1], four[2], four[3]]);
            let (row, column) = (key / 64, key % 64);
            sound &= key >= floor && value != 0;
            floor = key + 1;
            if column < self.n {
                let Some(figures) = self.rows.get_mut(row) else { return false };
                figures[column % 32] = value as i16;
                sound &= i32::from(value as i16) == value;
            } else if (3..19).contains(&row) && column == self.n {
                self.b[row - 3] = value;
                sound &= (-32_000_000..=32_000_000).contains(&value);
            } else {
                sound &= row >= 3 && column == self.n + 1 && (1..=1_073_741_824).contains(&value);
            }
        }
        let [cost, least, most, a @ ..] = &self.rows;
        sound &= floor <= 64 * (self.m + 3) && within(cost, -10_000, 10_000);
        sound &= within(least, 0, 1_000) && within(most, 0, 1_000);
        sound &= within(a.as_flattened(), -1_000, 1_000);
        sound && least.iter().zip(most).fold(true, |all, (least, most)| all & (least <= most))
    }
}

/// A word: what stands before a number, the number, what stands after it, and in the last byte how many bytes these
/// are.
const fn word<const N: usize>(before: &[u8], number: i32, after: &[u8]) -> [u8; N] {
    let (mut word, mut length) = ([0; N], 0);
    while length < before.len() {
        word[length] = before[length];
        length += 1;
    }
    if number < 0 {
        word[length] = b'-';
        length += 1;
    }
    let (rest, mut unit) = (number.unsigned_abs(), 1);
    while 10 * unit <= rest {
        unit *= 10;
    }
    while unit > 0 {
        word[length] = b'0' + (rest / unit % 10) as u8;
        length += 1;
        unit /= 10;
    }
    let mut i = 0;
    while i < after.len() {
        word[length + i] = after[i];
        i += 1;
    }
    word[N - 1] = (length + i) as u8;
    word
}

/// The words of numbers from `first` on.
const fn words<const N: usize, const COUNT: usize>(
    before: &[u8],
    first: i32,
    after: &[u8],
) -> [[u8; N]; COUNT] {
    let (mut words, mut i) = ([[0; N]; COUNT], 0);
    while i < COUNT {
        words[i] = word(before, first + i as i32, after);
        i += 1;
    }
    words
}

/// How the line of a coefficient begins, of each material.
static COLUMNS: [[u8; 8]; 32] = words(b" X", 0, b" L");

/// The number of a material or of a limit, within a line.
static PLACES: [[u8; 4]; 32] = words(b"", 0, b" ");

/// A number from −1,000 to 1,000 at the end of a line.
static ENDS: [[u8; 8]; 2_001] = words(b"", -1_000, b"\n");

impl Text<'_> {
    /// A word's surplus is at most 6 bytes. What comes after it is longer: at least the line ENDATA.
    fn put_word<const N: usize>(&mut self, word: &[u8; N]) {
        self.bytes[self.length..][..N].copy_from_slice(word);
        self.length += usize::from(word[N - 1]);
    }

    fn put_end(&mut self, number: i16) {
        self.put_word(&ENDS[(number + 1_000) as usize]);
    }
}

fn put_lines(f: &Figures, text: &mut Text) {
    let (n, m) = (f.n.min(32), f.m.min(16));
    let [cost, least, most, a @ ..] = &f.rows;
    text.put(b"NAME SHEET\nROWS\n N COST\n");
    for i in 0..m {
        text.put(b" L L");
        text.put_end(i as i16);
    }
    text.put(b"COLUMNS\n");
    for j in 0..n {
        text.put(b" X");
        text.put_word(&PLACES[j]);
        text.put(b"COST ");
        text.put_number(cost[j].into());
        text.put(b"\n");
        for i in 0..m {
            if a[i][j] != 0 {
                text.put_word(&COLUMNS[j]);
                text.put_word(&PLACES[i]);
                text.put_end(a[i][j]);
            }
        }
    }
    text.put(b"RHS\n");
    for i in 0..m {
        if f.b[i] != 0 {
            text.put(b" RHS L");
            text.put_word(&PLACES[i]);
            text.put_number(f.b[i].into());
            text.put(b"\n");
        }
    }
    text.put(b"BOUNDS\n");
    for j in 0..n {
        text.put(b" LO BND X");
        text.put_word(&PLACES[j]);
        text.put_end(least[j]);
        text.put(b" UP BND X");
        text.put_word(&PLACES[j]);
        text.put_end(most[j]);
    }
    text.put(b"ENDATA\n");
}

/// The writer with tables. It leaves it to the plain reader to say why a sheet is refused.
fn tabled(sheet: &[u8], text: &mut [u8]) -> Result<usize, Refusal> {
    let mut f = Figures { n: 0, m: 0, rows: [[0; 32]; 19], b: [0; 16] };
    if !f.read(sheet) {
        return Err(read_figures(sheet).err().expect("both readers refuse the sheet"));
    }
    let write = |bytes: &mut [u8]| {
        let mut text = Text { bytes, length: 0 };
        put_lines(&f, &mut text);
        text.length
    };
    if text.len() >= MPS_BYTES {
        return Ok(write(text));
    }
    let mut whole = [0; MPS_BYTES];
    let length = write(&mut whole);
    copy(&whole[..length], text)
}

/// What a writer answers, and the text afterwards.
fn outcome(writer: Writer, sheet: &[u8], room: usize) -> (Result<usize, Refusal>, Vec<u8>) {
    let mut text = vec![0xa5; room];
    (writer(sheet, &mut text), text)
}

/// The answer in a text that takes every one. Ends the run where two writers differ on the sheet: in such a text, one
/// that just takes this, one that is a byte shorter, or one of another length.
fn agreed(name: &str, sheet: &[u8], other: usize) -> Result<usize, Refusal> {
    let answer = write_mps(sheet, &mut [0; MPS_BYTES]);
    let length = answer.unwrap_or(0);
    for room in [MPS_BYTES, length, length.saturating_sub(1), other] {
        let first = outcome(WRITERS[0], sheet, room);
        let same = WRITERS.iter().all(|&writer| outcome(writer, sheet, room) == first);
        assert!(same, "{name}: the writers differ on a text of {room} bytes");
    }
    answer
}

/// The length of a sheet's text. The writers agree on it, and on sheets that differ from it in a byte.
fn check((name, sheet): &Case) -> usize {
    let mut generator = Generator(6);
    for _ in 0..300 {
        let mut bytes = sheet.clone();
        generator.damage(&mut bytes);
        let _ = agreed(name, &bytes, generator.between(0, 10_000) as usize);
    }
    agreed(name, sheet, 0).unwrap_or_else(|refusal| panic!("{name}: {refusal}"))
}

fn time(writer: Writer, sheet: &[u8], calls: usize) -> f64 {
    let mut text = [0; MPS_BYTES];
    nanoseconds(calls, || {
        let _ = black_box(writer(black_box(sheet), black_box(&mut text)));
    })
}

fn mps_line((name, sheet): &Case) {
    let calls = (TURN / time(write_mps, sheet, 3)).clamp(1.0, 1_000.0) as usize;
    let round = |_| vec![WRITERS.map(|writer| time(writer, sheet, calls))];
    let rounds: Vec<Round> = (0..ROUNDS).map(round).collect();
    line(name, &rounds, |round| round[0]);
}

/// C1, the glass of examples/ and the sheet with the longest text are timed. The writers agree on all sheets.
pub fn compare(sheets: &[Sheet]) {
    let case = |sheet: &Sheet| (sheet.name, sheet.bytes());
    let glass = include_bytes!("../../examples/glass.sheet").to_vec();
    let timed = [case(&sheets[1]), ("glass (n 6, m 6)", glass), case(&longest_text())];
    for each in sheets {
        check(&case(each));
    }
    let [c1, glass, longest] = timed.each_ref().map(check);
    assert_eq!(longest, MPS_BYTES, "the longest text is as long as a text can be");
    headline_beside("a sheet as free MPS", ["write!", "tables"]);
    timed.iter().for_each(mps_line);
    println!("Medians of {ROUNDS} rounds, reading and all. The texts have {c1}, {glass} and {longest} bytes.");
}
