//! Listing a sheet's answer: the proved text beside two plain ones, from docs/TASK.md, T6, T8 and T10.4. One has Rust's
//! own formatting, as one writes it without further thought; the other, the fastest that was found, puts its digits
//! straight into the buffer, two at a time from a table of pairs, as the crate itoa does.
//!
//! The library has no listing of a plan that is there already: `batchplan_listing` plans the sheet first. So the plain
//! ones plan it too, by the proved planner, and the time of planning, taken in the same round, is subtracted from all.
use crate::sheets::{Generator, Sheet};
use crate::{headline_beside, less, line, nanoseconds, Round};
use batchplan::{plan, write_listing, Answer, Refusal, LISTING_BYTES, RECORD_BYTES};
use std::hint::black_box;
use std::io::{self, Write};

/// Many short rounds: what slows the machine for a while slows planning and all listers of a round alike, and their
/// differences stand in the same ratio.
const ROUNDS: usize = 2_001;

/// How long a lister's turn in a round is, in nanoseconds.
const TURN: f64 = 5e4;

/// Gives the listing's length, or 0 where the text is too short for it.
type Lister = fn(&[u8], &mut [u8]) -> usize;

/// The proved lister first, then the two that it is compared with.
const LISTERS: [Lister; 3] = [write_listing, formatted, paired];

/// What a listing says of a plan, found in its record (T6.1).
struct Figures<'a> {
    k: u16,
    low: i64,
    gap: i64,
    sums: &'a [u8],
    multipliers: &'a [u8],
    overshoots: &'a [u8],
}

fn number_32(four: &[u8]) -> i32 {
    i32::from_le_bytes(four.try_into().expect("4 bytes"))
}

fn number_64(eight: &[u8]) -> i64 {
    i64::from_le_bytes(eight.try_into().expect("8 bytes"))
}

impl Figures<'_> {
    fn of_record(record: &[u8; RECORD_BYTES]) -> Figures<'_> {
        let [n, m, k] = [0, 2, 4].map(|at| u16::from_le_bytes([record[at], record[at + 1]]));
        let (n, m) = (usize::from(n), usize::from(m));
        let (sums, rest) = record[22..].split_at(4 * n);
        let (multipliers, rest) = rest.split_at(4 * m);
        let (low, gap) = (number_64(&record[6..14]), number_64(&record[14..22]));
        Figures { k, low, gap, sums, multipliers, overshoots: &rest[..8 * m] }
    }

    fn sums(&self) -> impl Iterator<Item = i32> + '_ {
        self.sums.chunks_exact(4).map(number_32)
    }

    /// Of each limit the closing multiplier and the overshoot.
    fn limits(&self) -> impl Iterator<Item = (i32, i64)> + '_ {
        let multipliers = self.multipliers.chunks_exact(4).map(number_32);
        multipliers.zip(self.overshoots.chunks_exact(8).map(number_64))
    }
}

/// What is listed: a plan's figures, or the refusal.
type Planned<'a> = Result<Figures<'a>, Refusal>;

/// Plans a sheet and lists the answer. `write` is handed bytes that take every listing. Where the text has fewer these
/// are other bytes, and the listing is copied if it fits.
fn list(sheet: &[u8], text: &mut [u8], write: impl Fn(Planned, &mut [u8]) -> usize) -> usize {
    let mut record = [0; RECORD_BYTES];
    let planned = match plan(sheet, &mut record) {
        Answer::Plan { .. } => Ok(Figures::of_record(&record)),
        Answer::Refused(refusal) => Err(refusal),
    };
    if text.len() >= LISTING_BYTES {
        return write(planned, text);
    }
    let mut whole = [0; LISTING_BYTES];
    let length = write(planned, &mut whole);
    if length > text.len() {
        return 0;
    }
    text[..length].copy_from_slice(&whole[..length]);
    length
}

fn write_lines(planned: Planned, text: &mut &mut [u8]) -> io::Result<()> {
    let figures = match planned {
        Ok(figures) => figures,
        Err(Refusal { cause, place }) => {
            return writeln!(text, "refused {} {place}", cause.number());
        }
    };
    writeln!(text, "steps {}", figures.k)?;
    for (j, sum) in figures.sums().enumerate() {
        writeln!(text, "mat {j} {sum}")?;
    }
    for (i, (multiplier, overshoot)) in figures.limits().enumerate() {
        writeln!(text, "lim {i} {multiplier} {overshoot}")?;
    }
    writeln!(text, "low {}", figures.low)?;
    writeln!(text, "gap {}", figures.gap)
}

/// The lister with Rust's own formatting.
fn formatted(sheet: &[u8], text: &mut [u8]) -> usize {
    list(sheet, text, |planned, text| {
        let (room, mut rest) = (text.len(), text);
        write_lines(planned, &mut rest).expect("every listing fits");
        room - rest.len()
    })
}

/// The two digits of each number from 0 to 99.
const PAIRS: [[u8; 2]; 100] = {
    let mut pairs = [[0; 2]; 100];
    let mut i = 0;
    while i < 100 {
        pairs[i] = [b'0' + i as u8 / 10, b'0' + i as u8 % 10];
        i += 1;
    }
    pairs
};

/// A text as far as it is written.
pub struct Text<'a> {
    pub bytes: &'a mut [u8],
    pub length: usize,
}

impl Text<'_> {
    pub fn put<const N: usize>(&mut self, word: &[u8; N]) {
        self.bytes[self.length..][..N].copy_from_slice(word);
        self.length += N;
    }

    /// The digits of a number, from the last to the first.
    fn put_digits(&mut self, mut rest: u64) {
        let digits = rest.checked_ilog10().map_or(1, |log| log as usize + 1);
        let mut pairs = self.bytes[self.length..][..digits].rchunks_exact_mut(2);
        for pair in &mut pairs {
            pair.copy_from_slice(&PAIRS[(rest % 100) as usize]);
            rest /= 100;
        }
        if let [first] = pairs.into_remainder() {
            *first = b'0' + rest as u8;
        }
        self.length += digits;
    }

    pub fn put_number(&mut self, value: i64) {
        if value < 0 {
            self.put(b"-");
        }
        self.put_digits(value.unsigned_abs());
    }
}

fn put_lines(planned: Planned, text: &mut Text) {
    let figures = match planned {
        Ok(figures) => figures,
        Err(Refusal { cause, place }) => {
            text.put(b"refused ");
            text.put_digits(cause.number().into());
            text.put(b" ");
            text.put_digits(place as u64);
            return text.put(b"\n");
        }
    };
    text.put(b"steps ");
    text.put_digits(figures.k.into());
    for (j, sum) in figures.sums().enumerate() {
        text.put(b"\nmat ");
        text.put_digits(j as u64);
        text.put(b" ");
        text.put_number(sum.into());
    }
    for (i, (multiplier, overshoot)) in figures.limits().enumerate() {
        text.put(b"\nlim ");
        text.put_digits(i as u64);
        text.put(b" ");
        text.put_number(multiplier.into());
        text.put(b" ");
        text.put_number(overshoot);
    }
    text.put(b"\nlow ");
    text.put_number(figures.low);
    text.put(b"\ngap ");
    text.put_number(figures.gap);
    text.put(b"\n");
}

/// The lister with pairs of digits.
fn paired(sheet: &[u8], text: &mut [u8]) -> usize {
    list(sheet, text, |planned, bytes| {
        let mut text = Text { bytes, length: 0 };
        put_lines(planned, &mut text);
        text.length
    })
}

/// What a lister answers, and the text afterwards.
fn outcome(lister: Lister, sheet: &[u8], room: usize) -> (usize, Vec<u8>) {
    let mut text = vec![0xa5; room];
    (lister(sheet, &mut text), text)
}

/// The listing's length. Ends the run where two listers differ on the sheet: in a text that takes every listing, one
/// that just takes this, one that is a byte shorter, or one of another length.
fn agreed(name: &str, sheet: &[u8], other: usize) -> usize {
    let length = write_listing(sheet, &mut [0; LISTING_BYTES]);
    for room in [LISTING_BYTES, length, length.saturating_sub(1), other] {
        let first = outcome(LISTERS[0], sheet, room);
        let same = LISTERS.iter().all(|&lister| outcome(lister, sheet, room) == first);
        assert!(same, "{name}: the listers differ on a text of {room} bytes");
    }
    length
}

/// The listers agree on a sheet, which gives a plan, and on sheets of 1 and of 40 steps that differ from it in a byte.
fn check(sheet: &Sheet) {
    let answer = plan(&sheet.bytes(), &mut [0; RECORD_BYTES]);
    assert!(matches!(answer, Answer::Plan { .. }), "{}: {answer:?}", sheet.name);
    agreed(sheet.name, &sheet.bytes(), 0);
    let mut generator = Generator(5);
    for _ in 0..300 {
        let bytes = sheet.damaged(&mut generator);
        agreed(sheet.name, &bytes, generator.between(0, 1_000) as usize);
    }
}

/// What every lister begins with, as a lister of nothing.
fn planning(sheet: &[u8], text: &mut [u8]) -> usize {
    list(sheet, text, |_, _| 0)
}

fn time(lister: Lister, sheet: &[u8], calls: usize) -> f64 {
    let mut text = [0; LISTING_BYTES];
    nanoseconds(calls, || {
        black_box(lister(black_box(sheet), black_box(&mut text)));
    })
}

/// In each round planning is timed, and every lister.
fn list_line(sheet: &Sheet) {
    let bytes = sheet.bytes();
    let calls = (TURN / time(formatted, &bytes, 3)).clamp(1.0, 1_000.0) as usize;
    let round = |_| {
        vec![[time(planning, &bytes, calls); 3], LISTERS.map(|lister| time(lister, &bytes, calls))]
    };
    let rounds: Vec<Round> = (0..ROUNDS).map(round).collect();
    line(sheet.name, &rounds, |round| less(round[1], round[0]));
}

/// Planning the middle and the largest sheet takes so much longer than listing their answers that this drowns in the
/// difference. So sheets of few steps stand in for them. The time of a listing goes by its length, and theirs are about
/// as long.
pub fn compare(sheets: &[Sheet]) {
    let [c7, c1, middle, largest] = sheets else { panic!("there are four sheets") };
    let stand_ins = [
        middle.in_16_steps("middle in 16 steps", 1),
        largest.in_16_steps("largest in 16 steps", 100),
    ];
    sheets.iter().chain(&stand_ins).for_each(check);
    headline_beside("listing its answer", ["write!", "pairs"]);
    [c7, c1].into_iter().chain(&stand_ins).for_each(list_line);
    println!("Medians of {ROUNDS} rounds; planning the sheet, in the same round, is subtracted.");
    for (sheet, other) in [middle, largest].into_iter().zip(&stand_ins) {
        let [length, others] = [sheet, other].map(|each| agreed(each.name, &each.bytes(), 0));
        println!("{} is listed in {length} bytes, {} in {others}.", sheet.name, other.name);
    }
}
