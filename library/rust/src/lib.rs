//! Plans batch sheets, writes them, and writes them as free MPS for other solvers.
//!
//! A sheet has n materials with costs and bounds, m limits with their starting multipliers, a step length p/D and a
//! step count k. Planning it takes k steps of a dual subgradient method in whole numbers, and gives the sums of the
//! amounts, a lower bound on cost (`low`), a gap, and for each limit the closing multiplier and the overshoot. At
//! the closing multipliers no further step is taken, but low counts their dual value too. docs/TASK.md of the project
//! states the layout of a sheet and every rule.
//!
//! The work is done by a library in Rattle that is proved to answer, for every sheet and every buffer, what these rules
//! give. This crate declares its functions and makes them safe to call: every function here takes any bytes and any
//! figures, and none panics, where the archive is of this version. The library is for x86-64 Linux.
//!
//! A [`Table`] is written to a sheet, and the sheet is planned:
//!
//! ```
//! use batchplan::{listing, LimitRow, Material, Plan, Refusal, Steps, Table};
//!
//! // two materials, from 0 to 10 of each; twice the one and once the other make at least 12
//! let steps = Steps { p: 1, d: 8, k: 4 };
//! let materials =
//!     vec![Material { cost: 3, least: 0, most: 10 }, Material { cost: 1, least: 0, most: 10 }];
//! let limits = vec![LimitRow { coefficients: vec![-2, -1], rhs: -12, start: 0 }];
//! let sheet = Table::new(steps, materials, limits)?.write()?;
//!
//! let plan = Plan::of_sheet(&sheet)?;
//! assert_eq!((plan.low, plan.gap, &plan.sums[..]), (104, -16, &[10, 20][..]));
//! let text = "steps 4\nmat 0 10\nmat 1 20\nlim 0 12 8\nlow 104\ngap -16\n";
//! assert_eq!(listing(&sheet), text);
//! # Ok::<(), Refusal>(())
//! ```
//!
//! [`write_sheet`] does the same for plain slices, such as the rows of a spreadsheet. [`mps`] gives a sheet as free
//! MPS, a form in which other solvers take it.
//!
//! To go on next week where a plan ends, give each limit of the new sheet the closing multiplier of the old plan,
//! [`Limit::multiplier`], as its start, [`LimitRow::start`]. Both are times D, so that the new sheet keeps D, and the
//! units of costs and limits too. In the bytes of a sheet the start of limit i has the key 64 (3 + i) + n + 1, and no
//! entry where it is 0.
#![warn(missing_docs)]

mod table;

use std::error::Error;
use std::fmt;

pub use table::{write_sheet, Arrays, LimitRow, Material, Sizes, Steps, Table};

/// The version of the rules that this crate is for, and the first number of the crate's own. Where [`version`] gives
/// another number, the archive that was linked is not the one that this crate was written for.
///
/// Version 2 has the starts, and longer sheets with them. A sheet that version 1 reads has no starts, and its answer
/// and its record are in version 2 what they were.
///
/// Version 3 counts the dual value at the closing multipliers in low. For the same sheet low may be higher than in
/// version 2, and gap is then lower, by k times as much; neither is ever worse. A sheet that version 2 plans may be
/// refused, with [`Cause::Infeasible`] at the place k. Sums, multipliers and overshoots of a plan are what they were,
/// and a sheet that version 2 refuses has the same refusal.
pub const VERSION: usize = 3;

/// The length of the longest sheet. A longer one is refused; and a buffer of this length takes every sheet that is
/// written, so that no table is refused with 8.
pub const SHEET_BYTES: usize = 3852;

/// The length of the longest record. A buffer of this length takes every record, so that no sheet is refused with 8.
pub const RECORD_BYTES: usize = 342;

/// A text buffer of this length takes every listing.
pub const LISTING_BYTES: usize = 4096;

/// The length of the longest MPS text. A text buffer of this length takes every MPS text, so that no sheet is refused
/// with 11.
pub const MPS_BYTES: usize = 9248;

// Declared as in library/include/batchplan.h.
extern "C" {
    fn batchplan_plan(
        sheet: *const u8,
        sheet_bytes: usize,
        record: *mut u8,
        record_bytes: usize,
        place: *mut usize,
        low: *mut i64,
        gap: *mut i64,
    ) -> usize;

    fn batchplan_listing(
        sheet: *const u8,
        sheet_bytes: usize,
        text: *mut u8,
        text_bytes: usize,
    ) -> usize;

    fn batchplan_write_sheet(
        n: usize,
        m: usize,
        p: usize,
        d: usize,
        k: usize,
        cost: *const i32,
        costs: usize,
        least: *const i32,
        leasts: usize,
        most: *const i32,
        mosts: usize,
        a: *const i32,
        r#as: usize,
        b: *const i32,
        bs: usize,
        start: *const i32,
        starts: usize,
        sheet: *mut u8,
        sheet_bytes: usize,
        length_or_place: *mut usize,
    ) -> usize;

    fn batchplan_mps(
        sheet: *const u8,
        sheet_bytes: usize,
        text: *mut u8,
        text_bytes: usize,
        length_or_place: *mut usize,
    ) -> usize;

    fn batchplan_version() -> usize;
}

/// The version of the rules that the linked library follows. It goes up by one when an answer, a length or the layout
/// of a record changes.
pub fn version() -> usize {
    // SAFETY: the function takes nothing and touches no memory.
    unsafe { batchplan_version() }
}

/// Why a sheet is refused, or figures that are to be written to one: the refusals of docs/TASK.md, T7.4, T13.4 and
/// T14.5, with their numbers.
#[non_exhaustive]
#[derive(Clone, Copy, Debug, PartialEq, Eq, Hash)]
pub enum Cause {
    /// The sheet has under 12 bytes.
    Short = 1,
    /// n, m or the count of entries is outside its range, or an array's length is not what n and m ask for.
    Dimensions = 2,
    /// The sheet's length is not what its count of entries asks for.
    Length = 3,
    /// p, D or k is outside its range.
    Parameters = 4,
    /// An entry's key names no figure, or is not above the one before. The place is the entry.
    Key = 5,
    /// An entry's value is 0 or outside its range. The place is the entry. Of arrays: a figure is outside its range and
    /// not 0, and the place is 0.
    Value = 6,
    /// A material's least amount is above its most amount. The place is the material.
    Bounds = 7,
    /// The buffer is too short. The place is the length that the record has, or the sheet.
    Buffer = 8,
    /// No recipe keeps all bounds and limits ("no blend"). The place is the step that shows it, or k where the
    /// closing multipliers do, after the last step.
    Infeasible = 9,
    /// A multiplier grew above 1,073,741,824. The place is the step.
    Diverged = 10,
    /// The buffer is too short for the MPS text. The place is the length that the text has.
    Text = 11,
}

impl Cause {
    const ALL: [Cause; 11] = [
        Cause::Short,
        Cause::Dimensions,
        Cause::Length,
        Cause::Parameters,
        Cause::Key,
        Cause::Value,
        Cause::Bounds,
        Cause::Buffer,
        Cause::Infeasible,
        Cause::Diverged,
        Cause::Text,
    ];

    /// The number of the refusal, 1 to 11.
    pub fn number(self) -> u8 {
        self as u8
    }

    fn of_number(number: usize) -> Cause {
        // The library is proved to answer 0 to 11, and 0 is no refusal.
        Cause::ALL[number - 1]
    }
}

impl fmt::Display for Cause {
    fn fmt(&self, f: &mut fmt::Formatter) -> fmt::Result {
        f.write_str(match self {
            Cause::Short => "the sheet has under 12 bytes",
            Cause::Dimensions => {
                "n, m or the count of entries is outside its range, or an array's length is wrong"
            }
            Cause::Length => "the sheet's length does not fit its count of entries",
            Cause::Parameters => "p, D or k is outside its range",
            Cause::Key => "an entry's key names no figure or is out of order",
            Cause::Value => "a figure is outside its range, or the value of an entry is 0",
            Cause::Bounds => "a material's least amount is above its most",
            Cause::Buffer => "the buffer is too short",
            Cause::Infeasible => "no recipe keeps all bounds and limits",
            Cause::Diverged => "a multiplier ran away",
            Cause::Text => "the buffer is too short for the MPS text",
        })
    }
}

/// A refusal: its cause and its place, which is 0 where the cause says nothing of it.
#[derive(Clone, Copy, Debug, PartialEq, Eq, Hash)]
pub struct Refusal {
    /// Why.
    pub cause: Cause,
    /// Where.
    pub place: usize,
}

impl fmt::Display for Refusal {
    fn fmt(&self, f: &mut fmt::Formatter) -> fmt::Result {
        write!(f, "refused {} at {}: {}", self.cause.number(), self.place, self.cause)
    }
}

impl Error for Refusal {}

/// The answer to a sheet.
#[derive(Clone, Copy, Debug, PartialEq, Eq, Hash)]
pub enum Answer {
    /// A plan. Its record stands at the start of the buffer, and the bytes after it are as they were.
    Plan {
        /// D times a lower bound on the cost of every feasible recipe: the best that the bounds, the steps and the
        /// closing multipliers give.
        low: i64,
        /// k times D times a bound on what the averaged recipe costs more than any feasible one. It may be negative.
        gap: i64,
    },
    /// A refusal. Every byte of the buffer is as it was.
    Refused(Refusal),
}

/// Plans a sheet into a record buffer. Both may have any length and hold any bytes.
///
/// A record is n, m and k in 2 bytes each, low and gap in 8, n sums and m closing multipliers in 4, m overshoots in 8,
/// the lowest byte first: 22 + 4n + 12m bytes. [`Plan::of_record`] reads it.
pub fn plan(sheet: &[u8], record: &mut [u8]) -> Answer {
    let (mut place, mut low, mut gap) = (0, 0, 0);
    // SAFETY: each pointer and length is that of a Rust slice, and each of the other three pointers that of a local
    // variable of its type. So all can be read, and those that the function writes can be written; and no two overlap,
    // because `record` is borrowed mutably.
    let number = unsafe {
        batchplan_plan(
            sheet.as_ptr(),
            sheet.len(),
            record.as_mut_ptr(),
            record.len(),
            &mut place,
            &mut low,
            &mut gap,
        )
    };
    match number {
        0 => Answer::Plan { low, gap },
        _ => Answer::Refused(Refusal { cause: Cause::of_number(number), place }),
    }
}

/// Writes the listing of a sheet to the start of a text buffer, and gives its length. The bytes after it are as they
/// were. Where the listing is longer than the buffer, the length is 0 and every byte is as it was; no listing is empty.
pub fn write_listing(sheet: &[u8], text: &mut [u8]) -> usize {
    // SAFETY: each pointer and length is that of a Rust slice. `text` can be written, and does not overlap `sheet`,
    // because it is borrowed mutably.
    unsafe { batchplan_listing(sheet.as_ptr(), sheet.len(), text.as_mut_ptr(), text.len()) }
}

/// The listing of a sheet, as the program batchplan prints it: the lines of the plan, or the one of a refusal, which is
/// `refused` with number and place. [`write_listing`] does the same in a buffer that is lent.
pub fn listing(sheet: &[u8]) -> String {
    let mut text = vec![0; LISTING_BYTES];
    let length = write_listing(sheet, &mut text);
    text.truncate(length);
    String::from_utf8(text).expect("a listing is ASCII")
}

/// Writes a sheet as free MPS to the start of a text buffer, and gives the length of the text. The bytes after it are
/// as they were. [`mps`] says what the text is.
///
/// A sheet that is not read is refused as [`plan`] refuses it, with one of 1 to 7. Then comes [`Cause::Text`], with the
/// length that the text has. A refusal leaves every byte of the buffer as it was.
pub fn write_mps(sheet: &[u8], text: &mut [u8]) -> Result<usize, Refusal> {
    let mut length_or_place = 0;
    // SAFETY: each pointer and length is that of a Rust slice, and the last pointer that of a local variable of its
    // type. So all can be read, and the two that the function writes can be written; and no two overlap, because `text`
    // is borrowed mutably.
    let number = unsafe {
        batchplan_mps(
            sheet.as_ptr(),
            sheet.len(),
            text.as_mut_ptr(),
            text.len(),
            &mut length_or_place,
        )
    };
    match number {
        0 => Ok(length_or_place),
        _ => Err(Refusal { cause: Cause::of_number(number), place: length_or_place }),
    }
}

/// A sheet as free MPS, a form in which solvers of linear programs take their problems: the costs, bounds and limits as
/// they stand in the sheet, with the amounts named X0, X1 and so on and the limits L0, L1 and so on. The step length,
/// the step count and the starts are not carried, and no step is taken.
///
/// GLPK reads the text with `glpsol --freemps`. CBC wants the word FREE after the name in the first line, which the
/// text does not have: change `NAME SHEET` to `NAME SHEET FREE`, or CBC may find errors in the bounds.
///
/// A sheet that is not read is refused, with one of 1 to 7. There is no refusal 11, because the buffer takes every
/// text. [`write_mps`] does the same in a buffer that is lent.
///
/// ```
/// use batchplan::{mps, write_mps, Cause, LimitRow, Material, Refusal, Steps, Table};
///
/// let materials = vec![Material { cost: 3, least: 0, most: 10 }];
/// let limits = vec![LimitRow { coefficients: vec![-2], rhs: -12, start: 0 }];
/// let sheet = Table::new(Steps { p: 1, d: 8, k: 4 }, materials, limits)?.write()?;
/// let text = "NAME SHEET\nROWS\n N COST\n L L0\nCOLUMNS\n X0 COST 3\n X0 L0 -2\nRHS\n RHS L0 -12\n\
///             BOUNDS\n LO BND X0 0\n UP BND X0 10\nENDATA\n";
/// assert_eq!(mps(&sheet)?, text);
///
/// let too_short = Refusal { cause: Cause::Text, place: text.len() };
/// assert_eq!(write_mps(&sheet, &mut [0; 99]), Err(too_short));
/// # Ok::<(), Refusal>(())
/// ```
pub fn mps(sheet: &[u8]) -> Result<String, Refusal> {
    let mut text = vec![0; MPS_BYTES];
    let length = write_mps(sheet, &mut text)?;
    text.truncate(length);
    Ok(String::from_utf8(text).expect("an MPS text is ASCII"))
}

/// What a plan says of one limit.
#[derive(Clone, Copy, Debug, PartialEq, Eq, Hash)]
pub struct Limit {
    /// The closing multiplier, times D. It is the start of this limit in a sheet that goes on from here.
    pub multiplier: i32,
    /// The total of the residuals of all steps. The average oversteps the limit by this over the number of steps.
    pub overshoot: i64,
}

/// A plan, as its record holds it.
#[derive(Clone, Debug, PartialEq, Eq, Hash)]
pub struct Plan {
    /// k.
    pub steps: u16,
    /// D times a lower bound on the cost of every feasible recipe: the best that the bounds, the steps and the closing
    /// multipliers give. The scale D stands in the sheet, at bytes 8 and 9, and not in the record.
    pub low: i64,
    /// k times D times a bound on what the averaged recipe costs more than any feasible one. It may be negative.
    pub gap: i64,
    /// For each material the total of its amounts.
    pub sums: Vec<i32>,
    /// For each limit its closing multiplier and its overshoot.
    pub limits: Vec<Limit>,
}

impl Plan {
    /// Plans a sheet. There is no refusal 8, because the buffer takes every record.
    pub fn of_sheet(sheet: &[u8]) -> Result<Plan, Refusal> {
        let mut record = [0; RECORD_BYTES];
        match plan(sheet, &mut record) {
            Answer::Plan { .. } => Ok(Plan::of_record(&record).expect("a plan leaves its record")),
            Answer::Refused(refusal) => Err(refusal),
        }
    }

    /// The plan that stands at the start of a record buffer; `None` where the bytes are too few for the sizes that they
    /// begin with.
    pub fn of_record(record: &[u8]) -> Option<Plan> {
        let (sizes, rest) = record.split_at_checked(6)?;
        let [n, m, steps] = [0, 2, 4].map(|at| u16::from_le_bytes([sizes[at], sizes[at + 1]]));
        let (n, m) = (usize::from(n), usize::from(m));
        let (figures, rest) = rest.split_at_checked(16)?;
        let (sums, rest) = rest.split_at_checked(4 * n)?;
        let (multipliers, rest) = rest.split_at_checked(4 * m)?;
        let (overshoots, _) = rest.split_at_checked(8 * m)?;
        let limits = numbers_32(multipliers).zip(numbers_64(overshoots));
        Some(Plan {
            steps,
            low: numbers_64(figures).next()?,
            gap: numbers_64(figures).nth(1)?,
            sums: numbers_32(sums).collect(),
            limits: limits.map(|(multiplier, overshoot)| Limit { multiplier, overshoot }).collect(),
        })
    }

    /// The averaged amount of each material: its sum over the number of steps.
    pub fn amounts(&self) -> impl Iterator<Item = f64> + '_ {
        self.sums.iter().map(|&sum| f64::from(sum) / f64::from(self.steps))
    }
}

/// Signed numbers of 4 bytes, little-endian.
fn numbers_32(bytes: &[u8]) -> impl Iterator<Item = i32> + '_ {
    bytes.chunks_exact(4).map(|each| i32::from_le_bytes(each.try_into().expect("4 bytes")))
}

/// Signed numbers of 8 bytes, little-endian.
fn numbers_64(bytes: &[u8]) -> impl Iterator<Item = i64> + '_ {
    bytes.chunks_exact(8).map(|each| i64::from_le_bytes(each.try_into().expect("8 bytes")))
}
