//! Sheets that are written: from slices, whose lengths may be wrong, and from tables, whose lengths are right.
use crate::{batchplan_write_sheet, Cause, Refusal, SHEET_BYTES};

/// The sizes of a sheet, without the count of its entries.
#[derive(Clone, Copy, Debug, PartialEq, Eq, Hash)]
pub struct Sizes {
    /// How many materials there are, 1 to 32.
    pub n: usize,
    /// How many limits there are, 0 to 16.
    pub m: usize,
    /// The numerator of the step length p/D, 1 to 1,024.
    pub p: usize,
    /// The scale D, 1 to 1,024.
    pub d: usize,
    /// How many steps are taken, 1 to 4,096.
    pub k: usize,
}

/// The figures of a sheet in plain slices, which may have wrong lengths. A figure of 0 is absent from the sheet.
#[derive(Clone, Copy, Debug, Default, PartialEq, Eq, Hash)]
pub struct Arrays<'a> {
    /// For each of the n materials its cost, -10,000 to 10,000.
    pub cost: &'a [i32],
    /// For each of the n materials its least amount, 0 to 1,000.
    pub least: &'a [i32],
    /// For each of the n materials its most amount, 0 to 1,000.
    pub most: &'a [i32],
    /// The n coefficients of the first limit, then those of the next, and so on: n times m, each -1,000 to 1,000.
    pub a: &'a [i32],
    /// For each of the m limits its right-hand side, -32,000,000 to 32,000,000.
    pub b: &'a [i32],
    /// For each of the m limits its start, times D, 0 to 1,073,741,824.
    pub start: &'a [i32],
}

/// Writes the sheet of sizes and figures to the start of a buffer, and gives its length: 12, and 6 for each figure that
/// is not 0. The bytes of the buffer after the sheet are as they were. A sheet that is written is read as these sizes
/// and figures, without any of refusals 1 to 7.
///
/// These refusals are looked for, in this order, and each leaves every byte of the buffer as it was:
/// [`Cause::Dimensions`], n or m is outside its range, or a slice has another length than [`Arrays`] states;
/// [`Cause::Parameters`]; [`Cause::Value`], with the place 0; [`Cause::Bounds`], with the first such material; and
/// [`Cause::Buffer`], with the length that the sheet has.
///
/// ```
/// use batchplan::{write_sheet, Arrays, Cause, Refusal, Sizes};
///
/// let sizes = Sizes { n: 2, m: 0, p: 1, d: 1, k: 1 };
/// let arrays = Arrays { cost: &[5, 7], least: &[4, 0], most: &[4, 9], ..Arrays::default() };
/// let mut sheet = [0; 50];
/// assert_eq!(write_sheet(sizes, &arrays, &mut sheet), Ok(42));
/// assert_eq!(batchplan::listing(&sheet[..42]), "steps 1\nmat 0 4\nmat 1 0\nlow 20\ngap 0\n");
///
/// let one_short = Arrays { least: &[4], ..arrays };
/// let refusal = Refusal { cause: Cause::Dimensions, place: 0 };
/// assert_eq!(write_sheet(sizes, &one_short, &mut sheet), Err(refusal));
/// ```
pub fn write_sheet(sizes: Sizes, arrays: &Arrays, sheet: &mut [u8]) -> Result<usize, Refusal> {
    let Sizes { n, m, p, d, k } = sizes;
    let Arrays { cost, least, most, a, b, start } = *arrays;
    let mut length_or_place = 0;
    // SAFETY: each pointer and length is that of a Rust slice, and the last pointer that of a local variable of its
    // type. So all can be read, and the two that the function writes can be written. These two overlap nothing else,
    // because `sheet` is borrowed mutably; the six arrays may overlap, because they are only read.
    let number = unsafe {
        batchplan_write_sheet(
            n,
            m,
            p,
            d,
            k,
            cost.as_ptr(),
            cost.len(),
            least.as_ptr(),
            least.len(),
            most.as_ptr(),
            most.len(),
            a.as_ptr(),
            a.len(),
            b.as_ptr(),
            b.len(),
            start.as_ptr(),
            start.len(),
            sheet.as_mut_ptr(),
            sheet.len(),
            &mut length_or_place,
        )
    };
    match number {
        0 => Ok(length_or_place),
        _ => Err(Refusal { cause: Cause::of_number(number), place: length_or_place }),
    }
}

/// The step length p/D and the number of steps of a [`Table`].
#[derive(Clone, Copy, Debug, PartialEq, Eq, Hash)]
pub struct Steps {
    /// The numerator of the step length p/D, 1 to 1,024.
    pub p: usize,
    /// The scale D, 1 to 1,024.
    pub d: usize,
    /// How many steps are taken, 1 to 4,096.
    pub k: usize,
}

/// A material of a [`Table`].
#[derive(Clone, Copy, Debug, Default, PartialEq, Eq, Hash)]
pub struct Material {
    /// What one of it costs, -10,000 to 10,000.
    pub cost: i32,
    /// Its least amount, 0 to 1,000.
    pub least: i32,
    /// Its most amount, from the least one to 1,000.
    pub most: i32,
}

/// A limit of a [`Table`]: the sum of the coefficients times the amounts is at most the right-hand side.
#[derive(Clone, Debug, Default, PartialEq, Eq, Hash)]
pub struct LimitRow {
    /// For each material its coefficient, -1,000 to 1,000.
    pub coefficients: Vec<i32>,
    /// The right-hand side, -32,000,000 to 32,000,000.
    pub rhs: i32,
    /// The multiplier that the steps begin with, times D, 0 to 1,073,741,824.
    pub start: i32,
}

/// A table of materials and limits that is written to a sheet. Each limit has as many coefficients as there are
/// materials: another number of them is refused when the table is made.
#[derive(Clone, Debug, PartialEq, Eq, Hash)]
pub struct Table {
    steps: Steps,
    materials: Vec<Material>,
    limits: Vec<LimitRow>,
}

impl Table {
    /// A table. [`Cause::Dimensions`] is the only refusal: a limit has more or fewer coefficients than materials. How
    /// many there are, and the figures, are looked at when the table is written.
    pub fn new(
        steps: Steps,
        materials: Vec<Material>,
        limits: Vec<LimitRow>,
    ) -> Result<Table, Refusal> {
        if limits.iter().any(|limit| limit.coefficients.len() != materials.len()) {
            return Err(Refusal { cause: Cause::Dimensions, place: 0 });
        }
        Ok(Table { steps, materials, limits })
    }

    /// The step length and the number of steps.
    pub fn steps(&self) -> Steps {
        self.steps
    }

    /// The materials.
    pub fn materials(&self) -> &[Material] {
        &self.materials
    }

    /// The limits.
    pub fn limits(&self) -> &[LimitRow] {
        &self.limits
    }

    /// What the table was made of, to be changed and made into a table again.
    pub fn into_parts(self) -> (Steps, Vec<Material>, Vec<LimitRow>) {
        (self.steps, self.materials, self.limits)
    }

    /// The sheet of this table. It is refused as [`write_sheet`] says, but for 8, because the buffer takes every sheet.
    pub fn write(&self) -> Result<Vec<u8>, Refusal> {
        let mut sheet = vec![0; SHEET_BYTES];
        let length = self.write_to(&mut sheet)?;
        sheet.truncate(length);
        Ok(sheet)
    }

    /// Writes the sheet of this table to the start of a buffer, as [`write_sheet`] does, and gives its length.
    pub fn write_to(&self, sheet: &mut [u8]) -> Result<usize, Refusal> {
        let Steps { p, d, k } = self.steps;
        let sizes = Sizes { n: self.materials.len(), m: self.limits.len(), p, d, k };
        let of_materials =
            |figure: fn(&Material) -> i32| self.materials.iter().map(figure).collect::<Vec<_>>();
        let of_limits =
            |figure: fn(&LimitRow) -> i32| self.limits.iter().map(figure).collect::<Vec<_>>();
        let a: Vec<_> = self.limits.iter().flat_map(|limit| &limit.coefficients).copied().collect();
        let arrays = Arrays {
            cost: &of_materials(|material| material.cost),
            least: &of_materials(|material| material.least),
            most: &of_materials(|material| material.most),
            a: &a,
            b: &of_limits(|limit| limit.rhs),
            start: &of_limits(|limit| limit.start),
        };
        write_sheet(sizes, &arrays, sheet)
    }
}
