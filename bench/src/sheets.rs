//! The sheets that are timed, and the problem of a sheet as an LP file.
use std::fmt::Write;

/// A batch sheet before it is bytes.
pub struct Sheet {
    pub name: &'static str,
    pub p: u16,
    pub d: u16,
    pub k: u16,
    pub cost: Vec<i32>,
    pub least: Vec<i32>,
    pub most: Vec<i32>,
    /// For each limit its a, its b and its start.
    pub limits: Vec<Vec<i32>>,
}

/// A generator of pseudo-random numbers: the upper half of x, which each call makes
/// 6,364,136,223,846,793,005 x + 1,442,695,040,888,963,407 of 64 bits.
pub struct Generator(pub u64);

impl Generator {
    pub fn between(&mut self, least: i32, greatest: i32) -> i32 {
        self.0 =
            self.0.wrapping_mul(6_364_136_223_846_793_005).wrapping_add(1_442_695_040_888_963_407);
        least + ((self.0 >> 32) % (greatest - least + 1) as u64) as i32
    }

    /// A number from 1 to `greatest`, with either sign.
    fn signed(&mut self, greatest: i32) -> i32 {
        self.between(1, greatest) * (2 * self.between(0, 1) - 1)
    }

    /// One byte of a sheet may become another.
    pub fn damage(&mut self, sheet: &mut [u8]) {
        let place = self.between(0, sheet.len() as i32 - 1) as usize;
        sheet[place] = self.between(0, 255) as u8;
    }

    fn list(&mut self, length: usize, mut draw: impl FnMut(&mut Generator) -> i32) -> Vec<i32> {
        (0..length).map(|_| draw(self)).collect()
    }
}

impl Sheet {
    /// The sheet's bytes. A figure of 0 has no entry.
    pub fn bytes(&self) -> Vec<u8> {
        let rows = [&self.cost, &self.least, &self.most].into_iter().chain(&self.limits);
        let entries: Vec<(usize, i32)> = rows
            .enumerate()
            .flat_map(|(row, figures)| {
                figures.iter().enumerate().map(move |(column, &value)| (64 * row + column, value))
            })
            .filter(|entry| entry.1 != 0)
            .collect();
        let (n, m, e) = (self.cost.len() as u16, self.limits.len() as u16, entries.len() as u16);
        let mut bytes: Vec<u8> =
            [n, m, e, self.p, self.d, self.k].iter().flat_map(|size| size.to_le_bytes()).collect();
        bytes.extend(entries.iter().flat_map(|entry| (entry.0 as u16).to_le_bytes()));
        bytes.extend(entries.iter().flat_map(|entry| entry.1.to_le_bytes()));
        bytes
    }

    /// The same sheet with another step count.
    pub fn with_steps(&self, k: u16) -> Vec<u8> {
        let mut bytes = self.bytes();
        bytes[10..12].copy_from_slice(&k.to_le_bytes());
        bytes
    }

    /// The same sheet with 1 or 40 steps, and one byte that may be another.
    pub fn damaged(&self, generator: &mut Generator) -> Vec<u8> {
        let mut bytes = self.with_steps(if generator.between(0, 1) == 0 { 1 } else { 40 });
        generator.damage(&mut bytes);
        bytes
    }

    /// A sheet of 16 steps that is like this one: amounts and right-hand sides are 16 times as large, so that sums and
    /// overshoots stay long and there is still a recipe, and the starts `starts` times.
    pub fn in_16_steps(&self, name: &'static str, starts: i32) -> Sheet {
        let n = self.cost.len();
        let larger = |figures: &[i32]| figures.iter().map(|figure| 16 * figure).collect();
        let limit =
            |limit: &Vec<i32>| [&limit[..n], &[16 * limit[n], starts * limit[n + 1]]].concat();
        let (cost, limits) = (self.cost.clone(), self.limits.iter().map(limit).collect());
        let (least, most) = (larger(&self.least), larger(&self.most));
        Sheet { name, k: 16, cost, least, most, limits, ..*self }
    }

    /// The linear program of the sheet, whose optimum is the cost of the cheapest feasible recipe.
    pub fn linear_program(&self) -> String {
        let sum = |figures: &[i32]| -> String {
            figures
                .iter()
                .enumerate()
                .fold(String::new(), |text, (j, figure)| format!("{text} {figure:+} x{j}"))
        };
        let n = self.cost.len();
        let mut text = format!("Minimize\n cost:{}\nSubject To\n", sum(&self.cost));
        for (i, limit) in self.limits.iter().enumerate() {
            writeln!(text, " l{i}:{} <= {}", sum(&limit[..n]), limit[n]).unwrap();
        }
        text += "Bounds\n";
        for j in 0..n {
            writeln!(text, " {} <= x{j} <= {}", self.least[j], self.most[j]).unwrap();
        }
        text + "End\n"
    }
}

/// C7, the smallest sheet that is not refused.
pub fn c7() -> Sheet {
    Sheet {
        name: "C7 (n 1, m 0, k 1)",
        p: 1,
        d: 1,
        k: 1,
        cost: vec![0],
        least: vec![0],
        most: vec![0],
        limits: vec![],
    }
}

/// C1.
pub fn c1() -> Sheet {
    let limits = vec![vec![-2, -1, -12, 0]];
    Sheet {
        name: "C1 (n 2, m 1, k 4)",
        p: 1,
        d: 8,
        k: 4,
        cost: vec![3, 1],
        least: vec![0, 0],
        most: vec![10, 10],
        limits,
    }
}

/// A sheet with every entry, and figures that give a good plan. A recipe strictly inside the bounds keeps every limit
/// with something to spare, so that there is no refusal 9, and the step is short, so that there is no refusal 10.
fn random(name: &'static str, seed: u64, n: usize, m: usize, k: u16) -> Sheet {
    let mut generator = Generator(seed);
    let cost = generator.list(n, |generator| generator.signed(10_000));
    let least = generator.list(n, |generator| generator.between(1, 10));
    let most = generator.list(n, |generator| generator.between(30, 60));
    let recipe = generator.list(n, |generator| generator.between(15, 25));
    let mut limits = Vec::new();
    for _ in 0..m {
        let mut limit = generator.list(n, |generator| generator.signed(20));
        let load: i32 = limit.iter().zip(&recipe).map(|(a, amount)| a * amount).sum();
        limit.push(load + generator.between(1, 50));
        limits.push(limit);
    }
    for limit in &mut limits {
        limit.push(generator.between(1, 9_999));
    }
    let (p, d) = (1, 64);
    Sheet { name, p, d, k, cost, least, most, limits }
}

pub fn middle() -> Sheet {
    random("middle (n 12, m 6, k 500)", 1, 12, 6, 500)
}

pub fn largest() -> Sheet {
    random("largest (n 32, m 16, k 4096)", 2, 32, 16, 4_096)
}

/// The largest sheet with every figure as long as it can be, which has the longest text as free MPS (docs/TASK.md,
/// T14.7).
pub fn longest_text() -> Sheet {
    let limit = [vec![-1_000; 32], vec![-32_000_000, 1_073_741_824]].concat();
    Sheet {
        name: "longest text (n 32, m 16)",
        p: 1_024,
        d: 1_024,
        k: 4_096,
        cost: vec![-10_000; 32],
        least: vec![1_000; 32],
        most: vec![1_000; 32],
        limits: vec![limit; 16],
    }
}
