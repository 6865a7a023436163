//! The same planner as the fastest plain Rust that was found: arrays of fixed size, each figure in as few bits as the
//! ranges allow.
use crate::layout::{answer, read, refuse, Entry, Sizes};
use batchplan::{Answer, Cause, Refusal};

struct Figures {
    size: Sizes,
    cost: [i16; 32],
    least: [i16; 32],
    most: [i16; 32],
    a: [[i16; 32]; 16],
    b: [i32; 16],
    start: [i32; 16],
}

struct State {
    multipliers: [i64; 16],
    sums: [i32; 32],
    overshoots: [i64; 16],
    low: i64,
}

fn dot(x: &[i16], y: &[i16]) -> i32 {
    let products = x.iter().zip(y).map(|(&x, &y)| i32::from(x) * i32::from(y));
    products.sum()
}

impl Figures {
    fn new(size: Sizes) -> Figures {
        let none = [0; 32];
        let (a, b, start) = ([none; 16], [0; 16], [0; 16]);
        Figures { size, cost: none, least: none, most: none, a, b, start }
    }

    fn store(&mut self, Entry { row, column, value }: Entry) {
        match row {
            0 => self.cost[column] = value as i16,
            1 => self.least[column] = value as i16,
            2 => self.most[column] = value as i16,
            _ if column < self.size.n => self.a[row - 3][column] = value as i16,
            _ if column == self.size.n => self.b[row - 3] = value,
            _ => self.start[row - 3] = value,
        }
    }

    fn cost_of(&self, amount: impl Fn(usize) -> i16) -> i64 {
        self.size.d * i64::from(dot(&self.cost, &std::array::from_fn::<i16, 32, _>(amount)))
    }

    fn dearest(&self) -> i64 {
        self.cost_of(|j| if self.cost[j] > 0 { self.most[j] } else { self.least[j] })
    }

    fn cheapest(&self) -> i64 {
        self.cost_of(|j| if self.cost[j] > 0 { self.least[j] } else { self.most[j] })
    }

    fn amounts(&self, multipliers: &[i64; 16]) -> [i16; 32] {
        let (n, m) = (self.size.n.min(32), self.size.m.min(16));
        let mut amounts = [0; 32];
        for j in 0..n {
            let mut weight = self.size.d * i64::from(self.cost[j]);
            for i in 0..m {
                weight += multipliers[i] * i64::from(self.a[i][j]);
            }
            amounts[j] = if weight < 0 { self.most[j] } else { self.least[j] };
        }
        amounts
    }
}

impl State {
    /// Step t. The closing look is the head of a step, at t = k.
    fn step(&mut self, f: &Figures, dearest: i64, t: usize) -> Result<(), Refusal> {
        let (n, m) = (f.size.n.min(32), f.size.m.min(16));
        let amounts = f.amounts(&self.multipliers);
        let mut misses = [0; 16];
        let mut value = f.size.d * i64::from(dot(&f.cost[..n], &amounts[..n]));
        for i in 0..m {
            misses[i] = i64::from(dot(&f.a[i][..n], &amounts[..n]) - f.b[i]);
            value += self.multipliers[i] * misses[i];
        }
        if value > dearest {
            return Err(refuse(Cause::Infeasible, t));
        }
        self.low = self.low.max(value);
        if t == f.size.k {
            return Ok(());
        }
        let mut greatest = 0;
        for i in 0..m {
            self.multipliers[i] = (self.multipliers[i] + f.size.p * misses[i]).max(0);
            self.overshoots[i] += misses[i];
            greatest = greatest.max(self.multipliers[i]);
        }
        if greatest > 1_073_741_824 {
            return Err(refuse(Cause::Diverged, t));
        }
        for j in 0..n {
            self.sums[j] += i32::from(amounts[j]);
        }
        Ok(())
    }
}

fn walk(f: &Figures) -> Result<State, Refusal> {
    let multipliers = f.start.map(i64::from);
    let mut state = State { multipliers, sums: [0; 32], overshoots: [0; 16], low: f.cheapest() };
    let dearest = f.dearest();
    for t in 0..f.size.k + 1 {
        state.step(f, dearest, t)?;
    }
    Ok(state)
}

/// Puts bytes at the start of the buffer, and leaves what is after them.
fn put(rest: &mut &mut [u8], bytes: &[u8]) {
    let (here, after) = std::mem::take(rest).split_at_mut(bytes.len());
    here.copy_from_slice(bytes);
    *rest = after;
}

fn write(f: &Figures, state: &State, gap: i64, mut rest: &mut [u8]) {
    for size in [f.size.n, f.size.m, f.size.k] {
        put(&mut rest, &(size as u16).to_le_bytes());
    }
    for figure in [state.low, gap] {
        put(&mut rest, &figure.to_le_bytes());
    }
    for figure in &state.sums[..f.size.n] {
        put(&mut rest, &figure.to_le_bytes());
    }
    for &figure in &state.multipliers[..f.size.m] {
        put(&mut rest, &(figure as i32).to_le_bytes());
    }
    for figure in &state.overshoots[..f.size.m] {
        put(&mut rest, &figure.to_le_bytes());
    }
}

fn plan_or_refuse(sheet: &[u8], record: &mut [u8]) -> Result<(i64, i64), Refusal> {
    let f = read(sheet, Figures::new, Figures::store)?;
    if let Some(j) = (0..f.size.n).find(|&j| f.least[j] > f.most[j]) {
        return Err(refuse(Cause::Bounds, j));
    }
    let length = 22 + 4 * f.size.n + 12 * f.size.m;
    if record.len() < length {
        return Err(refuse(Cause::Buffer, length));
    }
    let state = walk(&f)?;
    let costs = f.cost.iter().zip(&state.sums);
    let cost: i64 = costs.map(|(&cost, &sum)| i64::from(cost) * i64::from(sum)).sum();
    let gap = f.size.d * cost - f.size.k as i64 * state.low;
    write(&f, &state, gap, record);
    Ok((state.low, gap))
}

pub fn plan(sheet: &[u8], record: &mut [u8]) -> Answer {
    answer(plan_or_refuse(sheet, record))
}
