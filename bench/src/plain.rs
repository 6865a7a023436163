//! A planner from docs/TASK.md as one writes it without further thought: figures of 64 bits in vectors, and nested
//! loops by index.
use crate::layout::{answer, read, refuse, Entry, Sizes};
use batchplan::{Answer, Cause, Refusal};

pub struct Figures {
    pub size: Sizes,
    pub cost: Vec<i64>,
    pub least: Vec<i64>,
    pub most: Vec<i64>,
    // a of limit i and material j stands at i * n + j
    pub a: Vec<i64>,
    pub b: Vec<i64>,
    start: Vec<i64>,
}

struct State {
    multipliers: Vec<i64>,
    sums: Vec<i64>,
    overshoots: Vec<i64>,
    low: i64,
    // of the step at hand
    amounts: Vec<i64>,
    misses: Vec<i64>,
}

impl Figures {
    pub fn new(size: Sizes) -> Figures {
        let (n, m) = (size.n, size.m);
        Figures {
            size,
            cost: vec![0; n],
            least: vec![0; n],
            most: vec![0; n],
            a: vec![0; m * n],
            b: vec![0; m],
            start: vec![0; m],
        }
    }

    pub fn store(&mut self, Entry { row, column, value }: Entry) {
        let n = self.size.n;
        let place = match row {
            0 => &mut self.cost[column],
            1 => &mut self.least[column],
            2 => &mut self.most[column],
            _ if column < n => &mut self.a[(row - 3) * n + column],
            _ if column == n => &mut self.b[row - 3],
            _ => &mut self.start[row - 3],
        };
        *place = i64::from(value);
    }

    fn cost_of(&self, amount: impl Fn(usize) -> i64) -> i64 {
        let mut cost = 0;
        for j in 0..self.size.n {
            cost += self.cost[j] * amount(j);
        }
        self.size.d * cost
    }

    fn dearest(&self) -> i64 {
        self.cost_of(|j| if self.cost[j] > 0 { self.most[j] } else { self.least[j] })
    }

    fn cheapest(&self) -> i64 {
        self.cost_of(|j| if self.cost[j] > 0 { self.least[j] } else { self.most[j] })
    }
}

impl State {
    fn new(f: &Figures) -> State {
        let (n, m) = (f.size.n, f.size.m);
        State {
            multipliers: f.start.clone(),
            sums: vec![0; n],
            overshoots: vec![0; m],
            low: f.cheapest(),
            amounts: vec![0; n],
            misses: vec![0; m],
        }
    }

    /// Step rules 1 and 2: the amounts and the misses; gives the step value.
    fn evaluate(&mut self, f: &Figures) -> i64 {
        let (n, m, d) = (f.size.n, f.size.m, f.size.d);
        let mut value = 0;
        for j in 0..n {
            let mut weight = d * f.cost[j];
            for i in 0..m {
                weight += self.multipliers[i] * f.a[i * n + j];
            }
            self.amounts[j] = if weight < 0 { f.most[j] } else { f.least[j] };
            value += d * f.cost[j] * self.amounts[j];
        }
        for i in 0..m {
            let mut load = 0;
            for j in 0..n {
                load += f.a[i * n + j] * self.amounts[j];
            }
            self.misses[i] = load - f.b[i];
            value += self.multipliers[i] * self.misses[i];
        }
        value
    }

    /// Step t. The closing look is the head of a step, at t = k.
    fn step(&mut self, f: &Figures, dearest: i64, t: usize) -> Result<(), Refusal> {
        let value = self.evaluate(f);
        if value > dearest {
            return Err(refuse(Cause::Infeasible, t));
        }
        self.low = self.low.max(value);
        if t == f.size.k {
            return Ok(());
        }
        for i in 0..f.size.m {
            self.multipliers[i] = (self.multipliers[i] + f.size.p * self.misses[i]).max(0);
            if self.multipliers[i] > 1_073_741_824 {
                return Err(refuse(Cause::Diverged, t));
            }
            self.overshoots[i] += self.misses[i];
        }
        for j in 0..f.size.n {
            self.sums[j] += self.amounts[j];
        }
        Ok(())
    }
}

fn walk(f: &Figures) -> Result<State, Refusal> {
    let mut state = State::new(f);
    let dearest = f.dearest();
    for t in 0..f.size.k + 1 {
        state.step(f, dearest, t)?;
    }
    Ok(state)
}

fn write(f: &Figures, state: &State, gap: i64, record: &mut [u8]) {
    let mut bytes = Vec::with_capacity(record.len());
    for size in [f.size.n, f.size.m, f.size.k] {
        bytes.extend((size as u16).to_le_bytes());
    }
    for figure in [state.low, gap] {
        bytes.extend(figure.to_le_bytes());
    }
    for figure in state.sums.iter().chain(&state.multipliers) {
        bytes.extend((*figure as i32).to_le_bytes());
    }
    for figure in &state.overshoots {
        bytes.extend(figure.to_le_bytes());
    }
    record[..bytes.len()].copy_from_slice(&bytes);
}

fn plan_or_refuse(sheet: &[u8], record: &mut [u8]) -> Result<(i64, i64), Refusal> {
    let f = read(sheet, Figures::new, Figures::store)?;
    let (n, m) = (f.size.n, f.size.m);
    if let Some(j) = (0..n).find(|&j| f.least[j] > f.most[j]) {
        return Err(refuse(Cause::Bounds, j));
    }
    let length = 22 + 4 * n + 12 * m;
    if record.len() < length {
        return Err(refuse(Cause::Buffer, length));
    }
    let state = walk(&f)?;
    let mut cost = 0;
    for j in 0..n {
        cost += f.cost[j] * state.sums[j];
    }
    let gap = f.size.d * cost - f.size.k as i64 * state.low;
    write(&f, &state, gap, record);
    Ok((state.low, gap))
}

pub fn plan(sheet: &[u8], record: &mut [u8]) -> Answer {
    answer(plan_or_refuse(sheet, record))
}
