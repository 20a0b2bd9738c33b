mod made;

use made::{difference, generated, product, Problem};
use std::time::Instant;

fn gcd(a: i128, b: i128) -> u128 {
    let (mut a, mut b) = (a.unsigned_abs(), b.unsigned_abs());
    while b != 0 {
        if a < 1 << 64 && b < 1 << 64 {
            let (mut x, mut y) = (a as u64, b as u64);
            while y != 0 {
                (x, y) = (y, x % y);
            }
            return x as u128;
        }
        (a, b) = (b, a % b);
    }
    a
}

fn is_small(z: i128) -> bool {
    -(1 << 63) < z && z < 1 << 63
}

// p * row - q * pivot in lowest terms, or nothing if a number is out of range.
fn combine(row: &mut [i128], pivot: &[i128], c: usize) -> Option<()> {
    let g = gcd(row[c], pivot[c]) as i128;
    let (q, p) = (row[c] / g, pivot[c] / g);
    for (x, y) in row.iter().zip(pivot) {
        if is_small(p) && is_small(*x) && is_small(q) && is_small(*y) {
            continue;
        }
        difference(product(p, *x)?, product(q, *y)?)?;
    }
    for (x, y) in row.iter_mut().zip(pivot) {
        *x = p * *x - q * *y;
    }
    let mut g = 0u128;
    for x in row.iter() {
        if *x == 0 {
            continue;
        }
        g = gcd(g as i128, *x);
        if g == 1 {
            return Some(());
        }
    }
    if g > 1 {
        for x in row.iter_mut() {
            *x /= g as i128;
        }
    }
    Some(())
}

struct Program {
    n: usize,
    m: usize,
    low: Vec<i128>,
    high: Vec<i128>,
    cost: Vec<i128>,
    floor: Vec<i128>,
    ceiling: Vec<i128>,
    rate: Vec<i128>,
}

fn program(p: &Problem, inside: u128, outside: u128) -> Program {
    let mut row = vec![false; p.materials.len()];
    let mut needed = vec![false; p.materials.len()];
    for (u, unit) in p.units.iter().enumerate() {
        for &(x, _) in &unit.terms {
            if outside >> u & 1 == 0 {
                row[x as usize] = true;
            }
            if inside >> u & 1 == 1 {
                needed[x as usize] = true;
            }
        }
    }
    let rows: Vec<usize> = (0..row.len()).filter(|x| row[*x]).collect();
    let mut q = Program {
        n: 0,
        m: rows.len(),
        low: vec![],
        high: vec![],
        cost: vec![],
        floor: vec![],
        ceiling: vec![],
        rate: vec![],
    };
    for &x in &rows {
        let material = &p.materials[x];
        let lower = if material.product || needed[x] { material.lower } else { 0 };
        let (a, b) = if material.raw { (-material.upper, -lower) } else { (lower, material.upper) };
        q.floor.push(a as i128 * 1_000_000);
        q.ceiling.push(b as i128 * 1_000_000);
    }
    for (u, unit) in p.units.iter().enumerate() {
        if outside >> u & 1 == 1 {
            continue;
        }
        let taken = inside >> u & 1 == 1;
        let mut cost = unit.proportional as i128 * 1_000_000;
        for &(x, rate) in &unit.terms {
            cost -= p.materials[x as usize].price as i128 * rate as i128;
        }
        if !taken && unit.upper != 0 {
            cost += (unit.fix as i128 * 1_000_000).div_euclid(unit.upper as i128) * 1_000_000;
        }
        q.n += 1;
        q.cost.push(cost);
        q.low.push(if taken { unit.lower as i128 } else { 0 });
        q.high.push(unit.upper as i128);
        for &x in &rows {
            q.rate.push(unit.terms.iter().filter(|t| t.0 as usize == x).map(|t| t.1 as i128).sum());
        }
    }
    q
}

struct Bench {
    width: usize,
    basic: Vec<bool>,
    rows: Vec<i128>,
    pivot: Vec<i128>,
}

impl Bench {
    fn at(&self, c: usize, k: usize) -> i128 {
        self.rows[c * self.width + k]
    }

    fn start(&mut self, q: &Program) {
        let (n, m) = (q.n, q.m);
        let columns = 2 * n + 2 * m;
        self.width = columns + 2;
        let w = self.width;
        self.rows[..w * w].fill(0);
        for k in 0..w {
            self.basic[k] = k >= n && k != columns;
        }
        for i in 0..n {
            let r = (n + i) * w;
            self.rows[r + i] = 1;
            self.rows[r + n + i] = 1;
            self.rows[r + columns] = q.high[i] - q.low[i];
        }
        for j in 0..m {
            let (t, s) = ((2 * n + j) * w, (2 * n + m + j) * w);
            let mut low = 0;
            for i in 0..n {
                let a = q.rate[i * m + j];
                self.rows[t + i] = -a;
                self.rows[s + i] = a;
                low += a * q.low[i];
            }
            self.rows[t + 2 * n + j] = 1;
            self.rows[s + 2 * n + m + j] = 1;
            self.rows[t + columns] = low - q.floor[j];
            self.rows[s + columns] = q.ceiling[j] - low;
        }
        let c = (columns + 1) * w;
        self.rows[c..c + n].copy_from_slice(&q.cost);
        self.rows[c + columns + 1] = 1;
    }

    fn exchange(&mut self, leave: usize, enter: usize, negate: bool) -> Option<()> {
        let w = self.width;
        for k in 0..w {
            let z = self.rows[leave * w + k];
            self.pivot[k] = if negate { -z } else { z };
        }
        for (c, row) in self.rows[..w * w].chunks_exact_mut(w).enumerate() {
            if self.basic[c] && c != leave && row[enter] != 0 {
                combine(row, &self.pivot[..w], enter)?;
            }
        }
        self.rows[enter * w..enter * w + w].copy_from_slice(&self.pivot[..w]);
        self.basic[leave] = false;
        self.basic[enter] = true;
        Some(())
    }

    // x / a compared with y / b, for numbers a and b above 0
    fn compare(x: i128, a: i128, y: i128, b: i128) -> std::cmp::Ordering {
        match (product(b, x), product(a, y)) {
            (Some(l), Some(r)) => l.cmp(&r),
            _ => {
                // floors, then the rests turned over
                let (mut x, mut a, mut y, mut b) = (x, a, y, b);
                let mut turned = false;
                loop {
                    let (p, q) = (x.div_euclid(a), y.div_euclid(b));
                    if p != q {
                        return if turned { q.cmp(&p) } else { p.cmp(&q) };
                    }
                    let (r, s) = (x.rem_euclid(a), y.rem_euclid(b));
                    if r == 0 || s == 0 {
                        let order = r.cmp(&s);
                        return if turned { order.reverse() } else { order };
                    }
                    (x, a, y, b) = (a, r, b, s);
                    turned = !turned;
                }
            }
        }
    }

    fn before(&self, i: usize, a: i128, j: usize, b: i128) -> bool {
        use std::cmp::Ordering::*;
        let scale = self.width - 1;
        match Bench::compare(self.at(scale, i), a, self.at(scale, j), b) {
            Less => return true,
            Greater => return false,
            Equal => {}
        }
        for k in 0..self.width - 2 {
            if self.basic[k] {
                match Bench::compare(-self.at(k, i), a, -self.at(k, j), b) {
                    Less => return true,
                    Greater => return false,
                    Equal => {}
                }
            } else if k == i {
                return false;
            } else if k == j {
                return true;
            }
        }
        false
    }

    // The end (0: least flows, 1: none, 2: overflow) and the pivots made.
    fn least(&mut self, q: &Program) -> (u32, u64) {
        self.start(q);
        let (n, right, scale) = (q.n, self.width - 2, self.width - 1);
        let mut pivots = 0;
        loop {
            let Some(u) = (0..n).find(|i| self.at(scale, *i) < 0) else { break };
            if self.exchange(n + u, u, false).is_none() {
                return (2, pivots);
            }
            pivots += 1;
        }
        loop {
            let Some(leave) = (0..right).find(|c| self.basic[*c] && self.at(*c, right) < 0) else {
                return (0, pivots);
            };
            let mut best: Option<usize> = None;
            for j in 0..right {
                let size = -self.at(leave, j);
                if size <= 0 {
                    continue;
                }
                best = match best {
                    Some(b) if !self.before(j, size, b, -self.at(leave, b)) => Some(b),
                    _ => Some(j),
                };
            }
            let Some(enter) = best else { return (1, pivots) };
            if self.exchange(leave, enter, true).is_none() {
                return (2, pivots);
            }
            pivots += 1;
        }
    }
}

fn reduced(bench: &Bench, q: &Program) -> i128 {
    let scale = bench.width - 1;
    let d = bench.at(scale, scale);
    let mut g = d.unsigned_abs();
    for j in 0..q.m {
        let y = bench.at(scale, 2 * q.n + j) - bench.at(scale, 2 * q.n + q.m + j);
        if y != 0 {
            g = gcd(g as i128, y);
        }
    }
    d / g as i128
}

// The program as a file that other solvers read.
fn mps(q: &Program) -> String {
    let mut text = String::from("NAME program\nROWS\n N cost\n");
    for j in 0..q.m {
        text += &format!(" {} r{j}\n", if q.floor[j] == q.ceiling[j] { 'E' } else { 'G' });
    }
    text += "COLUMNS\n";
    for i in 0..q.n {
        text += &format!(" x{i} cost {}\n", q.cost[i]);
        for j in 0..q.m {
            let rate = q.rate[i * q.m + j];
            if rate != 0 {
                text += &format!(" x{i} r{j} {rate}\n");
            }
        }
    }
    text += "RHS\n";
    for j in 0..q.m {
        text += &format!(" right r{j} {}\n", q.floor[j]);
    }
    text += "RANGES\n";
    for j in 0..q.m {
        if q.floor[j] != q.ceiling[j] {
            text += &format!(" range r{j} {}\n", q.ceiling[j] - q.floor[j]);
        }
    }
    text += "BOUNDS\n";
    for i in 0..q.n {
        text += &format!(" LO box x{i} {}\n UP box x{i} {}\n", q.low[i], q.high[i]);
    }
    text + "ENDATA\n"
}

fn main() {
    let folder = std::env::args().nth(1);
    for (units, rounds) in [(6u32, 1000u64), (30, 100), (60, 40), (128, 10)] {
        for number in [0u64, 14, 15, 25, 36] {
            let q = program(&generated(number, units), (1u128 << (units / 2)) - 1, 0);
            if let Some(folder) = &folder {
                std::fs::write(format!("{folder}/{units}_{number}.mps"), mps(&q)).unwrap();
                continue;
            }
            let w = 2 * (q.n + q.m) + 2;
            let mut bench =
                Bench { width: w, basic: vec![false; w], rows: vec![0; w * w], pivot: vec![0; w] };
            let start = Instant::now();
            let (mut least, mut pivots, mut sum) = (0u64, 0, 0u64);
            for _ in 0..rounds {
                let (end, made) = bench.least(&q);
                pivots += made;
                if end == 0 {
                    least += 1;
                    sum = sum
                        .wrapping_mul(31)
                        .wrapping_add((reduced(&bench, &q) % 4294967296) as u64);
                }
            }
            println!("{units} {number} {} {least} {sum} {pivots}", start.elapsed().as_micros());
        }
    }
}
