mod made;

use made::{generated, product, sum, Problem};
use std::time::Instant;

fn bound(p: &Problem, inside: u128, outside: u128, d: i128, ys: &[i128]) -> Option<i128> {
    let mut needed = [false; 256];
    let mut row = [false; 256];
    for (u, unit) in p.units.iter().enumerate() {
        for &(m, _) in &unit.terms {
            if inside >> u & 1 == 1 {
                needed[m as usize] = true;
            }
            if outside >> u & 1 == 0 {
                row[m as usize] = true;
            }
        }
    }
    let mut fixed = 0i128;
    for (u, unit) in p.units.iter().enumerate() {
        if inside >> u & 1 == 1 {
            fixed += p.payout as i128 * unit.fix as i128;
        }
    }
    let mut total = product(d, fixed * 1_000_000_000_000)?;
    let mut y_at = [0i128; 256];
    let mut place = 0;
    for (m, material) in p.materials.iter().enumerate() {
        if !row[m] {
            continue;
        }
        let y = ys[place];
        place += 1;
        y_at[m] = y;
        let lower = if material.product || needed[m] { material.lower } else { 0 };
        let (low, high) =
            if material.raw { (-material.upper, -lower) } else { (lower, material.upper) };
        let end = if y >= 0 { low } else { high };
        total = sum(total, product(y, end as i128 * 1_000_000)?)?;
    }
    for (u, unit) in p.units.iter().enumerate() {
        if outside >> u & 1 == 1 {
            continue;
        }
        let mut cost = p.payout as i128 * unit.proportional as i128 * 1_000_000;
        for &(m, rate) in &unit.terms {
            cost -= p.payout as i128 * p.materials[m as usize].price as i128 * rate as i128;
        }
        let taken = inside >> u & 1 == 1;
        if !taken && unit.upper != 0 {
            cost +=
                p.payout as i128 * unit.fix as i128 * 1_000_000 / unit.upper as i128 * 1_000_000;
        }
        let mut e = product(d, cost)?;
        for &(m, rate) in &unit.terms {
            e = sum(e, -product(y_at[m as usize], rate as i128)?)?;
        }
        let end = if e < 0 {
            unit.upper
        } else if taken {
            unit.lower
        } else {
            0
        };
        total = sum(total, product(e, end as i128)?)?;
    }
    Some(total)
}

fn main() {
    let p = generated(14, 128);
    let inside = 0x11111111111111111111111111111111u128;
    let outside = 0x00000080000000800000008000000080u128;
    let mut row = [false; 256];
    for (u, unit) in p.units.iter().enumerate() {
        if outside >> u & 1 == 0 {
            for &(m, _) in &unit.terms {
                row[m as usize] = true;
            }
        }
    }
    let ys: Vec<i128> =
        (0..row.iter().filter(|r| **r).count()).map(|j| j as i128 * 1000 - 40000).collect();
    let start = Instant::now();
    let mut last = 0i128;
    for round in 0..20000u32 {
        match bound(&p, inside, outside, (round % 7) as i128, &ys) {
            Some(b) => last = last.wrapping_mul(31).wrapping_add(b),
            None => last = last.wrapping_add(1),
        }
    }
    println!("{} {last}", start.elapsed().as_micros());
}
