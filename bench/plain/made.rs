//! The plants of `make`, and checked operations on 128 bits, for the plain programs.
#![allow(dead_code)]

pub struct Material {
    pub raw: bool,
    pub product: bool,
    pub price: i64,
    pub lower: i64,
    pub upper: i64,
}
pub struct Unit {
    pub lower: i64,
    pub upper: i64,
    pub fix: i64,
    pub proportional: i64,
    pub terms: Vec<(u32, i64)>,
}
pub struct Problem {
    pub materials: Vec<Material>,
    pub units: Vec<Unit>,
    pub payout: i64,
}

pub fn sum(a: i128, b: i128) -> Option<i128> {
    a.checked_add(b).filter(|z| *z != i128::MIN)
}
pub fn difference(a: i128, b: i128) -> Option<i128> {
    a.checked_sub(b).filter(|z| *z != i128::MIN)
}
pub fn product(a: i128, b: i128) -> Option<i128> {
    a.checked_mul(b).filter(|z| *z != i128::MIN)
}

pub fn generated(number: u64, n: u32) -> Problem {
    let mut s = (number % 65536) as u32;
    let mut draw = |below: u32| {
        s = (75 * s + 74) % 65537;
        s % below
    };
    let k = n / 3;
    let mut p = Problem { materials: Vec::new(), units: Vec::new(), payout: 1 };
    for _ in 0..3 {
        p.materials.push(Material {
            raw: true,
            product: false,
            price: (1 + draw(9)) as i64 * 1000000,
            lower: 0,
            upper: 1000000000000000,
        });
    }
    for _ in 0..k {
        p.materials.push(Material {
            raw: false,
            product: false,
            price: 0,
            lower: 0,
            upper: 1000000000000000,
        });
    }
    p.materials.push(Material {
        raw: false,
        product: true,
        price: 0,
        lower: 10000000,
        upper: 10000000,
    });
    for i in 0..n {
        let t = i % (k + 1);
        let input = if t == 0 {
            draw(3)
        } else if draw(4) < 3 {
            2 + t
        } else {
            2
        };
        let rate = (1 + draw(2)) as i64;
        let fix = (1 + draw(50)) as i64;
        let proportional = (1 + draw(5)) as i64;
        let upper = (100 + draw(100)) as i64;
        p.units.push(Unit {
            lower: 0,
            upper: upper * 1000000,
            fix: fix * 1000000,
            proportional: proportional * 1000000,
            terms: vec![(input, -1000000), (3 + t, rate * 1000000)],
        });
    }
    p
}
