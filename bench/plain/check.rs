mod made;

use made::{product, sum, Material, Unit};
use std::collections::HashMap;
use std::time::Instant;

struct Problem {
    materials: Vec<Material>,
    units: Vec<Unit>,
    material_at: HashMap<String, u32>,
    unit_at: HashMap<String, u32>,
    makes: Vec<u128>,
    uses: Vec<u128>,
    products: u128,
    raws: u128,
    inputs: Vec<u128>,
    outputs: Vec<u128>,
}

const BILLION: i64 = 1_000_000_000_000_000;

// The problem of a.pns: A and B raw, C, E and F, P; U1: A => C, U2: B => C, U3: C => P, U4: E => P,
// U5: B => F.
fn example() -> Problem {
    let mut p = Problem {
        materials: vec![],
        units: vec![],
        material_at: HashMap::new(),
        unit_at: HashMap::new(),
        makes: vec![],
        uses: vec![],
        products: 0,
        raws: 0,
        inputs: vec![],
        outputs: vec![],
    };
    for (name, raw, product, price, lower, upper) in [
        ("A", true, false, 2, 0, BILLION),
        ("B", true, false, 3, 0, BILLION),
        ("C", false, false, 0, 0, BILLION),
        ("E", false, false, 0, 0, BILLION),
        ("F", false, false, 0, 0, BILLION),
        ("P", false, true, 0, 20_000_000, 20_000_000),
    ] {
        let x = p.materials.len();
        p.material_at.insert(name.to_string(), x as u32);
        if raw {
            p.raws |= 1 << x;
        }
        if product {
            p.products |= 1 << x;
        }
        p.materials.push(Material { raw, product, price: price * 1_000_000, lower, upper });
        p.makes.push(0);
        p.uses.push(0);
    }
    for (name, upper, fix, proportional, from, to) in [
        ("U1", 100_000_000, 10, 1, 0, 2),
        ("U2", 100_000_000, 1, 1, 1, 2),
        ("U3", 150_000_000, 5, 0, 2, 5),
        ("U4", BILLION, 0, 0, 3, 5),
        ("U5", BILLION, 0, 0, 1, 4),
    ] {
        let u = p.units.len();
        p.unit_at.insert(name.to_string(), u as u32);
        p.uses[from] |= 1 << u;
        p.makes[to] |= 1 << u;
        p.inputs.push(1 << from);
        p.outputs.push(1 << to);
        p.units.push(Unit {
            lower: 0,
            upper,
            fix: fix * 1_000_000,
            proportional: proportional * 1_000_000,
            terms: vec![(from as u32, -1_000_000), (to as u32, 1_000_000)],
        });
    }
    p
}

enum Step {
    Raw(u32),
    Rival(u32),
    Starve(u32),
    Loose(u128),
    Sole(u32, u32),
}
enum End {
    Dead(u32),
    Refuted(Vec<i128>),
    Bound(i128, Vec<i128>),
    Branch(u32, u32),
    Open,
}
struct Node {
    option: u128,
    steps: Vec<Step>,
    end: End,
}
struct Claim {
    units: u128,
    sizes: Vec<i128>,
    d: i128,
    cost: i128,
}

fn number(word: &str) -> Option<i128> {
    let digits = word.strip_prefix('-').unwrap_or(word);
    if digits.is_empty() || (digits.len() > 1 && digits.starts_with('0')) || word == "-0" {
        return None;
    }
    word.parse().ok()
}
fn numbers<'a>(words: impl Iterator<Item = &'a str>) -> Option<Vec<i128>> {
    words.map(number).collect()
}
fn units<'a>(p: &Problem, words: impl Iterator<Item = &'a str>) -> Option<u128> {
    let mut set = 0u128;
    for word in words {
        let u = *p.unit_at.get(word)?;
        if set >> u != 0 {
            return None;
        }
        set |= 1 << u;
    }
    Some(set)
}

fn read(p: &Problem, text: &str) -> Option<(Claim, Vec<Node>)> {
    let mut lines = text.split_terminator('\n');
    if lines.next()? != "file_type=PNS_tree_v1" {
        return None;
    }
    let mut claim = Claim { units: 0, sizes: vec![], d: 1, cost: 0 };
    claim.units = units(p, lines.next()?.strip_prefix("network")?.split(' ').skip(1))?;
    let mut words = lines.next()?.split(' ');
    if words.next()? != "sizes" {
        return None;
    }
    claim.d = number(words.next()?)?;
    claim.sizes = numbers(words)?;
    claim.cost = number(lines.next()?.strip_prefix("cost ")?)?;
    let mut nodes = Vec::new();
    let mut line = lines.next()?;
    let mut left = 1u64;
    while left > 0 {
        left -= 1;
        let mut words = line.split(' ');
        if words.next()? != "node" {
            return None;
        }
        let mut node = Node { option: units(p, words)?, steps: vec![], end: End::Open };
        loop {
            line = lines.next()?;
            let mut words = line.split(' ');
            let word = words.next()?;
            match word {
                "raw" => node.steps.push(Step::Raw(*p.unit_at.get(words.next()?)?)),
                "rival" => node.steps.push(Step::Rival(*p.unit_at.get(words.next()?)?)),
                "starve" => node.steps.push(Step::Starve(*p.material_at.get(words.next()?)?)),
                "loose" => {
                    node.steps.push(Step::Loose(units(p, words)?));
                    continue;
                }
                "sole" => node.steps.push(Step::Sole(
                    *p.material_at.get(words.next()?)?,
                    *p.unit_at.get(words.next()?)?,
                )),
                "dead" => {
                    node.end = End::Dead(*p.material_at.get(words.next()?)?);
                    break;
                }
                "refuted" => {
                    node.end = End::Refuted(numbers(words)?);
                    break;
                }
                "bound" => {
                    let d = number(words.next()?)?;
                    node.end = End::Bound(d, numbers(words)?);
                    break;
                }
                "branch" => {
                    let x = *p.material_at.get(words.next()?)?;
                    let c: u32 = words.next()?.parse().ok()?;
                    left += c as u64;
                    node.end = End::Branch(x, c);
                    break;
                }
                "open" => break,
                _ => return None,
            }
            if words.next().is_some() {
                return None;
            }
        }
        nodes.push(node);
        line = lines.next()?;
    }
    if line != "end" || lines.next().is_some() {
        return None;
    }
    Some((claim, nodes))
}

fn materials(sets: &[u128], of: u128) -> u128 {
    (0..sets.len()).filter(|u| of >> u & 1 == 1).fold(0, |m, u| m | sets[u])
}

fn bound(p: &Problem, inside: u128, outside: u128, d: i128, ys: &[i128]) -> Option<i128> {
    let kept = ((1u128 << p.units.len()) - 1) & !outside;
    let row = materials(&p.inputs, kept) | materials(&p.outputs, kept);
    let needed = materials(&p.inputs, inside) | materials(&p.outputs, inside);
    if row.count_ones() as usize != ys.len() {
        return None;
    }
    let mut fixed = 0i128;
    for (u, unit) in p.units.iter().enumerate() {
        if inside >> u & 1 == 1 {
            fixed += unit.fix as i128;
        }
    }
    let mut total = product(d, fixed * 1_000_000_000_000)?;
    let mut y_at = [0i128; 128];
    let mut place = 0;
    for (m, material) in p.materials.iter().enumerate() {
        if row >> m & 1 == 0 {
            continue;
        }
        let y = ys[place];
        place += 1;
        y_at[m] = y;
        let lower = if material.product || needed >> m & 1 == 1 { material.lower } else { 0 };
        let (low, high) =
            if material.raw { (-material.upper, -lower) } else { (lower, material.upper) };
        total = sum(
            total,
            product(y, low as i128 * 1_000_000)?.min(product(y, high as i128 * 1_000_000)?),
        )?;
    }
    for (u, unit) in p.units.iter().enumerate() {
        if outside >> u & 1 == 1 {
            continue;
        }
        let mut cost = unit.proportional as i128 * 1_000_000;
        for &(m, rate) in &unit.terms {
            cost -= p.materials[m as usize].price as i128 * rate as i128;
        }
        let taken = inside >> u & 1 == 1;
        if !taken && unit.upper != 0 {
            cost += unit.fix as i128 * 1_000_000 / unit.upper as i128 * 1_000_000;
        }
        let mut e = product(d, cost)?;
        for &(m, rate) in &unit.terms {
            e = sum(e, -product(y_at[m as usize], rate as i128)?)?;
        }
        total = sum(
            total,
            product(e, if taken { unit.lower as i128 } else { 0 })?
                .min(product(e, unit.upper as i128)?),
        )?;
    }
    Some(total)
}

// The first node that fails, or the number of nodes.
fn judge(p: &Problem, claim: &Claim, nodes: &[Node]) -> usize {
    let all = (1u128 << p.units.len()) - 1;
    let mut ends = vec![0usize; nodes.len()];
    for i in (0..nodes.len()).rev() {
        let mut at = i + 1;
        if let End::Branch(_, c) = nodes[i].end {
            for _ in 0..c {
                at = ends[at];
            }
        }
        ends[i] = at;
    }
    let mut stack = vec![(0u128, 0u128)];
    for (i, node) in nodes.iter().enumerate() {
        let (mut inside, mut outside) = stack.pop().unwrap();
        let free = |i: u128, o: u128, u: u32| (i | o) >> u & 1 == 0;
        let needed =
            |i: u128, x: u32| (p.products | (materials(&p.inputs, i) & !p.raws)) >> x & 1 == 1;
        for step in &node.steps {
            match *step {
                Step::Raw(u) => {
                    if !free(inside, outside, u) || p.outputs[u as usize] & p.raws == 0 {
                        return i;
                    }
                    outside |= 1 << u;
                }
                Step::Rival(_) => return i,
                Step::Starve(x) => {
                    let users = p.uses[x as usize] & !outside;
                    if p.raws >> x & 1 == 1
                        || p.makes[x as usize] & !outside != 0
                        || users == 0
                        || users & inside != 0
                    {
                        return i;
                    }
                    outside |= users;
                }
                Step::Loose(w) => {
                    if w == 0
                        || w & (inside | outside) != 0
                        || materials(&p.outputs, w)
                            & (p.products | materials(&p.inputs, all & !outside & !w))
                            != 0
                    {
                        return i;
                    }
                    outside |= w;
                }
                Step::Sole(x, u) => {
                    if !needed(inside, x)
                        || p.makes[x as usize] & !outside != 1 << u
                        || inside >> u & 1 == 1
                    {
                        return i;
                    }
                    inside |= 1 << u;
                }
            }
        }
        match &node.end {
            End::Dead(x) => {
                if !needed(inside, *x) || p.makes[*x as usize] & !outside != 0 {
                    return i;
                }
            }
            End::Refuted(ys) => match bound(p, inside, outside, 0, ys) {
                Some(b) if b > 0 => {}
                _ => return i,
            },
            End::Bound(d, ys) => {
                if *d < 1 {
                    return i;
                }
                let Some(b) = bound(p, inside, outside, *d, ys) else { return i };
                match (product(b, claim.d), product(claim.cost, *d)) {
                    (Some(l), Some(r)) if l >= r => {}
                    _ => return i,
                }
            }
            End::Open => return i,
            End::Branch(x, c) => {
                if !needed(inside, *x) {
                    return i;
                }
                let base = p.makes[*x as usize] & inside;
                let loose = p.makes[*x as usize] & !inside & !outside;
                let mut option = base;
                if option == 0 {
                    option = loose & loose.wrapping_neg();
                }
                let mut at = i + 1;
                let mut children = Vec::new();
                let mut last = false;
                for _ in 0..*c {
                    if last || option == 0 || nodes[at].option != option {
                        return i;
                    }
                    children.push((inside | option, outside | (p.makes[*x as usize] & !option)));
                    at = ends[at];
                    option = (((option | !(loose | base)) & !base).wrapping_add(1) & loose) | base;
                    last = option == base;
                }
                if !last {
                    return i;
                }
                stack.extend(children.into_iter().rev());
            }
        }
    }
    nodes.len()
}

fn text(depth: u32) -> String {
    let mut text = String::from(
        "file_type=PNS_tree_v1\nnetwork U1 U3\nsizes 1 20000000 20000000\n\
         cost 75000000000000000000\nnode\nstarve E\nloose U5\nsole P U3\n",
    );
    for _ in 0..depth {
        text.push_str("branch P 1\nnode U3\n");
    }
    text.push_str(
        "branch C 3\nnode U1\nbound 1 0 3000000 3000000\nnode U2\nbound 1 0 4000000 4000000\n\
         node U1 U2\nbound 1 0 0 3000000 3000000\nend\n",
    );
    text
}

fn main() {
    let p = example();
    let text =
        text(std::env::args().nth(1).map_or(100_000, |word| word.parse().expect("a number")));
    let start = Instant::now();
    let (claim, nodes) = read(&p, &text).expect("a tree");
    let read = start.elapsed().as_micros();
    let start = Instant::now();
    let end = judge(&p, &claim, &nodes);
    println!(
        "{read} {} {} {} {}",
        text.len(),
        start.elapsed().as_micros(),
        nodes.len(),
        end == nodes.len()
    );
}
