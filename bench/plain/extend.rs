mod made;

use std::time::Instant;

#[derive(Clone, Copy)]
struct Node {
    inside: u128,
    outside: u128,
}

#[derive(Clone, Copy)]
enum Stop {
    Decided,
    Dead(u32),
    Clash(u32),
    Branch(u32),
}

#[derive(Clone, Copy)]
enum Step {
    Raw(u32),
    Rival(u32),
    Starve(u32),
    Loose(u128),
    Sole(u32, u32),
}

struct Graph {
    raw: Vec<bool>,
    product: Vec<bool>,
    inputs: Vec<Vec<u32>>,
    makers: Vec<u128>,
    users: Vec<u128>,
    raw_makers: u128,
    exclusions: Vec<u128>,
    all: u128,
}

fn bits(set: u128) -> impl Iterator<Item = u32> {
    let mut rest = set;
    std::iter::from_fn(move || {
        if rest == 0 {
            return None;
        }
        let u = rest.trailing_zeros();
        rest &= rest - 1;
        Some(u)
    })
}

impl Graph {
    // The units that have a path to a product through units of the set.
    fn leading(&self, set: u128) -> u128 {
        let mut found = 0u128;
        let mut seen = [false; 256];
        let mut queue = [0u32; 256];
        let (mut first, mut last) = (0, 0);
        for x in 0..self.raw.len() {
            if self.product[x] {
                seen[x] = true;
                queue[last] = x as u32;
                last += 1;
            }
        }
        while first < last {
            let more = self.makers[queue[first] as usize] & set & !found;
            first += 1;
            found |= more;
            for u in bits(more) {
                for &x in &self.inputs[u as usize] {
                    if !seen[x as usize] {
                        seen[x as usize] = true;
                        queue[last] = x;
                        last += 1;
                    }
                }
            }
        }
        found
    }

    fn extend(&self, node: Node) -> (Node, Vec<Step>, Stop) {
        let Node { mut inside, mut outside } = node;
        let mut steps = Vec::new();
        let mut needed = self.product.clone();
        for u in bits(inside) {
            for &x in &self.inputs[u as usize] {
                needed[x as usize] |= !self.raw[x as usize];
            }
        }
        let mut leading = None;
        loop {
            let rest = self.all & !outside;
            let free = rest & !inside;
            if let Some(x) = (0..needed.len()).find(|&x| needed[x] && self.makers[x] & rest == 0) {
                return (Node { inside, outside }, steps, Stop::Dead(x as u32));
            }
            if let Some(k) = self.exclusions.iter().position(|e| (e & inside).count_ones() > 1) {
                return (Node { inside, outside }, steps, Stop::Clash(k as u32));
            }
            let raws = self.raw_makers & free;
            if raws != 0 {
                let u = raws.trailing_zeros();
                steps.push(Step::Raw(u));
                outside |= 1 << u;
                leading = None;
                continue;
            }
            let rivals =
                self.exclusions.iter().filter(|&e| e & inside != 0).fold(0, |r, e| r | e) & free;
            if rivals != 0 {
                let u = rivals.trailing_zeros();
                steps.push(Step::Rival(u));
                outside |= 1 << u;
                leading = None;
                continue;
            }
            if let Some(x) = (0..needed.len()).find(|&x| {
                let users = self.users[x] & rest;
                !self.raw[x] && users != 0 && self.makers[x] & rest == 0 && users & inside == 0
            }) {
                steps.push(Step::Starve(x as u32));
                outside |= self.users[x];
                leading = None;
                continue;
            }
            let found = *leading.get_or_insert_with(|| self.leading(rest));
            if rest & !found != 0 {
                steps.push(Step::Loose(rest & !found));
                outside |= rest & !found;
                leading = None;
                continue;
            }
            if let Some((x, u)) = (0..needed.len()).find_map(|x| {
                let makers = self.makers[x] & rest;
                (needed[x] && makers.count_ones() == 1 && makers & inside == 0)
                    .then(|| (x, makers.trailing_zeros()))
            }) {
                steps.push(Step::Sole(x as u32, u));
                inside |= 1 << u;
                for &x in &self.inputs[u as usize] {
                    needed[x as usize] |= !self.raw[x as usize];
                }
                continue;
            }
            let end = match (0..needed.len()).find(|&x| needed[x] && self.makers[x] & free != 0) {
                Some(x) => Stop::Branch(x as u32),
                None => Stop::Decided,
            };
            return (Node { inside, outside }, steps, end);
        }
    }
}

/// The graph of the plant that `make` gives; its units have one input and one output each.
fn graph_of(number: u64, n: u32) -> Graph {
    let plant = made::generated(number, n);
    let count = plant.materials.len();
    let mut g = Graph {
        raw: plant.materials.iter().map(|x| x.raw).collect(),
        product: plant.materials.iter().map(|x| x.product).collect(),
        inputs: vec![],
        makers: vec![0; count],
        users: vec![0; count],
        raw_makers: 0,
        exclusions: vec![],
        all: if n == 128 { !0 } else { (1 << n) - 1 },
    };
    for (i, unit) in plant.units.iter().enumerate() {
        let (input, output) = (unit.terms[0].0, unit.terms[1].0);
        g.inputs.push(vec![input]);
        g.users[input as usize] |= 1 << i;
        g.makers[output as usize] |= 1 << i;
    }
    g.raw_makers = (0..count).filter(|&x| g.raw[x]).fold(0, |set, x| set | g.makers[x]);
    g
}

fn drawn(state: u64) -> u64 {
    state.wrapping_mul(6364136223846793005).wrapping_add(1442695040888963407)
}

fn child(g: &Graph, node: Node, x: usize, state: u64) -> Node {
    let makers = g.makers[x];
    let free = makers & !node.inside & !node.outside;
    let mask = (state as u128) << 64 | drawn(state) as u128;
    let some = makers & node.inside | free & mask;
    let option = if some == 0 { free } else { some };
    Node { inside: node.inside | option, outside: node.outside | makers & !option }
}

fn mixed(sum: u64, more: u64) -> u64 {
    sum.wrapping_mul(31).wrapping_add(more)
}

fn folded(bits: u128) -> u64 {
    (bits >> 64) as u64 ^ bits as u64
}

fn summed(sum: u64, found: &(Node, Vec<Step>, Stop)) -> u64 {
    let end = match found.2 {
        Stop::Decided => 1000,
        Stop::Dead(x) => x as u64,
        Stop::Clash(k) => 2000 + k as u64,
        Stop::Branch(x) => 3000 + x as u64,
    };
    let sum = mixed(mixed(sum, folded(found.0.inside)), folded(found.0.outside));
    mixed(mixed(sum, found.1.len() as u64), end)
}

fn main() {
    for units in [30, 60, 128] {
        for number in 0..100 {
            let g = graph_of(number, units);
            let mut node = Node { inside: 0, outside: 0 };
            let mut state = drawn(number);
            for _ in 0..128 {
                let start = Instant::now();
                let mut sum = 0;
                for _ in 0..200 {
                    sum = summed(sum, &std::hint::black_box(&g).extend(std::hint::black_box(node)));
                }
                println!("{units} {} {sum}", start.elapsed().as_nanos());
                let found = g.extend(node);
                let Stop::Branch(x) = found.2 else { break };
                node = child(&g, found.0, x as usize, state);
                state = drawn(drawn(state));
            }
        }
    }
}
