use std::collections::HashMap;
use std::fs::File;
use std::io::{BufWriter, Write};
use std::os::fd::AsFd;

/// A set of materials.
#[derive(Clone, Copy)]
struct Materials([u64; 4]);

impl Materials {
    fn has(&self, x: usize) -> bool {
        self.0[x / 64] >> (x % 64) & 1 == 1
    }

    fn add(&mut self, x: usize) {
        self.0[x / 64] |= 1 << (x % 64);
    }

    fn unite(&mut self, other: &Materials) {
        for (word, more) in self.0.iter_mut().zip(other.0) {
            *word |= more;
        }
    }

    /// The least material that is not in the other set.
    fn first_without(&self, other: &Materials) -> Option<usize> {
        let mut pairs = self.0.iter().zip(other.0).enumerate();
        pairs.find_map(|(i, (word, less))| match word & !less {
            0 => None,
            left => Some(64 * i + left.trailing_zeros() as usize),
        })
    }
}

/// A problem without exclusions. A set of units is a mask.
struct Graph {
    names: Vec<String>,
    raw: Vec<bool>,
    products: Materials,
    inputs: Vec<Vec<usize>>,
    outputs: Vec<Vec<usize>>,
    needs: Vec<Materials>,
    makers: Vec<u128>,
    users: Vec<u128>,
}

fn read(text: &str) -> Graph {
    let none = Materials([0; 4]);
    let mut g = Graph {
        names: vec![],
        raw: vec![],
        products: none,
        inputs: vec![],
        outputs: vec![],
        needs: vec![],
        makers: vec![],
        users: vec![],
    };
    let mut numbers = HashMap::new();
    let mut section = "";
    for line in text.lines() {
        let Some((name, rest)) = line.split_once(':') else { continue };
        if rest.is_empty() {
            section = name;
        } else if section == "materials" {
            let x = numbers.len();
            numbers.insert(name, x);
            g.raw.push(rest.trim().starts_with("raw_material"));
            if rest.trim().starts_with("product") {
                g.products.add(x);
            }
            g.makers.push(0);
            g.users.push(0);
        } else if section == "material_to_operating_unit_flow_rates" {
            let u = g.names.len();
            g.names.push(name.to_string());
            let (from, to) = rest.split_once("=>").unwrap();
            let name = |term: &str| numbers[term.split_whitespace().last().unwrap()];
            let side = |side: &str| -> Vec<usize> { side.split('+').map(name).collect() };
            let (from, to) = (side(from), side(to));
            let mut needs = none;
            for &x in &from {
                g.users[x] |= 1 << u;
                if !g.raw[x] {
                    needs.add(x);
                }
            }
            for &x in &to {
                g.makers[x] |= 1 << u;
            }
            g.inputs.push(from);
            g.outputs.push(to);
            g.needs.push(needs);
        }
    }
    g
}

impl Graph {
    /// The units of the maximal structure, none if there is no structure.
    fn maximal(&self) -> Option<u128> {
        let materials = self.raw.len();
        let mut left = !0u128 >> (128 - self.names.len());
        loop {
            let before = left;
            for x in 0..materials {
                if self.raw[x] {
                    left &= !self.makers[x];
                } else if left & self.makers[x] == 0 {
                    left &= !self.users[x];
                }
            }
            if left == before {
                break;
            }
        }
        let mut reaching = 0u128;
        let mut wanted: Vec<usize> = (0..materials).filter(|&x| self.products.has(x)).collect();
        let mut seen = self.products;
        while let Some(x) = wanted.pop() {
            let mut new = left & self.makers[x] & !reaching;
            reaching |= new;
            while new != 0 {
                for &y in &self.inputs[new.trailing_zeros() as usize] {
                    if !seen.has(y) {
                        seen.add(y);
                        wanted.push(y);
                    }
                }
                new &= new - 1;
            }
        }
        let made = (0..materials).all(|x| !self.products.has(x) || reaching & self.makers[x] != 0);
        made.then_some(reaching)
    }
}

/// A family of structures: those within `kept` that have the units `inside`.
#[derive(Clone, Copy)]
struct Position {
    inside: u128,
    kept: u128,
    wanted: Materials,
    done: Materials,
    at: Option<usize>,
}

/// The structures that are still to come, by the turns at which a unit was left out.
struct Search<'a> {
    graph: &'a Graph,
    stack: Vec<Position>,
    waiting: Vec<usize>,
}

impl<'a> Search<'a> {
    fn new(graph: &'a Graph) -> Search<'a> {
        let none = Materials([0; 4]);
        let at = graph.products.first_without(&none);
        let start = |kept| Position { inside: 0, kept, wanted: graph.products, done: none, at };
        Search { graph, stack: graph.maximal().map(start).into_iter().collect(), waiting: vec![] }
    }

    /// What can be kept without the unit, none if a wanted material loses its last maker.
    fn left_out(&mut self, position: &Position, unit: usize) -> Option<u128> {
        let g = self.graph;
        let mut kept = position.kept & !(1 << unit);
        self.waiting.clear();
        self.waiting.extend_from_slice(&g.outputs[unit]);
        while let Some(x) = self.waiting.pop() {
            if kept & g.makers[x] == 0 {
                if position.wanted.has(x) {
                    return None;
                }
                let mut gone = kept & g.users[x];
                kept &= !gone;
                while gone != 0 {
                    self.waiting.extend_from_slice(&g.outputs[gone.trailing_zeros() as usize]);
                    gone &= gone - 1;
                }
            }
        }
        Some(kept)
    }
}

impl Iterator for Search<'_> {
    type Item = u128;

    fn next(&mut self) -> Option<u128> {
        let g = self.graph;
        let mut here = self.stack.pop()?;
        while let Some(x) = here.at {
            let free = g.makers[x] & here.kept & !here.inside;
            if free == 0 {
                here.done.add(x);
                here.at = here.wanted.first_without(&here.done);
                continue;
            }
            let unit = 127 - free.leading_zeros() as usize;
            let left = self.left_out(&here, unit);
            let mut taken = here;
            taken.inside |= 1 << unit;
            taken.wanted.unite(&g.needs[unit]);
            match left {
                Some(kept) => {
                    self.stack.push(taken);
                    here.kept = kept;
                }
                None => here = taken,
            }
        }
        Some(here.inside)
    }
}

fn push_token(line: &mut Vec<u8>, set: u128) {
    let mut token = [0; 32];
    for (digit, place) in token.iter_mut().rev().zip(0..) {
        *digit = b"0123456789abcdef"[(set >> (4 * place) & 15) as usize];
    }
    line.extend_from_slice(&token);
}

fn main() -> std::io::Result<()> {
    let words: Vec<String> = std::env::args().collect();
    let text = std::fs::read_to_string(&words[1])?;
    let count: usize = words[2].parse().unwrap();
    let graph = read(&text);
    let (mut names, mut places) = (vec![], vec![]);
    for name in &graph.names {
        let start = names.len();
        names.push(b' ');
        names.extend_from_slice(name.as_bytes());
        places.push((start, names.len()));
    }
    let output = std::io::stdout().as_fd().try_clone_to_owned()?;
    let mut out = BufWriter::with_capacity(8192, File::from(output));
    let mut search = Search::new(&graph);
    let mut line = Vec::new();
    let mut last = 0;
    for set in search.by_ref().take(count) {
        line.clear();
        push_token(&mut line, set);
        let mut left = set;
        while left != 0 {
            let (start, end) = places[left.trailing_zeros() as usize];
            line.extend_from_slice(&names[start..end]);
            left &= left - 1;
        }
        line.push(b'\n');
        out.write_all(&line)?;
        last = set;
    }
    match search.next() {
        Some(_) => writeln!(out, "more {last:032x}")?,
        None => writeln!(out, "end")?,
    }
    out.flush()
}
