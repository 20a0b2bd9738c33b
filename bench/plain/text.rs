use std::collections::{HashMap, HashSet};

type Fault = (usize, &'static str);
#[derive(Clone, Copy, PartialEq)]
enum Section {
    Front,
    Units,
    Defaults,
    Materials,
    OperatingUnits,
    Rates,
    Exclusions,
}
struct Unit<'a> {
    name: &'a str,
    values: [i64; 6],
    inputs: Vec<(usize, i64)>,
    outputs: Vec<(usize, i64)>,
}
struct Rates<'a> {
    line: usize,
    name: &'a str,
    sides: [Vec<(&'a str, i64)>; 2],
}

const MATERIAL_KEYS: [&str; 3] = ["price", "flow_rate_lower_bound", "flow_rate_upper_bound"];
const UNIT_KEYS: [&str; 6] = [
    "capacity_lower_bound",
    "capacity_upper_bound",
    "fix_cost",
    "proportional_cost",
    "investment_fix_cost",
    "investment_proportional_cost",
];

fn trim(s: &str) -> &str {
    s.trim_matches(|c| c == ' ' || c == '\t')
}
fn is_name(s: &str) -> bool {
    let b = s.as_bytes();
    !b.is_empty()
        && b.len() <= 64
        && (b[0].is_ascii_alphabetic() || b[0] == b'_')
        && b.iter().all(|c| c.is_ascii_alphanumeric() || matches!(c, b'_' | b'-' | b'.'))
}
fn amount(text: &str) -> Result<i64, &'static str> {
    let b = text.as_bytes();
    let (minus, b) = match b.first() {
        Some(b'-') => (true, &b[1..]),
        Some(b'+') => (false, &b[1..]),
        _ => (false, b),
    };
    let (mut n, mut digits, mut places, mut point, mut i) = (0u128, 0, 0i32, false, 0);
    while i < b.len() {
        match b[i] {
            c @ b'0'..=b'9' => {
                n = n * 10 + (c - b'0') as u128;
                digits += 1;
                if digits > 30 {
                    return Err("BadNumber");
                }
                if point {
                    places += 1;
                }
            }
            b'.' if !point => point = true,
            b'e' | b'E' => break,
            _ => return Err("BadNumber"),
        }
        i += 1;
    }
    if digits == 0 {
        return Err("BadNumber");
    }
    let mut exponent = 0i32;
    if i < b.len() {
        let rest = &b[i + 1..];
        let (down, rest) = match rest.first() {
            Some(b'-') => (true, &rest[1..]),
            Some(b'+') => (false, &rest[1..]),
            _ => (false, rest),
        };
        if rest.is_empty() || rest.len() > 3 || !rest.iter().all(u8::is_ascii_digit) {
            return Err("BadNumber");
        }
        for c in rest {
            exponent = exponent * 10 + (c - b'0') as i32;
        }
        if down {
            exponent = -exponent;
        }
    }
    let mut tens = 6 + exponent - places;
    while tens < 0 && n != 0 {
        if n % 10 != 0 {
            return Err("TooFine");
        }
        n /= 10;
        tens += 1;
    }
    while tens > 0 && n != 0 {
        if n > 1_000_000_000_000_000 {
            return Err("TooLarge");
        }
        n *= 10;
        tens -= 1;
    }
    if n > 1_000_000_000_000_000 {
        return Err("TooLarge");
    }
    Ok(if minus { -(n as i64) } else { n as i64 })
}
fn bound(text: &str, may_be_negative: bool) -> Result<i64, &'static str> {
    let n = amount(text)?;
    if n < 0 && !may_be_negative {
        Err("Negative")
    } else {
        Ok(n)
    }
}
fn items<'a>(
    tail: &'a str,
    keys: &[&str],
    kinds: bool,
    out: &mut [Option<i64>],
    kind: &mut Option<&'a str>,
) -> Result<(), &'static str> {
    for item in tail.split(',') {
        let item = trim(item);
        if item.is_empty() {
            return Err("BadLine");
        }
        match item.split_once('=') {
            None if kinds && matches!(item, "raw_material" | "intermediate" | "product") => {
                if kind.replace(item).is_some() {
                    return Err("DoubleKey");
                }
            }
            None => return Err(if kinds { "UnknownKind" } else { "BadLine" }),
            Some((key, value)) => {
                let at = keys.iter().position(|k| *k == trim(key)).ok_or("UnknownKey")?;
                if out[at].is_some() {
                    return Err("DoubleKey");
                }
                out[at] = Some(bound(
                    trim(value),
                    trim(key).ends_with("price") || trim(key).ends_with("proportional_cost"),
                )?);
            }
        }
    }
    Ok(())
}
fn side<'a>(tokens: &[&'a str]) -> Result<Vec<(&'a str, i64)>, &'static str> {
    if tokens.is_empty() {
        return Err("EmptySide");
    }
    let (mut terms, mut seen) = (Vec::new(), HashSet::new());
    for term in tokens.split(|t| *t == "+") {
        let (rate, name) = match term {
            [name] => (1_000_000, *name),
            [rate, name] => (amount(rate)?, *name),
            _ => return Err("BadLine"),
        };
        if !is_name(name) {
            return Err("BadName");
        }
        if rate < 0 {
            return Err("Negative");
        }
        if rate == 0 {
            return Err("ZeroRate");
        }
        if !seen.insert(name) {
            return Err("DoubleTerm");
        }
        terms.push((name, rate));
    }
    Ok(terms)
}
fn read(bytes: &[u8]) -> Result<(usize, usize), Fault> {
    let bytes = bytes.strip_prefix(b"\xef\xbb\xbf").unwrap_or(bytes);
    let text = std::str::from_utf8(bytes).map_err(|_| (1, "FileType"))?;
    let (mut section, mut headers) = (Section::Front, HashSet::new());
    let (mut material_names, mut unit_names, mut rate_names) =
        (HashMap::new(), HashMap::new(), HashMap::new());
    let mut materials: Vec<([Option<i64>; 3], Option<&str>, usize)> = Vec::new();
    let mut units: Vec<(&str, [Option<i64>; 6], usize)> = Vec::new();
    let (mut rates, mut exclusions, mut exclusion_names): (Vec<Rates>, Vec<(usize, Vec<&str>)>, _) =
        (Vec::new(), Vec::new(), HashSet::new());
    let mut defaults: HashMap<&str, &str> = HashMap::new();
    let mut count = 0;
    for (i, line) in text.lines().enumerate() {
        count = i + 1;
        let line = trim(line.strip_suffix('\r').unwrap_or(line));
        if i == 0 {
            if line != "file_type=PNS_problem_v1" {
                return Err((1, "FileType"));
            }
            continue;
        }
        if line.is_empty() || line.starts_with('#') {
            continue;
        }
        let at = |kind| (count, kind);
        let parts = line.split_once(':').map(|(a, b)| (trim(a), trim(b)));
        if let Some((name, "")) = parts {
            if is_name(name) {
                section = match name {
                    "measurement_units" => Section::Units,
                    "defaults" => Section::Defaults,
                    "materials" => Section::Materials,
                    "operating_units" => Section::OperatingUnits,
                    "material_to_operating_unit_flow_rates" => Section::Rates,
                    "mutual_exclusions" => Section::Exclusions,
                    _ => return Err(at("UnknownSection")),
                };
                if !headers.insert(name) {
                    return Err(at("DoubleSection"));
                }
                continue;
            }
        }
        match section {
            Section::Front | Section::Units => {
                if !line.contains('=') {
                    return Err(at("BadLine"));
                }
            }
            Section::Defaults => {
                let (k, v) = line.split_once('=').ok_or(at("BadLine"))?;
                if defaults.insert(trim(k), trim(v)).is_some() {
                    return Err(at("DoubleKey"));
                }
            }
            Section::Materials => {
                let (name, tail) = parts.map_or((line, None), |(a, b)| (a, Some(b)));
                if !is_name(name) {
                    return Err(at("BadName"));
                }
                let (mut values, mut kind) = ([None; 3], None);
                if let Some(tail) = tail {
                    items(tail, &MATERIAL_KEYS, true, &mut values, &mut kind).map_err(at)?;
                }
                if material_names.insert(name, materials.len()).is_some() {
                    return Err(at("DoubleMaterial"));
                }
                if materials.len() == 256 {
                    return Err(at("TooMany"));
                }
                materials.push((values, kind, count));
            }
            Section::OperatingUnits => {
                let (name, tail) = parts.map_or((line, None), |(a, b)| (a, Some(b)));
                if !is_name(name) {
                    return Err(at("BadName"));
                }
                let (mut values, mut kind) = ([None; 6], None);
                if let Some(tail) = tail {
                    items(tail, &UNIT_KEYS, false, &mut values, &mut kind).map_err(at)?;
                }
                if unit_names.insert(name, units.len()).is_some() {
                    return Err(at("DoubleUnit"));
                }
                units.push((name, values, count));
            }
            Section::Rates => {
                let (name, tail) = parts.ok_or(at("BadLine"))?;
                if !is_name(name) {
                    return Err(at("BadName"));
                }
                let tokens: Vec<&str> = tail.split([' ', '\t']).filter(|t| !t.is_empty()).collect();
                let mut sides = tokens.split(|t| *t == "=>");
                let (Some(left), Some(right), None) = (sides.next(), sides.next(), sides.next())
                else {
                    return Err(at("BadLine"));
                };
                let (left, right) = (side(left).map_err(at)?, side(right).map_err(at)?);
                let names: HashSet<&str> = left.iter().map(|t| t.0).collect();
                if right.iter().any(|t| names.contains(t.0)) {
                    return Err(at("BothSides"));
                }
                if rate_names.insert(name, rates.len()).is_some() {
                    return Err(at("DoubleRates"));
                }
                rates.push(Rates { line: count, name, sides: [left, right] });
            }
            Section::Exclusions => {
                let (name, tail) = parts.ok_or(at("BadLine"))?;
                let members: Vec<&str> = tail.split(',').map(trim).collect();
                if !is_name(name) || !members.iter().all(|m| is_name(m)) {
                    return Err(at("BadName"));
                }
                if !exclusion_names.insert(name) {
                    return Err(at("DoubleExclusion"));
                }
                if members.len() < 2 {
                    return Err(at("FewMembers"));
                }
                exclusions.push((count, members));
            }
        }
    }
    if count == 0 {
        return Err((1, "FileType"));
    }
    let default = |key: &str, or: i64| defaults.get(key).and_then(|v| amount(v).ok()).unwrap_or(or);
    let (low, high) = (
        default("material_flow_rate_lower_bound", 0),
        default("material_flow_rate_upper_bound", 1_000_000_000_000_000),
    );
    let mut products = 0;
    for (values, kind, line) in &materials {
        if values[1].unwrap_or(low) > values[2].unwrap_or(high) {
            return Err((*line, "LowAboveHigh"));
        }
        if kind.or(defaults.get("material_type").copied()) == Some("product") {
            products += 1;
        }
    }
    let mut built: Vec<Unit> = Vec::new();
    let (low, high) = (
        default("operating_unit_capacity_lower_bound", 0),
        default("operating_unit_capacity_upper_bound", 1_000_000_000_000_000),
    );
    for r in &rates {
        if !unit_names.contains_key(r.name) {
            unit_names.insert(r.name, units.len());
            units.push((r.name, [None; 6], r.line));
        }
    }
    for (name, values, line) in &units {
        let filled = [
            values[0].unwrap_or(low),
            values[1].unwrap_or(high),
            values[2].unwrap_or(0),
            values[3].unwrap_or(0),
            values[4].unwrap_or(0),
            values[5].unwrap_or(0),
        ];
        if filled[0] > filled[1] {
            return Err((*line, "LowAboveHigh"));
        }
        let r = &rates[*rate_names.get(name).ok_or((*line, "NoRates"))?];
        let numbered = |side: &Vec<(&str, i64)>| {
            side.iter()
                .map(|(n, q)| {
                    material_names.get(n).map(|k| (*k, *q)).ok_or((r.line, "UnknownMaterial"))
                })
                .collect::<Result<Vec<_>, Fault>>()
        };
        built.push(Unit {
            name,
            values: filled,
            inputs: numbered(&r.sides[0])?,
            outputs: numbered(&r.sides[1])?,
        });
    }
    for (line, members) in &exclusions {
        if members.iter().any(|m| !unit_names.contains_key(m)) {
            return Err((*line, "UnknownUnit"));
        }
    }
    if products == 0 {
        return Err((count + 1, "NoProduct"));
    }
    let sum: i64 = built
        .iter()
        .map(|u| {
            u.values[1]
                + u.name.len() as i64
                + u.inputs.iter().chain(&u.outputs).map(|t| t.0 as i64 + t.1).sum::<i64>()
        })
        .fold(0, i64::wrapping_add);
    std::hint::black_box(sum);
    Ok((materials.len(), built.len()))
}
fn main() {
    let name = std::env::args().nth(1).unwrap();
    println!("{:?}", read(&std::fs::read(name).unwrap()));
}
