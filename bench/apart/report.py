#!/usr/bin/env python3
"""What `pns report FILE TREE` prints of a claim that is not refused, written apart from pns, out of
fractions alone.

    bench/apart/report.py FILE TREE [FLOWS]   prints the text
    bench/apart/report.py [PNS]               solves each plant of cases/ by the program PNS, else
                                              by crates/pns/out/pns, and compares its reports with
                                              these texts

FLOWS is what `pns flows FILE UNITS` prints for the units of the network. Marginals come from its
multipliers, once their bound is found to be its cost; without it they are `-`.

A number of which a part leaves 127 bits is the word `past`, and so is each sum over it. The nodes
of a tree are taken for right: what it proves is judged by its open leaves alone. Nothing here is
part of the gate."""
import glob
import os
import re
import sys
from fractions import Fraction as F
from math import gcd

sys.dont_write_bytecode = True
sys.path.insert(0, os.path.dirname(os.path.abspath(__file__)))
from asked import TOP, program_from  # noqa: E402
from plants import Plant, text_in  # noqa: E402

PAST = None
MOST = 1 << 127


def kept(x):
    return x if abs(x.numerator) < MOST and x.denominator < MOST else PAST


def mul(x, y):
    return PAST if x is PAST or y is PAST else kept(x * y)


def add(x, y):
    if x is PAST or y is PAST:
        return PAST
    g = gcd(x.denominator, y.denominator)
    p, q = x.denominator // g, y.denominator // g
    steps = (x.numerator * q, y.numerator * p, x.numerator * q + y.numerator * p, p * y.denominator)
    return x + y if all(abs(s) < MOST for s in steps) else PAST


def total(xs):
    s = F(0)
    for x in xs:
        s = add(s, x)
    return s


def half_up(x):
    return (2 * abs(x.numerator) + x.denominator) // (2 * x.denominator)


def places(x):
    whole = abs(x.numerator) // x.denominator
    return max(0, 6 - (len(str(whole)) if whole else 0))


def six(x, down=False):
    k = places(x)
    n = abs((x * 10**k).__floor__()) if down else half_up(abs(x) * 10**k)
    whole, rest = divmod(n, 10**k)
    return (
        ("-" if x < 0 and n else "")
        + str(whole)
        + ("." + str(rest).rjust(k, "0").rstrip("0") if rest else "")
    )


def cell(x):
    return "past" if x is PAST or mul(x, F(2 * 10 ** places(x))) is PAST else six(x)


def share(x):
    if x is PAST or mul(x, F(2000)) is PAST:
        return "past"
    n = half_up(x * 1000)
    return "%d.%d" % divmod(n, 10)


def read_plant(path):
    """The materials, the units and the payout period of a plant."""
    plant = Plant(text_in(path), None)
    return plant.materials, plant.units, int(plant.payout)


def read_measures(path):
    """The units of money, of what flows and of time that a plant names, for headings."""
    named, counts = {}, True
    for line in open(path, encoding="latin-1").read().split("\n")[1:]:
        line = line.strip()
        if re.fullmatch(r"[A-Za-z_]+\s*:", line):
            counts = line[:-1].strip() == "measurement_units"
        elif counts and "=" in line and not line.startswith("#"):
            key, value = (part.strip() for part in line.split("=", 1))
            named.setdefault(key, value)
    is_measure = lambda text: re.fullmatch(r"[ -~]{1,32}", text)
    texts = [named.get(key, "") for key in ("money_unit", "mass_unit", "time_unit")]
    return [text if is_measure(text) else "" for text in texts]


def headings(words, measure):
    return [f"{word} [{measure}]" if measure else word for word in words.split()]


def read_claim(path):
    lines = open(path, encoding="utf-8").read().split("\n")
    names = lines[1].split()[1:]
    d, *z = (int(w) for w in lines[2].split()[1:])
    return names, [F(x, d) for x in z], d, int(lines[3].split()[1])


def limit(low, high, x, idle):
    return (
        "UNBOUNDED?"
        if x == 10**9
        else "fixed"
        if low == high
        else "max"
        if x == high
        else "min"
        if x == low != 0
        else "idle"
        if idle
        else "-"
    )


def front(text):
    return text.split(".")[0]


def table(sorts, rows):
    out = [[] for _ in rows]
    for k, sort in enumerate(sorts):
        column = [r[k] for r in rows]
        if sort != "S" and all(set(c) <= set("0-.") for c in column[1:]):
            continue
        if sort == "L":
            width = max(map(len, column))
            cells = [c.ljust(width) for c in column]
        else:
            a = max(len(front(c)) for c in column[1:])
            b = max(len(c) - len(front(c)) for c in column[1:])
            width = max(len(column[0]), a + b)
            cells = [column[0].rjust(width)] + [
                (front(c).rjust(a) + c[len(front(c)) :].ljust(b)).rjust(width) for c in column[1:]
            ]
        for line, c in zip(out, cells):
            line.append(c)
    return ["  ".join(line).rstrip(" ") for line in out]


def leaves_of(kind, units, lines):
    """The leaves of this kind of the nodes of a tree: number, units inside and outside, numbers."""
    waiting, found, number = [(set(), set(), set())], [], -1
    for line in lines:
        word, *rest = line.split(" ")
        if word == "node":
            within, without, decided = waiting.pop()
            inside, outside = within | set(rest), without | decided - set(rest)
            number += 1
        elif word in ("raw", "rival", "loose"):
            outside |= set(rest)
        elif word == "starve":
            outside |= {u for u in units if rest[0] in units[u].inputs}
        elif word == "sole":
            inside.add(rest[1])
        elif word == "branch":
            makers = {u for u in units if rest[0] in units[u].outputs}
            waiting += [(inside, outside, makers)] * int(rest[1])
        elif word == "either":
            waiting += [(inside, outside, {rest[0]})] * 2
        elif word == kind:
            found.append((number, inside, outside, [int(y) for y in rest]))
    return found


def bound(mats, units, years, leaf):
    """The bound of a leaf over its scale, in money for one year."""
    _, inside, outside, (d, *ys) = leaf
    left = [u for u in units if u not in outside]
    touches = lambda u, m: m in units[u].inputs or m in units[u].outputs
    rows = [m for m in mats if any(touches(u, m) for u in left)]
    rate = lambda u, m: units[u].outputs.get(m, F(0)) - units[u].inputs.get(m, F(0))
    e6 = 10**6
    sum_ = F(0)
    for m, y in zip(rows, ys):
        it = mats[m]
        is_there = it.kind == "product" or any(touches(u, m) for u in inside)
        low = it.bounds[0] if is_there else F(0)
        ends = (low, it.bounds[1])
        if it.kind == "raw_material":
            ends = (-ends[1], -ends[0])
        sum_ += min(y * end * 10**12 for end in ends)
    for u in left:
        it = units[u]
        fix = (it.fixed * years + it.built) * e6
        paid = (it.proportional * years + it.built_size) * 10**12
        paid -= sum(mats[m].price * years * e6 * rate(u, m) * e6 for m in mats)
        least, most = it.least * e6, it.most * e6
        if u in inside:
            sum_ += d * fix * 10**12
        else:
            paid += (fix * e6 // most if most else 0) * e6
            least = F(0)
        reduced = d * paid - sum(y * rate(u, m) * e6 for m, y in zip(rows, ys))
        sum_ += min(reduced * least, reduced * most)
    return sum_ / (10**18 * d * years)


def marginals_of(file, names, flows):
    """What one more of each material costs and one more of each unit's size saves, by the
    multipliers of the text `flows`; none without a bound."""
    mats, units, years = read_plant(file)
    lines = {words[0]: words[1:] for words in map(str.split, flows.split("\n")) if words}
    if "bound" not in lines:
        return None
    d, *ys = (int(word) for word in lines["bound"])
    sizes, cost = int(lines["sizes"][0]), int(lines["cost"][0])
    least = F(cost, 10**18 * sizes * years)
    leaf = (0, set(names), set(units) - set(names), [d, *ys])
    assert lines["network"] == names and bound(mats, units, years, leaf) == least, file
    used = [j for j in mats if any(j in units[n].inputs or j in units[n].outputs for n in names)]
    more = {j: mul(F(y, d), F(1, 10**6 * years)) for j, y in zip(used, ys)}
    worth = {j: add(mats[j].price, more[j]) for j in used}
    for n in names:
        it = units[n]
        rate = {j: it.outputs.get(j, F(0)) - it.inputs.get(j, F(0)) for j in used}
        made = total(mul(worth[j], rate[j]) if rate[j] else F(0) for j in used)
        once = mul(-it.built_size, F(1, years))
        more[n, "unit"] = add(made, add(-it.proportional, once))
    return more


def lower_bound(mats, units, years, lines, best):
    """The lower bound of a tree, if it is known; best is the cost of its claim, if it has one."""
    found = leaves_of("open", units, lines)
    if any(not leaf[3] for leaf in found):
        return None
    costs = [bound(mats, units, years, leaf) for leaf in found]
    costs += [] if best is None else [best]
    return min(costs, default=None)


def gap_above(low, best):
    """How far a cost that is not 0 is above a lower bound, over its size."""
    return add(F(1 if best > 0 else -1), mul(low, -1 / abs(best)))


def behind(mats, units, years, lines, best):
    """What the first line says of the lower bound, and of the gap to the best network so far."""
    low = lower_bound(mats, units, years, lines, best)
    if low is None:
        return ""
    words = ", no network costs less than " + six(low, down=True)
    if not best:
        return words
    gap = mul(gap_above(low, best), F(1000))
    return words if gap is PAST else words + " (gap %d.%d %%)" % divmod(-(-gap).__floor__(), 10)


def clashes(mats, units, lines):
    """The bounds that clash, of a tree without a network."""
    found = leaves_of("refuted", units, lines)
    shown = found[:10]
    out = [f"Bounds that clash, at {len(shown)} of {len(found)} refuted leaves:"] if found else []
    touches = lambda u, m: m in units[u].inputs or m in units[u].outputs
    for number, inside, outside, ys in shown:
        names = [" ".join(u for u in units if u in some) or "none" for some in (inside, outside)]
        out += ["", f"node {number}; inside: {names[0]}; outside: {names[1]}"]
        left = [u for u in units if u not in outside]
        rows = [m for m in mats if any(touches(u, m) for u in left)]
        weight = dict(zip(rows, ys))
        for m, y in weight.items():
            it = mats[m]
            is_there = it.kind == "product" or any(touches(u, m) for u in inside)
            low = it.bounds[0] if is_there else F(0)
            is_low = (y < 0) == (it.kind == "raw_material")
            words = f"least {six(low)}" if is_low else f"most {six(it.bounds[1])}"
            out += [f"  {m}: at {words}"] if y else []
        for u in left:
            it = units[u]
            paid = sum(y * (it.outputs.get(m, 0) - it.inputs.get(m, 0)) for m, y in weight.items())
            low = it.least if u in inside else F(0)
            if paid > 0:
                out.append(f"  {u}: size at most {six(it.most)}")
            elif paid < 0 and low != 0:
                out.append(f"  {u}: size at least {six(low)}")
    return out


def report(file, tree, flows=""):
    mats, units, years = read_plant(file)
    lines = open(tree, encoding="utf-8").read().split("\n")
    is_open = any(line == "open" or line.startswith("open ") for line in lines[1:])
    if not lines[1].startswith("network"):
        if lines[1] != "infeasible" or is_open:
            words = behind(mats, units, years, lines[2:], None)
            return f"NOT FINISHED: no network found so far{words}\n"
        first = "PROVED: no network meets the bounds"
        return "\n".join([first, *clashes(mats, units, lines[2:])]) + "\n"
    names, sizes, d, cost = read_claim(tree)
    size = {n: z for n, z in zip(names, sizes)}  # in millionths
    used = [j for j in mats if any(j in units[n].inputs or j in units[n].outputs for n in names)]
    e6 = F(1, 10**6)
    fixed = {n: units[n].fixed for n in names}
    prop = {n: mul(size[n], units[n].proportional * e6) for n in names}
    once = {
        n: add(
            units[n].built,
            mul(size[n], units[n].built_size * e6),
        )
        for n in names
    }
    year = {n: mul(once[n], F(1, years)) for n in names}
    sums = {n: add(add(fixed[n], prop[n]), year[n]) for n in names}
    more = marginals_of(file, names, flows)
    marginal = lambda key: "-" if more is None else cell(more[key])
    money_unit, mass_unit, time_unit = read_measures(file)
    price_unit = "/".join(filter(None, [money_unit, mass_unit])) if money_unit else ""
    time = f"1 {time_unit}" if time_unit else "one year"
    rows = [["unit", "size", "share %", "limit"]]
    rows[0] += headings("fixed proportional investment total marginal", money_unit)
    for n in names:
        low, high = units[n].least, units[n].most
        rows.append(
            [
                n,
                cell(mul(size[n], e6)),
                share(mul(size[n], 1 / (high * 10**6))) if high not in (0, 10**9) else "-",
                limit(low, high, size[n] * e6, size[n] == 0),
                cell(fixed[n]),
                cell(prop[n]),
                cell(year[n]),
                cell(sums[n]),
                marginal((n, "unit")),
            ]
        )
    all_of = lambda numbers: total(numbers[n] for n in names)
    rows.append(
        [
            "all units",
            "",
            "",
            "",
            cell(all_of(fixed)),
            cell(all_of(prop)),
            cell(all_of(year)),
            cell(all_of(sums)),
            "",
        ]
    )
    goods = [["material", "kind", *headings("made used net", mass_unit), "limit"]]
    goods[0] += headings("price", price_unit) + headings("cost", money_unit)
    goods[0] += headings("marginal", price_unit)
    costs = {}
    for j in used:
        m = mats[j]
        net = sum(
            (units[n].outputs.get(j, F(0)) - units[n].inputs.get(j, F(0))) * size[n] for n in names
        )
        costs[j] = mul(net, -m.price * e6)
        x = (-net if m.kind == "raw_material" else net) * e6
        goods.append(
            [
                j,
                m.kind,
                cell(total(mul(size[n], units[n].outputs.get(j, F(0)) * e6) for n in names)),
                cell(total(mul(size[n], units[n].inputs.get(j, F(0)) * e6) for n in names)),
                cell(mul(net, e6)),
                limit(m.bounds[0], m.bounds[1], x, False),
                cell(m.price),
                cell(costs[j]),
                marginal(j),
            ]
        )
    part = lambda test: total(c if c is PAST or test(c) else F(0) for c in costs.values())
    goods.append(["all materials", "", "", "", "", "", "", cell(part(lambda c: True)), ""])
    money = [
        [f"in {time}", *headings("money", money_unit)],
        ["fixed costs", cell(all_of(fixed))],
        ["proportional costs", cell(all_of(prop))],
        ["investment costs", cell(all_of(year))],
        ["material costs", cell(part(lambda c: c > 0))],
        ["material incomes", cell(part(lambda c: c < 0))],
        ["total (an income)" if cost < 0 else "total (a cost)", six(F(cost, 10**18 * d * years))],
    ]
    best = F(cost, 10**18 * d * years)
    left = [n for n in units if n not in size]
    return "\n".join(
        [
            f"NOT FINISHED: best so far {six(best)}{behind(mats, units, years, lines, best)}"
            if is_open
            else f"PROVED: this network costs {six(best)}, and no allowed network costs less",
            "Rounded to 6 digits where needed; exact numbers: pns json",
            "Claimed network: %d of %d units, %d of %d materials, payout period %d"
            % (len(names), len(units), len(used), len(mats), years),
            f"Money is for {time}: costs are above 0, incomes below.",
            "",
        ]
        + table("LNNLNNNNN", rows)
        + [""]
        + table("LLNNNLNNN", goods)
        + [""]
        + table("LS", money)
        + [
            "",
            "Investment, paid once: " + cell(all_of(once)),
            "Units left out: " + (" ".join(left) or "none"),
            "",
        ]
    )


def flows_for(program, plant, tree):
    """What the program prints of the flows of the units of the claim's network."""
    line = open(tree, encoding="utf-8").read().split("\n")[1].split()
    if line[0] != "network":
        return ""
    return program.call("flows", plant, ",".join(line[1:]))[1]


def plants_compared():
    """The plants of cases/ and the shipped one."""
    return sorted(glob.glob(TOP + "/cases/*/plant.pns")) + [TOP + "/crates/pns/data/a.pns"]


def compare(program):
    same = 0
    for plant in plants_compared():
        tree = program.file("tree", program.call("solve", plant, "10000")[1])
        status, text = program.call("report", plant, tree)
        if status != 0 or text != report(plant, tree, flows_for(program, plant, tree)):
            print(f"{plant}: another text, status {status}")
            return 1
        same += 1
    print(f"{same} reports agree")
    return 0


if __name__ == "__main__":
    if len(sys.argv) < 3:
        sys.exit(compare(program_from(sys.argv[1:], "report.py")))
    given = open(sys.argv[3], encoding="utf-8").read() if len(sys.argv) > 3 else ""
    sys.stdout.write(report(sys.argv[1], sys.argv[2], given))
