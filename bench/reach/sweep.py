"""Compares what extras/pns-sweep prints with costs that are found value by value.

    bench/reach/run sweep [PROGRAM]

PROGRAM is crates/pns/out/pns if none is named; without it this says so and ends with status 0.
Each curve is swept. Then the number is written into the text of the plant itself, without
`pns edit`, at COUNT values at equal steps, and at both ends of each piece with a millionth below
and above. `pns solve` gives the cost there, over its sizes and the payout period, and the curve has
to have the same one: equal fractions, on each of its pieces that holds there. The pieces have to
follow each other without a gap, and their slopes have to fall. Over a bound the points of the sweep
are compared in the same way, COUNT of them. One line for each sweep, with the ends of its pieces;
then how many values there were, and how many differ. The status is 1 if one does. Nothing here
is part of the gate.
"""
import csv
import os
import re
import subprocess
import sys
import tempfile
from fractions import Fraction

from shared import PROGRAM, TOP, is_there, written as put

STEP, COUNT = Fraction(1, 10**6), 20

# the plant, the kind, the name, FROM and TO, and the key in the line of the name
CURVES = [
    ("crates/pns/data/a.pns", "price", "A", "0", "10", "price"),
    ("crates/pns/data/a.pns", "price", "A", "-2", "4", "price"),
    ("crates/pns/data/a.pns", "fix", "U1", "0", "50", "fix_cost"),
    ("crates/pns/data/a.pns", "proportional", "U2", "-3", "5", "proportional_cost"),
    ("cases/carbon/plant.pns", "price", "CO2", "-0.1", "0", "price"),
    ("cases/biegler_abc/plant.pns", "price", "B", "0", "2000", "price"),
    ("cases/solvent/plant.pns", "price", "bought_solvent", "0", "3", "price"),
    ("cases/solvent/plant.pns", "fix", "thermal_oxidiser", "0", "2", "fix_cost"),
    ("crates/pns/data/a.pns", "lower", "P", "1", "20", "flow_rate_lower_bound"),
    ("crates/pns/data/a.pns", "upper", "U3", "10.5", "29.5", "capacity_upper_bound"),
]


def written(text, name, key, value):
    """The plant with this value: six places, so each value has its own text."""
    sign, (whole, rest) = "-" if value < 0 else "", divmod(abs(int(value / STEP)), 10**6)
    item = f"{key}={sign}{whole}.{rest:06d}"
    head, line, tail = re.split(rf"^({re.escape(name)}:.*)$", text, maxsplit=1, flags=re.M)
    changed, count = re.subn(rf"\b(?<!_){key}=[^,\s]*", item, line)
    return head + (changed if count else f"{line}, {item}") + tail


def cost_of(program, path):
    """The cost of a year, or None if no network fits."""
    run = subprocess.run([program, "solve", path, "100000"], capture_output=True, text=True)
    lines = [line.split() for line in run.stdout.splitlines()[:4]]
    if lines[1] == ["infeasible"]:
        return None
    with open(path) as file:
        payout = re.search(r"^payout_period=(\d+)$", file.read(), re.M)
    years = int(payout[1]) if payout else 1
    return Fraction(int(lines[3][1]), int(lines[2][1]) * 10**18 * years)


def swept(program, words, folder):
    sweep = [os.path.join(TOP, "extras/pns-sweep"), *words, "-d", folder]
    run = subprocess.run(sweep, env=dict(os.environ, PNS=program), capture_output=True, text=True)
    if run.returncode:
        sys.exit(f"bench/reach/run sweep: {' '.join(words)}: {run.stderr.strip()}")
    rows = csv.DictReader(run.stdout.splitlines())
    keys = "from", "to", "cost_from", "cost_to", "slope", "value", "cost"
    return [{key: Fraction(row[key]) for key in keys if row.get(key)} for row in rows]


def are_chained(pieces, first, last):
    """The pieces are from FROM to TO, without a gap, each less steep than the one before, and each
    as steep as its ends say."""
    steep = [it["cost_to"] - it["cost_from"] == it["slope"] * (it["to"] - it["from"])
             for it in pieces]
    follows = [b["from"] - a["to"] in (0, STEP) and b["slope"] < a["slope"]
               for a, b in zip(pieces, pieces[1:])]
    return pieces[0]["from"] == first and pieces[-1]["to"] == last and all(steep + follows)


def compared(program, curve, work):
    """How many values there were, and how many of them differ."""
    plant, kind, name, first, last, key = curve
    path = os.path.join(TOP, plant)
    with open(path) as file:
        text = file.read()
    words = [path, kind, name, first, last] + [str(COUNT)] * (kind in ("lower", "upper"))
    found = swept(program, words, os.path.join(work, re.sub(r"\W", "_", "_".join(curve))))
    pieces = [it for it in found if "from" in it]
    points = {it["value"]: it.get("cost") for it in found if "value" in it}
    first, last = Fraction(first), Fraction(last)
    steps = [(last - first) * k / (COUNT - 1) // STEP * STEP for k in range(COUNT)]
    values = {first + it for it in steps}
    ends = [it[end] for it in pieces for end in ("from", "to")]
    values |= {it + more for it in ends for more in (-STEP, 0, STEP)}
    wrong = 0 if points or are_chained(pieces, first, last) else 1
    values = sorted(it for it in values if first <= it <= last)
    changed = os.path.join(work, "changed.pns")
    for value in values:
        put(changed, written(text, name, key, value))
        there = [it for it in pieces if it["from"] <= value <= it["to"]]
        costs = {it["cost_from"] + it["slope"] * (value - it["from"]) for it in there}
        costs |= {points[value]} if value in points else set()
        if costs != {cost_of(program, changed)}:
            wrong += 1
            print(f"{plant} {kind} {name} {value}: the sweep has {costs}")
    ends = " ".join(f"{float(it['from']):.6f}..{float(it['to']):.6f}" for it in pieces)
    print(f"{plant} {kind} {name}: {len(values)} values, {wrong} differences; {ends}", flush=True)
    return len(values), wrong


def main():
    program = sys.argv[1] if len(sys.argv) > 1 else PROGRAM
    if not is_there("sweep", program):
        return 0
    with tempfile.TemporaryDirectory() as work:
        counts = [compared(os.path.abspath(program), curve, work) for curve in CURVES]
    values, wrong = map(sum, zip(*counts))
    print(f"{values} values, {wrong} differences")
    return 1 if wrong else 0
