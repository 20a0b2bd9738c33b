"""Plants over several periods: how many `pns periods` answers, with the nodes and the time, and
what cbc answers on the same expanded plants.

    bench/reach/run periods [--plants FOLDER] [--periods 2,4,12] [--plans mild,strong]
                            [--seeds 1] [--only NAME] [--table] [PROGRAM]

PROGRAM is crates/pns/out/pns if left out; without it this says so and ends with status 0. The
plants are a.pns and those of cases/, and the files NAME.pns of FOLDER, each with as many of these
periods as 128 units and 256 materials hold once it is expanded. A plan changes in each period the
prices of raw materials and products by a factor, and the bounds of products by another: a mild one
by 0.6 to 1.4 and by 0.4 to 1, a strong one by 0.1 to 3 and by 0 to 1, in steps of a tenth. They are
drawn from a fixed seed, so that plans are the same everywhere. Each search has a budget of BUDGET
nodes and SECONDS of processor time.

Prints a Markdown table with a row for each plant and plan, then the shares of the statuses, one row
for each number of periods. If cbc (coinor-cbc) is installed, it gets the mixed-integer model of the
same expanded plant, with tight tolerances and SECONDS of time. Its cost is compared, and its nodes
and its time are printed too. Its model asks for no path from a unit to a product. `same` is within
a millionth; if a plant has the default capacities of 10^9, cbc may take a very small yes for a no.
`check` has to accept what `solve` prints of each expanded plant that is answered, at the same cost;
else the status is 1.

With --table only the plants of TABLE are taken, those that are there, each with its plans and
periods of the table. A row for each prints the nodes and the seconds of each seed and what cbc came
to, and the last line how many were answered. FOLDER has them as texts of the families make,
layered, loose, dense, hda, biorefinery and energy. Nothing here is part of the gate.
"""
import argparse
import os
import random
import re
import shutil
import statistics
import subprocess
import sys
import tempfile
from dataclasses import dataclass
from fractions import Fraction

from shared import PROGRAM, TOP, heads, is_there, nodes_in, row, timed, written
from plants import CASES, MOST, Plant, case_names, text_in
from programs import mixed, text_of

BUDGET = 200_000
SECONDS = 10
PLANS = {"mild": ((6, 14), (4, 10)), "strong": ((1, 30), (0, 10))}
UNITS, MATERIALS = 128, 256
TABLE = (
    ("classic7", "mild", (1, 4, 12)),
    ("layered_1_4_3", "mild", (1, 3, 6)),
    ("layered_1_6_4", "mild", (1, 3)),
    ("loose_1_6_4", "mild", (1, 3)),
    ("energy_1_4", "mild", (1, 2)),
    ("hda_1", "mild", (1, 2, 3, 4)),
    ("hda_1", "strong", (1, 2, 3, 4)),
    ("hda_2", "strong", (1, 2, 3, 4)),
    ("biorefinery_1", "mild", (1, 2)),
    ("layered_1_3_3", "strong", (2, 4, 6, 8)),
    ("loose_2_3_3", "strong", (4, 6, 8)),
    ("layered_1_2_2", "strong", (2, 6, 12)),
    ("dense_2_9_8", "strong", (4, 8, 12)),
    ("refinery", "mild", (2,)),
)


def decimal(value):
    """A fraction of tenths of millionths, truncated to millionths, as the texts write it."""
    scaled = int(abs(value) * 10**6)
    whole, part = divmod(scaled, 10**6)
    return (
        ("-" if value < 0 and scaled else "")
        + str(whole)
        + (f".{part:06d}".rstrip("0") if part else "")
    )


def plan_text(plant, kind, periods, seed):
    """A plan of this kind, the same everywhere."""
    drawn = random.Random(seed)
    prices, bounds = PLANS[kind]

    def factor(least, most):
        return Fraction(least + int(drawn.random() * (most - least + 1)), 10)

    lines = ["file_type=PNS_plan_v1"]
    for _ in range(periods):
        lines.append("period")
        for name, material in plant.materials.items():
            if material.kind != "intermediate" and material.price:
                lines.append(f"price {name} {decimal(material.price * factor(*prices))}")
            if material.kind == "product":
                share = factor(*bounds)
                both = (it if it == MOST else it * share for it in material.bounds)
                lines.append(f"bounds {name} {' '.join(map(decimal, both))}")
    return "\n".join(lines) + "\n"


def fits(plant, periods):
    units, materials = len(plant.units), len(plant.materials)
    return units * (periods + 1) <= UNITS and (units + materials) * periods + units <= MATERIALS


@dataclass
class Run:
    """How a search ended: its status (None: over the time), nodes, processor time and cost."""

    status: int | None
    nodes: int
    seconds: float
    cost: Fraction | str | None


def cost_in(lines, over, plant):
    """The cost in a year of a printed network or design, by the line that begins with the
    denominator."""
    words = {line.split()[0]: line.split() for line in lines}
    if "infeasible" in words:
        return "infeasible"
    return Fraction(int(words["cost"][1]), int(words[over][1])) / plant.payout / 10**18


def searched(program, plant, work):
    """`periods`, and the nodes of the tree that `solve` makes of the expanded plant, which is
    judged."""
    text, planned, wide, tree = (
        os.path.join(work, name) for name in ("plant.pns", "plan", "wide.pns", "tree")
    )
    status, printed, seconds = timed([program, "periods", text, planned, str(BUDGET)], SECONDS)
    if status not in (None, 0, 4, 5):
        sys.exit(f"bench/reach/run periods: status {status}: {printed[:200]}")
    with open(wide, "w") as file:
        subprocess.run([program, "expand", text, planned], stdout=file, check=True)
    if status != 0:
        return Run(status, nodes_in(printed), seconds, None)
    cost = cost_in(printed.splitlines(), "capacities", plant)
    with open(tree, "w") as file:
        subprocess.run([program, "solve", wide, str(BUDGET)], stdout=file, check=True)
    found = text_in(tree)
    judged = subprocess.run([program, "check", wide, tree], capture_output=True, text=True).stdout
    if (
        judged != "accepted\n"
        or cost_in(found.split("\nnode")[0].splitlines(), "sizes", plant) != cost
    ):
        sys.exit(
            f"bench/reach/run periods: check says {judged!r} of the tree of {wide}, or its cost "
            f"is another one than {cost}"
        )
    return Run(0, nodes_in(found), seconds, cost)


def by_cbc(wide):
    """The cost that cbc finds, its nodes and its time; the cost is none if it did not finish."""
    plant = Plant(text_in(wide), None)
    maximal = plant.largest(list(plant.units))
    model = wide + ".lp"
    with open(model, "w") as file:
        file.write(text_of(mixed(plant, maximal, [], []))[0])
    tight = [
        "-ratio",
        "0",
        "-allow",
        "0",
        "-integerT",
        "1e-9",
        "-primalT",
        "1e-9",
        "-dualT",
        "1e-9",
    ]
    status, out, seconds = timed(
        ["cbc", model, "-sec", str(SECONDS), *tight, "-solve"], 2 * SECONDS
    )
    nodes = re.search(r"Enumerated nodes:\s+(\d+)", out)
    found = re.search(r"Objective value:\s+(\S+)", out)
    if re.search(r"infeasible", out) and found is None:
        return "infeasible", 0, seconds
    if status != 0 or found is None or "Optimal solution found" not in out:
        return None, int(nodes.group(1)) if nodes else 0, seconds
    return float(found.group(1)), int(nodes.group(1)) if nodes else 0, seconds


def compared(cost, found):
    """Whether cbc came to the same cost."""
    if found is None or cost is None:
        return "-" if found is None else "not compared"
    if isinstance(cost, str) or isinstance(found, str):
        return "same" if cost == found else f"other: {found}"
    return "same" if abs(float(cost) - found) <= 1e-6 * max(1, abs(found)) else f"other: {found:g}"


def shown(run):
    ended = {None: f"over {SECONDS} s", 4: "past", 5: "spent"}
    if run.status != 0:
        return ended[run.status]
    return (
        run.cost if isinstance(run.cost, str) else f"{float(run.cost):.6f}".rstrip("0").rstrip(".")
    )


def put(work, text, plan):
    written(os.path.join(work, "plant.pns"), text)
    written(os.path.join(work, "plan"), plan)


def tabled(program, plants, asked):
    """Prints the nodes and the seconds of the plants, plans and periods of TABLE, and those of
    cbc."""
    has_cbc, runs = shutil.which("cbc") is not None, []
    heads(
        ["plant", "units", "plan", "periods", "nodes", "s"]
        + (["cbc", "its nodes", "its s"] if has_cbc else [])
    )
    with tempfile.TemporaryDirectory() as work:
        for title, kind, several in TABLE:
            for periods in several if title in plants and kind in asked.plans.split(",") else ():
                plant, group, others = Plant(plants[title], None), [], []
                for seed in range(1, asked.seeds + 1):
                    put(work, plants[title], plan_text(plant, kind, periods, seed))
                    group.append(searched(program, plant, work))
                    if has_cbc:
                        others.append((group[-1].cost, *by_cbc(os.path.join(work, "wide.pns"))))
                nodes = [run.nodes if run.status == 0 else shown(run) for run in group]
                cells = [nodes, [f"{run.seconds:.2f}" for run in group]]
                if has_cbc:
                    cells += [
                        [compared(cost, found) for cost, found, *_ in others],
                        [it[2] for it in others],
                        [f"{it[3]:.2f}" for it in others],
                    ]
                row(
                    [
                        title,
                        len(plant.units),
                        kind,
                        periods,
                        *(", ".join(map(str, cell)) for cell in cells),
                    ]
                )
                runs += group
    print(f"\n{sum(run.status == 0 for run in runs)} of {len(runs)} answered within {SECONDS} s")


def measured(program, plants, asked):
    """Prints a row for each plant and plan, and returns the runs by the number of periods."""
    has_cbc, runs = shutil.which("cbc") is not None, {}
    heads(
        ["plant", "units", "plan", "seed", "periods", "cost", "nodes", "s"]
        + (["cbc", "its nodes", "its s"] if has_cbc else [])
    )
    with tempfile.TemporaryDirectory() as work:
        for title, text in plants.items():
            plant = Plant(text, None)
            for kind in asked.plans.split(","):
                for periods in map(int, asked.periods.split(",")):
                    for seed in range(1, asked.seeds + 1) if fits(plant, periods) else []:
                        put(work, text, plan_text(plant, kind, periods, seed))
                        run = searched(program, plant, work)
                        runs.setdefault(periods, []).append(run)
                        cells = [
                            title,
                            len(plant.units),
                            kind,
                            seed,
                            periods,
                            shown(run),
                            run.nodes or "-",
                            f"{run.seconds:.3f}",
                        ]
                        if has_cbc:
                            found, nodes, seconds = by_cbc(os.path.join(work, "wide.pns"))
                            cells += [compared(run.cost, found), nodes, f"{seconds:.3f}"]
                        row(cells)
    return runs


def shares_of(runs):
    print()
    heads(
        [
            "periods",
            "plants",
            "0: answered",
            "4: past",
            "5: spent",
            f"over {SECONDS} s",
            "nodes",
            "ms",
            "s, all",
        ]
    )
    for periods, group in sorted(runs.items()):
        answered = [run for run in group if run.status == 0]
        shares = (sum(run.status == status for run in group) for status in (0, 4, 5, None))
        medians = (
            (
                statistics.median(run.nodes for run in answered),
                1000 * statistics.median(run.seconds for run in answered),
            )
            if answered
            else (0, 0)
        )
        total = sum(run.seconds for run in group)
        row(
            [
                periods,
                len(group),
                *(f"{100 * many / len(group):.0f}" for many in shares),
                f"{medians[0]:.0f}",
                f"{medians[1]:.1f}",
                f"{total:.2f}",
            ]
        )


def main():
    parser = argparse.ArgumentParser(description="Plants over several periods.")
    parser.add_argument("--plants", metavar="FOLDER")
    parser.add_argument("--periods", default="2,4,12")
    parser.add_argument("--plans", default="mild,strong")
    parser.add_argument("--seeds", type=int, default=1)
    parser.add_argument("--only", default="")
    parser.add_argument("--table", action="store_true")
    parser.add_argument(
        "program", metavar="PROGRAM", nargs="?", default=PROGRAM
    )
    asked = parser.parse_args()
    if not is_there("periods", asked.program):
        return 0
    paths = {
        "a": os.path.join(TOP, "crates/pns/data/a.pns"),
        **{name: os.path.join(CASES, name, "plant.pns") for name in case_names()},
    }
    if asked.plants:
        paths.update(
            {
                name[:-4]: os.path.join(asked.plants, name)
                for name in sorted(os.listdir(asked.plants))
                if name.endswith(".pns")
            }
        )
    plants = {title: text_in(path) for title, path in paths.items() if asked.only in title}
    program = os.path.abspath(asked.program)
    if asked.table:
        tabled(program, plants, asked)
    else:
        shares_of(measured(program, plants, asked))
    return 0
