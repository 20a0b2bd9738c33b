"""How many plants `pns solve` answers: generated plants whose rates are drawn anew with more and
more decimals, and families of plants from a folder.

    bench/reach/run answered [--plants FOLDER] [PROGRAM..]

Prints a Markdown table for each PROGRAM, by default crates/pns/out/pns, which `make run` builds;
without it this says so and ends with status 0. If several programs are given, each sees the same
plants, and if two answer one plant with different costs this names the plant and ends with status
1. Nothing here is part of the gate.

The plants are those of `make N UNITS` for the numbers 0 to 19, in which each rate is drawn anew
from 1 to 9 with so many decimals, and each upper bound of a material that is no product is as
`make` gives it (10^9) or 1000. The draws come from a fixed seed, so the plants are the same
everywhere. Of a FOLDER each file NAME.pns is a plant of the family that its name begins with, up to
the first `_`; its bounds and rates stay as they are.

Each plant is solved with a budget of BUDGET nodes and a limit of SECONDS of processor time, one
plant after the other on one processor.
"""
import argparse
import os
import statistics
import sys
import tempfile
from dataclasses import dataclass
from fractions import Fraction

from shared import PROGRAM, families, generated, heads, is_there, machine, nodes_in, row, timed
from shared import written

BUDGET = 5_000
SECONDS = 10


@dataclass
class Run:
    """How a search of a plant ended: its status (None: over the time), the nodes of its tree, its
    processor time, and the answer with the names of the network's units, if it has one."""

    status: int | None
    nodes: int
    seconds: float
    answer: str
    units: list


def answer_of(lines):
    """The least cost in units of money, or that there is no network with flows."""
    if lines[1].startswith("network"):
        return str(Fraction(int(lines[3].split()[1]), int(lines[2].split()[1]) * 10**18))
    return lines[1]


def solved(program, path):
    status, text, seconds = timed([program, "solve", path, str(BUDGET)], SECONDS)
    if status is None:
        return Run(None, 0, seconds, "", [])
    lines = text.splitlines()
    if status != 0:
        return Run(status, nodes_in(text), seconds, "", [])
    return Run(0, nodes_in(text), seconds, answer_of(lines), lines[1].split()[1:])


def share(runs, status):
    many = sum(run.status == status for run in runs)
    return f"{100 * many / len(runs):.0f}" if many else "-"


def cells_of(runs):
    """The shares of each status in per cent, then the medians of nodes and of milliseconds of the
    answered plants, then the seconds of all."""
    answered = [run for run in runs if run.status == 0]
    nodes = f"{statistics.median(run.nodes for run in answered):.0f}" if answered else "-"
    time = f"{1000 * statistics.median(run.seconds for run in answered):.1f}" if answered else "-"
    return [
        share(runs, 0),
        share(runs, 4),
        share(runs, 5),
        share(runs, None),
        nodes,
        time,
        f"{sum(run.seconds for run in runs):.2f}",
    ]


def measured(program, groups, names, found, work):
    """Prints a table of the groups, a row each, and keeps each answer beside those that other
    programs gave."""
    names = names + ["0: answered", "4: past", "5: spent", f"over {SECONDS} s"]
    print()
    heads(names + ["nodes", "ms", "s, all"])
    every = []
    for group in groups:
        runs = []
        for title, text in group.plants.items():
            run = solved(program, written(os.path.join(work, "plant.pns"), text))
            if run.status not in (None, 0, 4, 5):
                sys.exit(f"bench/reach/run answered: {program} ends with {run.status} on {title}")
            if run.status == 0:
                found.setdefault(title, set()).add(run.answer)
            runs.append(run)
        row([*group.cells, *cells_of(runs)])
        every += runs
    row(["all"] + [""] * (len(groups[0].cells) - 1) + cells_of(every))


def main():
    parser = argparse.ArgumentParser(description="How many plants `pns solve` answers.")
    parser.add_argument("--plants", metavar="FOLDER")
    parser.add_argument("programs", metavar="PROGRAM", nargs="*", default=[PROGRAM])
    asked = parser.parse_args()
    if not is_there("answered", *asked.programs):
        return 0
    programs = [os.path.abspath(program) for program in asked.programs]
    groups = list(generated(programs[0]))
    found = {}
    with tempfile.TemporaryDirectory() as work:
        for program in programs:
            print(
                "\n"
                f"`{program}`, a budget of {BUDGET:,} nodes and {SECONDS} s a plant, on "
                f"{machine()}. Shares are in per cent; nodes and ms are medians of the answered "
                "plants."
            )
            measured(program, groups, ["bounds", "decimals", "units"], found, work)
            if asked.plants:
                measured(program, families(asked.plants), ["family", "plants"], found, work)
    differ = [title for title, answers in found.items() if len(answers) > 1]
    for title in differ:
        print(f"bench/reach/run answered: {title} is answered in {len(found[title])} ways")
    return 1 if differ else 0
