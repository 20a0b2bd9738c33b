"""How many structures `pns flows` answers for: the networks that `pns solve` prints, and the
maximal structures with the first three that `pns list` gives.

    bench/reach/run flows [--plants FOLDER] [PROGRAM..]

Prints a Markdown table, by default of crates/pns/out/pns, which `make run` builds; without it this
says so and ends with status 0. The plants are those of `answered` with 2 and 3 decimals and
default bounds, and of a FOLDER each file NAME.pns as there. The first PROGRAM solves each plant,
within the budget and the time that `answered` gives, and lists its structures. Each PROGRAM is
then asked for the flows of these units. Its columns show the share of status 0, in per cent of the
networks and of the other structures. The last column shows, of the calls that the first PROGRAM
answers, the median of the milliseconds of processor time, start of the process included, for each
PROGRAM. If a network's cost is another than that of `solve`, if two programs answer with different
texts, or a status is neither 0 nor 4, this names the plant and ends with status 1. Nothing here is
part of the gate.
"""
import argparse
import os
import statistics
import subprocess
import tempfile
from fractions import Fraction

from answered import solved
from shared import PROGRAM, families, generated, heads, is_there, row, used, written

BOUNDS, DECIMALS = str(10**9), ["2", "3"]
LISTED = "3"


def lines_of(program, *words):
    return subprocess.run([program, *words], capture_output=True, text=True).stdout.splitlines()


def structures_of(program, path):
    """The units of the maximal structure and of the first ones that are listed, each set once."""
    sets = [
        line.split()[1:]
        for line in lines_of(program, "list", path, "start", LISTED)
        if line.split()[0] not in ("more", "end")
    ]
    sets += [
        line.split()[1:] for line in lines_of(program, "max", path) if line.startswith("units")
    ]
    return [list(units) for units in sorted({tuple(units) for units in sets})]


class Row:
    """What the programs answered: how many sets there are of each kind, how many of them each
    program answers, and its times if all answer."""

    def __init__(self, programs):
        self.networks, self.others = 0, 0
        self.found = [[0, 0] for _ in range(programs)]
        self.times = [[] for _ in range(programs)]

    def add(self, other):
        self.networks += other.networks
        self.others += other.others
        for mine, its in zip(self.found, other.found):
            mine[0] += its[0]
            mine[1] += its[1]
        for mine, its in zip(self.times, other.times):
            mine += its

    def cells(self):
        def share(part, whole):
            return f"{100 * part / whole:.0f}" if whole else "-"

        networks = [share(found[0], self.networks) for found in self.found]
        others = [share(found[1], self.others) for found in self.found]
        times = [f"{1000 * statistics.median(times):.1f}" if times else "-" for times in self.times]
        return [str(self.networks), *networks, str(self.others), *others, " / ".join(times)]


def ask(programs, path, units, its_row, kind, wrong):
    """Asks each program for the flows of the units, and gives the costs that come."""
    costs, texts, first = set(), set(), None
    for place, program in enumerate(programs):
        before = used()
        run = subprocess.run(
            [program, "flows", path, ",".join(units)], capture_output=True, text=True
        )
        seconds = used() - before
        lines = run.stdout.splitlines()
        first = run.returncode if first is None else first
        if run.returncode == 0:
            texts.add(run.stdout)
            its_row.found[place][kind] += 1
            if lines[0].startswith("network"):
                costs.add(
                    str(Fraction(int(lines[2].split()[1]), int(lines[1].split()[1]) * 10**18))
                )
            if first == 0:
                its_row.times[place].append(seconds)
        elif run.returncode != 4:
            wrong.append(f"{program} ends with status {run.returncode}")
    if len(texts) > 1:
        wrong.append(f"the texts differ for {','.join(units)}")
    return costs


def measured(programs, group, path):
    """The row of the group, and what is wrong in it."""
    here, wrong = Row(len(programs)), []
    for title, text in group.plants.items():
        written(path, text)
        found, bad = solved(programs[0], path), []
        if found.units:
            here.networks += 1
            if ask(programs, path, found.units, here, 0, bad) - {found.answer}:
                bad.append("a cost differs from that of solve")
        for units in structures_of(programs[0], path):
            here.others += 1
            ask(programs, path, units, here, 1, bad)
        wrong += [f"{title}: {what}" for what in bad]
    return here, wrong


def main():
    parser = argparse.ArgumentParser(description="How many structures `pns flows` answers for.")
    parser.add_argument("--plants", metavar="FOLDER")
    parser.add_argument("programs", metavar="PROGRAM", nargs="*", default=[PROGRAM])
    given = parser.parse_args()
    if not is_there("flows", *given.programs):
        return 0
    programs = [os.path.abspath(program) for program in given.programs]
    made = [
        group
        for group in generated(programs[0])
        if group.cells[0] == BOUNDS and group.cells[1] in DECIMALS
    ]
    tables = [(["bounds", "decimals", "units"], made)]
    if given.plants:
        tables.append((["family", "plants"], families(given.plants)))
    wrong = []
    with tempfile.TemporaryDirectory() as work:
        for names, groups in tables:
            print()
            heads([*names, "networks", *programs, "other structures", *programs, "ms"])
            every = Row(len(programs))
            for group in groups:
                here, bad = measured(programs, group, os.path.join(work, "plant.pns"))
                every.add(here)
                wrong += bad
                row([*group.cells, *here.cells()])
            row(["all"] + [""] * (len(groups[0].cells) - 1) + every.cells())
    for line in wrong:
        print(f"bench/reach/run flows: {line}")
    return 1 if wrong else 0
