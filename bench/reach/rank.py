"""What the N best networks cost beside the best one: processor time and nodes of `rank` for N = 1,
10 and 100 over those of `solve`, and of `rankcheck` beside `check`.

    bench/reach/run rank [--plants FOLDER] [--program PROGRAM] [--times K]

PROGRAM is crates/pns/out/pns if left out; without it this says so and ends with status 0. The
plants are those of `make` with 30 and 60 units and the numbers 0, 14, 25 and 36, those of cases/,
and each NAME.pns of FOLDER. Each call has a budget of BUDGET nodes and a limit of SECONDS of
processor time. The least of K runs counts (3, if left out), or one alone if it takes longer than a
second. A search that ends otherwise than with 0 is shown by its status, one over the time by
`time`. `a further network` is how many nodes each network more than the first takes, from N = 1 to
the greatest N that finished. Prints a Markdown table and the geometric means; N = 1 in more than
1.2 times the time of `solve` over all plants ends with status 1. Nothing here is part of the gate.
"""
import argparse
import math
import os
import resource
import subprocess
import tempfile

from shared import PROGRAM, TOP, is_there, used

COUNTS = (1, 10, 100)
MADE = [(number, units) for units in (30, 60) for number in (0, 14, 25, 36)]
BUDGET = "1000000"
SECONDS = 120
MOST = 1.2


class Run:
    """A call: its status (None: over the time), what it printed and its processor time."""

    def __init__(self, program, words, path):
        with open(path, "w") as out:
            before = used()
            done = subprocess.run(
                [program, *words],
                stdout=out,
                preexec_fn=lambda: resource.setrlimit(resource.RLIMIT_CPU, (SECONDS, SECONDS)),
            )
            self.seconds = used() - before
        self.status = done.returncode if done.returncode >= 0 else None


def best_of(program, words, path, times):
    """The run that took least time."""
    best = Run(program, words, path)
    while times > 1 and best.seconds < 1:
        times -= 1
        best = min(best, Run(program, words, path), key=lambda run: run.seconds)
    return best


def nodes_in(path):
    """How many nodes the text has, and how many networks it lists; one if it is a tree."""
    nodes, networks = 0, 1
    with open(path) as text:
        for line in text:
            nodes += line.startswith("node")
            if line.startswith("networks "):
                networks = int(line.split(" ")[1])
    return nodes, networks


def plants(program, folder, work):
    for number, units in MADE:
        path = os.path.join(work, "made.pns")
        with open(path, "w") as file:
            subprocess.run([program, "make", str(number), str(units)], stdout=file, check=True)
        yield f"make {number} {units}", path
    cases = os.path.join(TOP, "cases")
    for name in sorted(os.listdir(cases)):
        path = os.path.join(cases, name, "plant.pns")
        if os.path.exists(path):
            yield name, path
    for name in sorted(os.listdir(folder)) if folder else []:
        if name.endswith(".pns"):
            yield name[:-4], os.path.join(folder, name)


def cell_of(run, base, nodes, base_nodes):
    """A run's cell: time and nodes over those of the base."""
    if run.status is None:
        return "time"
    if run.status != 0:
        return f"status {run.status}"
    if base.status != 0:
        return f"{run.seconds:.2f} s, {nodes:,} nodes"
    return f"{run.seconds / base.seconds:.2f}, {nodes / base_nodes:.2f}"


def mean(numbers):
    return math.exp(sum(map(math.log, numbers)) / len(numbers)) if numbers else float("nan")


def main():
    words = argparse.ArgumentParser(add_help=True)
    words.add_argument("--plants", default=None)
    words.add_argument("--program", default=PROGRAM)
    words.add_argument("--times", type=int, default=3)
    words = words.parse_args()
    program = os.path.abspath(words.program)
    if not is_there("rank", program):
        return 0
    ratios = {count: [] for count in COUNTS}
    checks = []
    print(
        f"| Plant | `solve` | {' | '.join(f'N = {count}: time, nodes over' for count in COUNTS)} "
        "| a further network | `rankcheck` N = 1 over `check` |"
    )
    print(f"|---|---|{'---|' * len(COUNTS)}---|---|")
    with tempfile.TemporaryDirectory() as work:
        tree, ranked, out = (os.path.join(work, name) for name in ("tree", "ranked", "out"))
        for name, path in plants(program, words.plants, work):
            base = best_of(program, ["solve", path, BUDGET], tree, words.times)
            base_nodes, _ = nodes_in(tree)
            head = (
                f"{base.seconds:.2f} s, {base_nodes:,} nodes"
                if base.status == 0
                else ("time" if base.status is None else f"status {base.status}")
            )
            cells, first, further, judged = [], None, "", ""
            for count in COUNTS:
                run = best_of(program, ["rank", path, str(count), BUDGET], ranked, words.times)
                nodes, networks = nodes_in(ranked)
                cells.append(cell_of(run, base, nodes, base_nodes))
                if run.status != 0:
                    continue
                if base.status == 0:
                    ratios[count].append((run.seconds, base.seconds, nodes / base_nodes))
                if count == 1:
                    first = nodes
                    check = best_of(program, ["check", path, tree], out, words.times)
                    rankcheck = best_of(program, ["rankcheck", path, ranked], out, words.times)
                    if base.status == 0 and check.status == 0 and rankcheck.status == 0:
                        judged = f"{rankcheck.seconds / check.seconds:.2f}"
                        checks.append((rankcheck.seconds, check.seconds))
                elif first is not None and networks > 1:
                    further = f"{(nodes - first) / (networks - 1):.1f}"
            print(f"| {name} | {head} | {' | '.join(cells)} | {further} | {judged} |", flush=True)
    for count in COUNTS:
        if ratios[count]:
            time = sum(run for run, _, _ in ratios[count]) / sum(
                base for _, base, _ in ratios[count]
            )
            each = mean([run / base for run, base, _ in ratios[count]])
            print(
                f"N = {count}: {len(ratios[count])} plants, {time:.2f} times the time of `solve` "
                f"in all, {each:.2f} in geometric mean, "
                f"{mean([nodes for _, _, nodes in ratios[count]]):.2f} times its nodes"
            )
    if checks:
        print(
            "rankcheck of one network: "
            f"{sum(run for run, _ in checks) / sum(base for _, base in checks):.2f} times the "
            "time of `check` in all"
        )
    ones = ratios[1]
    return (
        1
        if ones and sum(run for run, _, _ in ones) > MOST * sum(base for _, base, _ in ones)
        else 0
    )
