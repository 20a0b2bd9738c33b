"""Compares `pns` with other solvers on the same plants in one run, in one table.

    bench/reach/run solvers [--seconds S] [--tight] [PLANT..]

Without PLANT it takes made-up plants (`pns make`), all plants of cases/ (those of several periods
expanded), and those of a folder that PLANTS names, if it is set. The solvers are glpsol
(glpk-utils), cbc (coinor-cbc), HiGHS (scipy.optimize.milp of /usr/bin/python3, python3-scipy) and
symphony (coinor-symphony), each as it comes, on the model that extras/pns-lp writes, plain or with
--tight; one that is not there is left out. S is how long each may take (60 seconds). `pns` gets
1,000,000 nodes, and its tree is judged by `pns check`. A solver is right if its cost is that of
`pns` within one part in a million, and wrong if it gives another one or calls the plant
infeasible; nothing is said if `pns` has no answer. PNS names the program, if not
crates/pns/out/pns. A row: plant, units, then for each solver its seconds, nodes if it prints
them, and what it answers. Nothing here is part of the gate.
"""
import importlib.machinery
import importlib.util
import os
import re
import shutil
import subprocess
import sys
import tempfile
import time
from fractions import Fraction
from pathlib import Path

from shared import PROGRAM as PNS, heads, is_there, row, used
from shared import TOP as FOLDER

TOP = Path(FOLDER)
SYSTEM_PYTHON = "/usr/bin/python3"
MADE = [(number, units) for units in (12, 30, 60, 128) for number in (1, 2, 3)]


def model_of():
    """The module of extras/pns-lp, which has no ending that Python knows."""
    sys.dont_write_bytecode = True
    loader = importlib.machinery.SourceFileLoader("pns_lp", str(TOP / "extras/pns-lp"))
    module = importlib.util.module_from_spec(importlib.util.spec_from_loader("pns_lp", loader))
    loader.exec_module(module)
    return module


def run(seconds, *words):
    """What a call prints and its processor seconds; no text if it takes too long."""
    begun = used()
    try:
        how = {"capture_output": True, "text": True, "errors": "replace", "timeout": seconds}
        # (lines of progress are no part of a tree)
        how["env"] = os.environ | {"PNS_QUIET": "1"}
        ran = subprocess.run(words, **how)
        text = ran.stdout + ran.stderr
    except subprocess.TimeoutExpired:
        text = None
    return text, used() - begun


def by_pns(plant, payout, seconds, room):
    text, spent = run(seconds, PNS, "solve", plant, "1000000")
    if text is None:
        return "late", spent, None, None
    (room / "tree").write_text(text)
    nodes = text.count("\nnode")
    last = text.splitlines()[-1].split()[0] if text else ""
    judged, _ = run(10 * seconds, PNS, "check", plant, str(room / "tree"))
    if judged != "accepted\n":
        return ("budget spent" if last == "spent" else "overflow"), spent, nodes, None
    words = {line.split()[0]: line.split()[1:] for line in text.splitlines()[:5]}
    if "infeasible" in words:
        return "infeasible", spent, nodes, "infeasible"
    cost = Fraction(int(words["cost"][0]), int(words["sizes"][0]) * 10**18) / payout
    return f"{float(cost):.10g}", spent, nodes, cost


def by_glpsol(plant, model, seconds, room):
    text, spent = run(seconds, "glpsol", "--lp", model, "-w", str(room / "glpsol"))
    if text is None:
        return None, spent, None
    lines = (room / "glpsol").read_text().splitlines()
    head = next(line.split() for line in lines if line.startswith("s "))
    nodes = re.findall(r"\((\d+); \d+\)\s*$", text, re.M)
    found = float(head[5]) if head[4] == "o" else "infeasible"
    return found, spent, int(nodes[-1]) if nodes else None


def by_cbc(plant, model, seconds, room):
    text, spent = run(seconds, "cbc", model, "-solve", "-solu", str(room / "cbc"))
    if text is None:
        return None, spent, None
    head = (room / "cbc").read_text().splitlines()[0]
    nodes = re.search(r"Enumerated nodes:\s+(\d+)", text)
    found = float(head.split()[-1]) if head.startswith("Optimal") else "infeasible"
    return found, spent, int(nodes[1]) if nodes else None


def by_highs(plant, model, seconds, room):
    tight = ["--tight"] if "--tight" in sys.argv else []
    text, spent = run(seconds, SYSTEM_PYTHON, __file__, "--highs", plant, *tight)
    words = text.split() if text else []
    if not words:
        return None, spent, None
    found = "infeasible" if words[0] == "infeasible" else float(words[0])
    return found, float(words[2]), int(words[1])


def by_symphony(plant, model, seconds, room):
    text, spent = run(seconds, "symphony", "-L", model)
    if text is None:
        return None, spent, None
    cost = re.search(r"Solution Cost:\s+(\S+)", text)
    nodes = re.search(r"Number of analyzed nodes:\s+(\d+)", text)
    return (float(cost[1]) if cost else "infeasible"), spent, int(nodes[1]) if nodes else None


def highs(plant_file):
    """Solves the model by scipy, and prints cost, nodes and processor seconds."""
    import numpy
    from scipy.optimize import Bounds, LinearConstraint, milp
    lp = model_of()
    plant = lp.Plant(plant_file)
    names = [f"{letter}{k + 1}" for letter in "xy" for k in range(len(plant.names))]
    at = {name: k for k, name in enumerate(names)}
    costs = [*map(plant.slope, plant.names), *map(plant.fixed, plant.names)]
    cost = numpy.array([float(it) for it in costs])
    rows = list(lp.rows_of(plant, "--tight" in sys.argv))
    matrix = numpy.zeros((len(rows), len(names)))
    low, high = numpy.full(len(rows), -numpy.inf), numpy.full(len(rows), numpy.inf)
    for k, (_, row, least, most) in enumerate(rows):
        for name, value in row.items():
            matrix[k, at[name]] = float(value)
        low[k] = low[k] if least is None else float(least)
        high[k] = high[k] if most is None else float(most)
    whole = [0] * len(plant.names) + [1] * len(plant.names)
    top = [numpy.inf] * len(plant.names) + [1] * len(plant.names)
    begun = time.process_time()
    limits = LinearConstraint(matrix, low, high)
    found = milp(cost, constraints=limits, integrality=whole, bounds=Bounds(0, top))
    spent = time.process_time() - begun
    answer = "infeasible" if found.x is None else repr(float(found.fun))
    print(answer, found.mip_node_count or 0, spent)


def judged(found, truth):
    if found is None:
        return "late"
    answer = found if found == "infeasible" else f"{found:.10g}"
    if truth is None:
        return answer
    if "infeasible" in (found, truth):
        same = found == truth
    else:
        same = abs(found - float(truth)) <= 1e-6 * max(1, abs(float(truth)))
    return f"{answer} {'right' if same else 'WRONG'}"


def name_of(file):
    """The name of a plant: that of its folder, where the file is named as all are in cases/."""
    return file.parent.name if file.stem == "plant" else file.stem


def plants_of(words, room):
    """The plants to compare on: (name, file)."""
    if words:
        yield from ((name_of(Path(it)), it) for it in words)
        return
    for number, units in MADE:
        file = room / f"make_{number}_{units}.pns"
        file.write_text(run(60, PNS, "make", str(number), str(units))[0])
        yield file.stem, str(file)
    for folder in sorted((TOP / "cases").iterdir()):
        plant, plan = folder / "plant.pns", folder / "plan"
        if plan.exists():
            wide = room / f"{folder.name}.pns"
            wide.write_text(run(60, PNS, "expand", str(plant), str(plan))[0])
            yield f"{folder.name}, expanded", str(wide)
        elif plant.exists():
            yield folder.name, str(plant)
    if "PLANTS" in os.environ:
        yield from ((it.stem, str(it)) for it in sorted(Path(os.environ["PLANTS"]).glob("*.pns")))


def main():
    words = sys.argv[1:]
    if "--highs" in words:
        highs(words[words.index("--highs") + 1])
        return 0
    seconds = float(words.pop(words.index("--seconds") + 1)) if "--seconds" in words else 60.0
    files = [it for it in words if not it.startswith("--")]
    if not is_there("solvers", PNS):
        return 0
    asked = SYSTEM_PYTHON, "-c", "import scipy.optimize; print(1)"
    has_scipy = os.access(SYSTEM_PYTHON, os.X_OK) and run(60, *asked)[0] == "1\n"
    every = {"glpsol": by_glpsol, "cbc": by_cbc, "HiGHS": by_highs, "symphony": by_symphony}
    is_here = lambda it: has_scipy if it == "HiGHS" else shutil.which(it) is not None
    solvers = {it: solver for it, solver in every.items() if is_here(it)}
    lp, wrong = model_of(), dict.fromkeys(solvers, 0)
    heads(["plant", "units", "pns", *solvers])
    with tempfile.TemporaryDirectory() as folder:
        room = Path(folder)
        for name, file in plants_of(files, room):
            plant, model = lp.Plant(file), room / "model.lp"
            with open(model, "w") as text:
                sys.stdout, shown = text, sys.stdout
                lp.print_model(plant, "--tight" in words)
                sys.stdout = shown
            answer, spent, nodes, truth = by_pns(file, plant.payout, seconds, room)
            cells = [f"{spent:.2f} s, {nodes} nodes, {answer}"]
            for solver, call in solvers.items():
                found, spent, nodes = call(file, str(model), seconds, room)
                answer = judged(found, truth)
                wrong[solver] += answer.endswith("WRONG")
                counted = f"{nodes} nodes, " if nodes is not None else ""
                cells.append(f"{spent:.2f} s, {counted}{answer}")
            row([name, len(plant.names), *cells])
    print("\nwrong: " + ", ".join(f"{it} {count}" for it, count in wrong.items()))
    return 0


if __name__ == "__main__":
    sys.exit(main())
