"""Searches in parts beside one run, by the proved program and extras/pns-parts: for each plant the
wall and the processor time of `solve`, and then of `pns-parts` with 1, 2 and 4 jobs, with the
seconds of it that went into `split`, into the parts and into `merge`, the rounds, the parts and the
nodes of the merged tree, and what `check` says of it. Then a merge into a large text: that of a
search of the plant after -l that stops after NODES nodes; `split`, which judges all of it, and
`merge` of one part and of a hundred are timed on it.

    bench/reach/run parts [-b BUDGET] [PLANT..] [-l PLANT NODES]

A PLANT is a file, BUDGET the most nodes of a part. Nothing here is part of the gate. Needs
crates/pns/out/pns, which `make run` builds (or PNS); without it this says so and ends with status
0.
"""
import os
import shutil
import subprocess
import sys
import tempfile
import time

from shared import PROGRAM, TOP, is_there, used

PARTS = os.path.join(TOP, "extras/pns-parts")
MOST = 1_000_000


def timed(words, out):
    before = used()
    began = time.time()
    with open(out, "w") as file:
        status = subprocess.run(
            words, stdout=file, stderr=subprocess.DEVNULL, env={**os.environ, "PNS": PROGRAM}
        ).returncode
    wall = time.time() - began
    return status, wall, used() - before


def nodes(path):
    with open(path) as file:
        return sum(1 for line in file if line == "node\n" or line.startswith("node "))


def claim(path):
    with open(path) as file:
        lines = [next(file, "").strip() for _ in range(4)]
    return lines[3] if lines[1].startswith("network") else lines[1]


def one_run(plant, room):
    tree = os.path.join(room, "one")
    status, wall, work = timed([PROGRAM, "solve", plant, str(MOST)], tree)
    print(
        f"  solve: status {status}, wall {wall:.1f} s, processor {work:.1f} s, {nodes(tree)} "
        f"nodes, {claim(tree)}",
        flush=True,
    )
    return wall


def in_parts(plant, budget, jobs, room, alone):
    folder = os.path.join(room, f"parts{jobs}")
    said = os.path.join(room, "said")
    status, wall, work = timed([PARTS, plant, str(budget), "-j", str(jobs), "-d", folder], said)
    rounds = [
        [float(word) for word in line.split()] for line in open(os.path.join(folder, "times"))
    ]
    split, parts, merge = (sum(line[k] for line in rounds) for k in (4, 5, 6))
    with open(said) as file:
        judged = file.read().split("\n")[-2:-1]
    tree = os.path.join(folder, "tree")
    print(
        f"  {jobs} jobs: status {status}, wall {wall:.1f} s (x {alone / wall:.2f}), processor "
        f"{work:.1f} s, split {split:.1f} s, parts {parts:.1f} s, "
        f"merge {merge:.1f} s, {len(rounds)} rounds, {int(sum(line[1] for line in rounds))} "
        f"parts, {nodes(tree)} nodes, {claim(tree)}, {' '.join(judged)}",
        flush=True,
    )
    shutil.rmtree(folder)


def large(plant, budget, room):
    """The times on the text of a search that stopped."""
    tree = os.path.join(room, "large")
    timed([PROGRAM, "solve", plant, str(budget)], tree)
    size = os.path.getsize(tree) / 1e6
    print(f"  text of {size:.0f} MB, {nodes(tree)} nodes")
    leaves = os.path.join(room, "leaves")
    status, wall, work = timed([PROGRAM, "split", plant, tree], leaves)
    whole = work
    print(f"  split: status {status}, processor {work:.1f} s")
    best = os.path.join(room, "best")
    with open(tree) as file, open(best, "w") as to:
        for line in file:
            if line.startswith("node"):
                break
            to.write(line)
        to.write("node\nopen\nend\n")
    parts = []
    with open(leaves) as file:
        for line in file:
            words = line.split()
            if words[0] == "part" and len(parts) < 100:
                parts.append(os.path.join(room, f"p{len(parts)}"))
                timed([PROGRAM, "part", plant, words[2], words[3], "50", best], parts[-1])
    for count in (1, len(parts)):
        status, wall, work = timed(
            [PROGRAM, "merge", plant, tree, *parts[:count]], os.path.join(room, "merged")
        )
        print(
            f"  merge of {count}: status {status}, wall {wall:.1f} s, processor {work:.1f} s, "
            f"{work / whole:.2f} times the split",
            flush=True,
        )


def main():
    if not is_there("parts", PROGRAM):
        return 0
    words = sys.argv[1:]
    budget, plants, stopped = 64_000, [], None
    while words:
        word = words.pop(0)
        if word == "-b":
            budget = int(words.pop(0))
        elif word == "-l":
            stopped = words.pop(0), int(words.pop(0))
        else:
            plants.append(word)
    with tempfile.TemporaryDirectory() as room:
        for plant in plants:
            print(os.path.basename(plant))
            alone = one_run(plant, room)
            for jobs in (1, 2, 4):
                in_parts(plant, budget, jobs, room, alone)
        if stopped:
            print(f"{os.path.basename(stopped[0])}, stopped after {stopped[1]} nodes")
            large(*stopped, room)
    return 0
