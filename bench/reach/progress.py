"""What progress costs: the time of a search that prints how far it is over that of the same search
with PNS_QUIET set.

    bench/reach/run progress [PROGRAM [WORD ..]]

PROGRAM is crates/pns/out/pns if left out; without it this says so and ends with status 0. The WORDs
are those of a call that takes some seconds, `rank cases/refinery/plant.pns 1000` if left out. The
two calls take turns, PAIRS times, so that what else the machine does meets both alike. Prints the
least processor time of each, the ratio of the two and the lines of progress. The status is 1 if the
ratio is above MOST, if the answers differ, or if a line of progress is not as docs/FORMATS.md has
it. Nothing here is part of the gate.
"""
import os
import re
import subprocess
import sys
import tempfile

from shared import PROGRAM, TOP, is_there, used

WORDS = ["rank", os.path.join(TOP, "cases/refinery/plant.pns"), "1000"]
PAIRS = 5
MOST = 1.01
COST = r"-?\d+(\.\d+)?"
BOUND = rf", bound {COST}(, gap \d+\.\d %)?"
LINE = re.compile(rf"pns: \d+ nodes, \d+ open(, best {COST})?({BOUND})?, \d+ s")


def run(program, words, quiet):
    """Returns the time of a call, its status with its answer, and its lines on standard error."""
    env = {name: value for name, value in os.environ.items() if name != "PNS_QUIET"}
    if quiet:
        env["PNS_QUIET"] = "1"
    before = used()
    with tempfile.TemporaryFile() as out:
        done = subprocess.run([program, *words], env=env, stdout=out, stderr=subprocess.PIPE)
        out.seek(0)
        answer = out.read()
    return used() - before, (done.returncode, answer), done.stderr.decode().splitlines()


def main():
    words = sys.argv[1:]
    program = words.pop(0) if words else PROGRAM
    if not is_there("progress", program):
        return 0
    words = words or WORDS
    loud, quiet, every, faults = [], [], [], []
    for _ in range(PAIRS):
        seconds, answer, every = run(program, words, quiet=False)
        loud.append(seconds)
        seconds, other, silent = run(program, words, quiet=True)
        quiet.append(seconds)
        lines = [line for line in every if line.startswith("pns: ")]
        if answer != other:
            faults.append("the answers differ")
        if [line for line in every if line not in lines] != silent:
            faults.append("more than progress differs on standard error")
        faults += [f"not a line of progress: {line}" for line in lines if not LINE.fullmatch(line)]
    ratio = min(loud) / min(quiet)
    if ratio > MOST:
        faults.append(f"the ratio is above {MOST}")
    print("\n".join(every))
    print(f"with progress {min(loud):.2f} s, quiet {min(quiet):.2f} s, ratio {ratio:.4f}")
    for fault in dict.fromkeys(faults):
        print(f"bench/reach/run progress: {fault}")
    return 1 if faults else 0
