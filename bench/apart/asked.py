"""What the scripts of this folder share: the program with its calls, and the structures of a plant
with the cost of their flows."""
import os
import resource
import subprocess
import sys
import tempfile
from fractions import Fraction

TOP = os.path.dirname(os.path.dirname(os.path.dirname(os.path.abspath(__file__))))
BUDGET = "1000000"


class Program:
    """The program, and a folder for its files."""

    def __init__(self, path):
        self.path = path
        self.room = tempfile.TemporaryDirectory()

    def call(self, *words):
        """The status of a call and its text."""
        run = subprocess.run([self.path, *words], capture_output=True, text=True)
        return run.returncode, run.stdout

    def timed(self, *words):
        """The processor time of a call in seconds, with status and text."""
        before = resource.getrusage(resource.RUSAGE_CHILDREN)
        answer = self.call(*words)
        after = resource.getrusage(resource.RUSAGE_CHILDREN)
        return after.ru_utime + after.ru_stime - before.ru_utime - before.ru_stime, answer

    def file(self, name, text):
        """The path of a file of this name with this text."""
        path = os.path.join(self.room.name, name)
        with open(path, "w", encoding="utf-8") as file:
            file.write(text)
        return path

    def made(self, number, units):
        """The text of a plant of `make`."""
        return self.call("make", str(number), str(units))[1]


def program_from(words, script, folder="apart"):
    """The program that the first word names, if there is one, else the variable PNS, else
    crates/pns/out/pns. If it is not there, the script ends with status 0."""
    path = words[0] if words else os.environ.get("PNS", os.path.join(TOP, "crates/pns/out/pns"))
    if not os.access(path, os.X_OK):
        print(f"bench/{folder}/{script}: no {path} here, skipped: make run builds it")
        sys.exit(0)
    return Program(os.path.abspath(path))


def cost_over(sizes, cost):
    """The cost of the lines `sizes` and `cost`, over the payout period."""
    return Fraction(int(cost.split(" ")[1]), int(sizes.split(" ")[1]))


def structures_listed(program, path):
    """The units of each structure that `list` prints."""
    status, text = program.call("list", path, "start", "1000000000")
    assert status == 0 and text.endswith("end\n"), text[-200:]
    return [tuple(line.split(" ")[1:]) for line in text.splitlines()[:-1]]


def costs_listed(program, path):
    """How many structures there are, and the cost of each that has flows, by its units."""
    structures, costs = structures_listed(program, path), {}
    for units in structures:
        status, text = program.call("flows", path, ",".join(units))
        assert status == 0, text
        if not text.startswith("infeasible"):
            costs[units] = cost_over(*text.splitlines()[1:3])
    return len(structures), costs


def verdict(wrong):
    """Prints whether all agree, and returns the status."""
    print("all agree" if wrong == 0 else f"{wrong} differ")
    return 1 if wrong else 0
