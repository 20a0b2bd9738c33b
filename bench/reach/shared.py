"""What the subcommands of bench/reach/run share: times, tables and plants."""
import os
import resource
import signal
import subprocess
import sys
from contextlib import suppress
from dataclasses import dataclass

sys.dont_write_bytecode = True
HERE = os.path.dirname(os.path.abspath(__file__))
TOP = os.path.dirname(os.path.dirname(HERE))
sys.path.insert(0, os.path.join(TOP, "bench/apart"))
from made import Draws, rewritten  # noqa: E402

PROGRAM = os.environ.get("PNS", os.path.join(TOP, "crates/pns/out/pns"))
COUNT = 20
UNITS = [9, 15, 30, 60]
DECIMALS = [0, 1, 2, 3]
BOUNDS = [10**9, 1000]


def is_there(name, *programs):
    """Whether the programs are there; if not, says so."""
    for program in programs:
        if not os.access(program, os.X_OK):
            print(f"bench/reach/run {name}: no {program} here, skipped: make run builds it")
            return False
    return True


def used():
    """The processor time of all that was run so far."""
    usage = resource.getrusage(resource.RUSAGE_CHILDREN)
    return usage.ru_utime + usage.ru_stime


def timed(words, seconds):
    """The status, or none if it took more processor time than that, the text and the time."""
    before = used()
    with subprocess.Popen(
        words, stdout=subprocess.PIPE, stderr=subprocess.DEVNULL, text=True
    ) as process:
        with suppress(ProcessLookupError):
            resource.prlimit(process.pid, resource.RLIMIT_CPU, (seconds, seconds))
        text = process.communicate()[0]
    late = process.returncode in (-signal.SIGXCPU, -signal.SIGKILL)
    return None if late else process.returncode, text, used() - before


def nodes_in(text):
    """How many nodes a tree text has."""
    return sum(1 for line in text.splitlines() if line == "node" or line.startswith("node "))


def row(cells):
    """Prints a row of a Markdown table."""
    print(f"| {' | '.join(map(str, cells))} |", flush=True)


def heads(names):
    """Prints the headings of a Markdown table."""
    row(names)
    print("|" + "---|" * len(names))


def machine():
    with open("/proc/cpuinfo") as file:
        model = next(
            (line.split(":")[1].strip() for line in file if line.startswith("model name")),
            "an unknown processor",
        )
    return f"{len(os.sched_getaffinity(0))} x {model}"


def made(program, number, units):
    """The text of a plant of `make`."""
    words = [program, "make", str(number), str(units)]
    return subprocess.run(words, capture_output=True, text=True, check=True).stdout


def written(path, text):
    with open(path, "w", encoding="utf-8") as file:
        file.write(text)
    return path


@dataclass
class Group:
    """Plants that share a row of the table: what its first cells say, and the texts by their
    titles."""

    cells: tuple
    plants: dict


def generated(program):
    """The plants of `make` with rates drawn anew, a group for each bound, decimals and units."""
    for bound in BOUNDS:
        for decimals in DECIMALS:
            for units in UNITS:
                plants = {}
                for number in range(COUNT):
                    draws = Draws(units * 1_000_000 + decimals * 1_000 + number)
                    title = f"make {number} {units}, {decimals} decimals, bounds {bound}"
                    text = made(program, number, units)
                    plants[title] = rewritten(text, draws, decimals, bound)
                yield Group((str(bound), str(decimals), str(units)), plants)


def families(folder):
    """The plants NAME.pns of a folder, a group for each beginning of a name up to the first `_`."""
    found = {}
    for name in sorted(os.listdir(folder)):
        if name.endswith(".pns"):
            with open(os.path.join(folder, name)) as file:
                found.setdefault(name[:-4].split("_")[0], {})[name] = file.read()
    return [Group((family, str(len(plants))), plants) for family, plants in found.items()]
