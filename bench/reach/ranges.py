"""How long a range takes: `stable` for each price of a raw material and each fixed cost of a unit
in the network of least cost.

    bench/reach/run ranges [PROGRAM [FOLDER]]

PROGRAM is crates/pns/out/pns if left out; without it this says so and ends with status 0. The
plants are those of `make N UNITS` for 30 and 60 units and the numbers 0, 14 and 25, or if FOLDER is
given its files NAME.pns; a plant that `solve` does not answer in SECONDS is left out. Each search
has BUDGET nodes. For each spot the searches of a range are made again by `solve`, on the plant with
each value put in by `edit`. So this counts them, times as many `solve` runs, and finds the range
itself, which has to be the one that `stable` prints. (If several networks are equally cheap the two
may go by way of different ones; then the number of searches may differ by a few.) Times are
processor times, the least of three calls. Prints a row of a Markdown table for each plant, with
medians over its spots, and one for all spots at the end; the status is 1 if a range differs.
Nothing here is part of the gate.
"""
import os
import statistics
import subprocess
import sys
from dataclasses import dataclass
from fractions import Fraction

import shared  # noqa: F401
from asked import program_from
from plants import Plant
from spots import (
    LIMIT,
    MILLION,
    Range,
    least_value,
    network_of,
    slopes,
    value_now,
    with_value,
)

BUDGET = "20000"
SECONDS = 20
REPEATS = 3


def timed(program, *words):
    """The least processor time of some calls, with status and output."""
    best, answer = program.timed(*words)
    for _ in range(REPEATS - 1):
        if best > 0.5:
            break
        best = min(best, program.timed(*words)[0])
    return best, answer


def middle(low, high):
    """The value between, by length, at which to look if no answer came, as in `stability`."""
    half = high // 2
    if half <= low:
        return low + (high - low) // 2
    shift = (low.bit_length() + high.bit_length()) // 2
    return min(1 << shift, half)


def outwards(low, high):
    """The value on the way out at which to look if a budget was spent; `stability` has the same."""
    if low == 0:
        return 65536 if high > 65536 else middle(low, high)
    return low * 4 if low < high // 4 else high // 2


@dataclass
class Replay:
    """The searches of one range, made by `solve`."""

    program: object
    path: str
    plant: Plant
    claim: object
    kind: str
    name: str
    searches: int = 0
    seconds: float = 0

    def __post_init__(self):
        self.now = value_now(self.plant, self.kind, self.name)
        self.slope = self.claim.slope(self.plant, self.kind, self.name)

    def ours(self, value):
        return self.claim.cost + self.slope * Fraction(value - self.now, MILLION)

    def search(self, value):
        """The network that is cheaper at the value, or none; if no answer comes, how to go on."""
        edited = with_value(self.program, self.path, self.kind, self.name, value)
        took, (status, text) = timed(self.program, "solve", edited, BUDGET)
        self.searches += 1
        self.seconds += took
        if status != 0:
            return outwards if status == 5 else middle
        found = network_of(text, self.plant.payout)
        return found if found.cost < self.ours(value) else None

    def meeting(self, step, found, value):
        """How far away the network that is cheaper at the value is still no cheaper."""
        theirs = found.slope(self.plant, self.kind, self.name)
        lead = found.cost + theirs * Fraction(self.now - value, MILLION) - self.claim.cost
        fall = (self.slope - theirs) * step / MILLION
        return int(lead / fall)

    def end(self, step):
        """The end of the range on one side, or none if no answer comes."""
        room = LIMIT - self.now if step > 0 else self.now - least_value(self.kind)
        least, greatest = slopes(self.plant, self.kind, self.name)
        if room == 0 or self.slope == (least if step > 0 else greatest):
            return self.now + step * room
        good, bad, beyond = 0, room, self.search(self.now + step * room)
        if beyond is None:
            return self.now + step * room
        while True:
            if callable(beyond):
                if bad // 2 <= good:
                    return None
                near = beyond(good, bad)
            else:
                if bad - good == 1:
                    return self.now + step * good
                near = self.meeting(step, beyond, self.now + step * bad)
            near = min(max(near, good + 1), bad - 1)
            found = self.search(self.now + step * near)
            if found is None:
                good = near
            else:
                bad, beyond = near, found

    def range(self):
        self.search(self.now)
        start = self.end(-1)
        return (start, self.end(1)) if start is not None else None


@dataclass
class Spot:
    seconds: float
    searches: int
    searching: float
    once: float

    def ratio(self):
        return self.seconds / self.once


def spots_of(program, path, tree, claim, plant, once):
    """Each spot of the plant, and those whose range differs."""
    spots, differ, wanting = [], [], 0
    named = [
        ("price", name) for name, it in plant.materials.items() if it.kind == "raw_material"
    ] + [("fix", name) for name in claim.units]
    for kind, name in named:
        took, (status, text) = timed(program, "stable", path, tree, kind, name, BUDGET)
        again = Replay(program, path, plant, claim, kind, name)
        wanted = again.range()
        if status == 0:
            found = Range(text, plant.payout)
            if (found.start, found.end) != wanted:
                differ.append(f"{kind} {name}: {found.start} to {found.end}, not {wanted}")
        else:
            wanting += 1
            if wanted is not None and status not in (4, 5):
                differ.append(f"{kind} {name}: status {status}")
        spots.append(Spot(took, again.searches, again.seconds, once))
    return spots, differ, wanting


def row(title, spots, wanting):
    ms = [
        f"{1000 * statistics.median(values):.1f}"
        for values in (
            [it.once for it in spots],
            [it.seconds for it in spots],
            [it.searching for it in spots],
        )
    ]
    return (
        f"| {title} | {len(spots)} | {wanting} | {ms[0]} | {ms[1]} | "
        f"{statistics.median(it.ratio() for it in spots):.1f} | "
        f"{max(it.ratio() for it in spots):.1f} "
        f"| {statistics.median(it.searches for it in spots):g} | "
        f"{max(it.searches for it in spots)} | {ms[2]} |"
    )


def plants_of(program, folder):
    if folder:
        for name in sorted(os.listdir(folder)):
            if name.endswith(".pns"):
                with open(os.path.join(folder, name), encoding="utf-8") as file:
                    yield name[:-4], file.read()
    else:
        for units in ("30", "60"):
            for number in ("0", "14", "25"):
                yield f"make {number} {units}", program.made(number, units)


def main():
    words = sys.argv[1:]
    program = program_from(words[:1], "run ranges", "reach")
    everything, wrong, without = [], 0, 0
    print(
        "| Plant | Spots | Without an answer | One `solve`, ms | A range, ms | Beside one `solve` "
        "| At most | Searches | At most | As many `solve` runs, ms |"
    )
    print("|---|---|---|---|---|---|---|---|---|---|")
    for title, text in plants_of(program, words[1] if len(words) > 1 else None):
        path, plant = program.file("plant.pns", text), Plant(text, None)
        try:
            subprocess.run(
                [program.path, "solve", path, BUDGET], capture_output=True, timeout=SECONDS
            )
        except subprocess.TimeoutExpired:
            print(f"| {title} | none: `solve` takes more than {SECONDS} s | | | | | | | | |")
            continue
        once, (status, answer) = timed(program, "solve", path, BUDGET)
        if status != 0 or not answer.splitlines()[1].startswith("network"):
            print(f"| {title} | none: `solve` ends with status {status} | | | | | | | | |")
            continue
        claim, tree = network_of(answer, plant.payout), program.file("tree", answer)
        spots, differ, wanting = spots_of(program, path, tree, claim, plant, once)
        everything += spots
        without += wanting
        wrong += len(differ)
        print(row(title, spots, wanting), flush=True)
        for it in differ:
            print(f"{title}: {it}")
    if everything:
        print(row("all", everything, without))
    return 1 if wrong else 0
