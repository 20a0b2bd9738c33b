"""Calls of the program: each writes its files into a folder of its own, and reads the answer."""
from __future__ import annotations

import json
import os
import pathlib
import shutil
import subprocess
import tempfile
from fractions import Fraction
from typing import Any, Dict, Iterator, List, Mapping, NamedTuple, Optional, Sequence, Tuple, Union

from . import faults
from .plant import Plant, decimal_text, name_text
from .results import (
    Design, Listing, Network, Period, Range, Ranking, Report, Solution, Structure, Verdict,
)

PlantLike = Union[Plant, Mapping[str, Any], str, os.PathLike]
TreeLike = Union[Solution, Ranking, str, os.PathLike]
PlanLike = Union[Sequence[Mapping[str, Any]], str, os.PathLike]

BUDGET = 100_000
RANK_LINE = "file_type=PNS_rank_v1"


class Answer(NamedTuple):
    """The status of a call, and the text that came with it."""

    status: int
    text: str

    @property
    def lines(self) -> List[str]:
        return self.text.splitlines()


def find_program(program: Optional[str] = None) -> str:
    """The path of the program: the argument, else what PNS names, else `pns` on the PATH."""
    named = program or os.environ.get("PNS") or "pns"
    found = shutil.which(named)
    if found is None:
        raise faults.ProgramMissing(
            f"there is no program {named}: name it by the argument `program` or by PNS"
        )
    return os.path.abspath(found)


def call(
    command: str, words: Sequence[str], files: Mapping[str, bytes], program: Optional[str] = None
) -> Answer:
    """Calls the program in a folder with these files, and returns the status and the text.

    The faults that commands share are raised: those of the files, of names and of tokens.
    """
    path = find_program(program)
    with tempfile.TemporaryDirectory(prefix="pns-") as folder:
        for name, data in files.items():
            (pathlib.Path(folder) / name).write_bytes(data)
        try:
            done = subprocess.run(
                [path, command, *words], cwd=folder, stdin=subprocess.DEVNULL,
                stdout=subprocess.PIPE, stderr=subprocess.PIPE, check=False,
            )
        except OSError as error:
            raise faults.ProgramMissing(f"{path} cannot be called: {error.strerror}") from error
    answer = Answer(done.returncode, _text_of(done))
    kinds = {3: ("plant", faults.PlantFault), 10: ("tree", faults.TreeFault),
             19: ("plan", faults.PlanFault)}
    if answer.status in kinds:
        name, fault = kinds[answer.status]
        raise _fault(fault, answer.text, files.get(name, b""))
    return answer


def _text_of(done: "subprocess.CompletedProcess[bytes]") -> str:
    """The answer on standard output, and the lines on standard error that are not for people."""
    lines = done.stderr.decode("utf-8", "replace").splitlines(keepends=True)
    said = "".join(line for line in lines if not line.startswith("  "))
    return done.stdout.decode("utf-8", "replace") + said


def _fault(kind: type, text: str, data: bytes) -> faults.Fault:
    words = text.split()
    line, lines = int(words[2]), data.decode("utf-8", "replace").split("\n")
    return kind(line, words[3], lines[line - 1].strip() if line <= len(lines) else "")


def _failed(command: str, answer: Answer) -> faults.CallFailed:
    return faults.CallFailed(command, answer.status, answer.text)


def canonical_text(data: bytes, program: Optional[str] = None) -> str:
    """The canonical text of the plant in these bytes, as the program prints it."""
    files = {"plant": data, "script": b"file_type=PNS_edits_v1\n"}
    answer = call("edit", ["plant", "script"], files, program)
    if answer.status != 0:
        raise _failed("edit", answer)
    return answer.text


def as_plant(plant: PlantLike, program: Optional[str] = None) -> Plant:
    """The plant itself, or that of a dictionary, of a text, or of the file that a path names."""
    if isinstance(plant, Plant):
        return plant.copy()
    if isinstance(plant, str):
        return Plant.from_text(_text(plant), program)
    if isinstance(plant, os.PathLike):
        return Plant.read(plant, program)
    return Plant.from_dict(plant)


def _text(it: str) -> str:
    """The string itself, if it may be a text: each has several lines."""
    if "\n" not in it:
        raise ValueError(f"{it!r} is no text; give a file as a pathlib.Path")
    return it


def _bytes(it: Union[str, os.PathLike]) -> bytes:
    return _text(it).encode("utf-8") if isinstance(it, str) else pathlib.Path(it).read_bytes()


def _tree_bytes(tree: TreeLike) -> bytes:
    if isinstance(tree, Solution):
        return tree.tree.encode("utf-8")
    return tree.text.encode("utf-8") if isinstance(tree, Ranking) else _bytes(tree)


def _plant_bytes(plant: Plant) -> bytes:
    return plant.to_text().encode("ascii")


# reading what was printed


def _sizes(names: Sequence[str], words: Sequence[str], over: int) -> Dict[str, Fraction]:
    return {name: Fraction(int(it), over * 10**6) for name, it in zip(names, words)}


def _network(lines: Sequence[str], years: int) -> Network:
    """The network of the three lines `network`, `sizes` and `cost`."""
    names, sizes, cost = lines[0].split()[1:], lines[1].split()[1:], lines[2].split()[1]
    over = int(sizes[0])
    return Network(_sizes(names, sizes[1:], over), Fraction(int(cost), over * years * 10**18))


def _claimed(lines: Sequence[str], years: int) -> Optional[Network]:
    """The network that a tree text claims, if it claims one; its first line is that of the file."""
    return _network(lines[1:4], years) if lines[1].startswith("network") else None


def _stopped(
    answer: Answer, network: Optional[Network], at: Optional[Fraction] = None
) -> faults.SearchStopped:
    kind = faults.BudgetSpent if answer.status == 5 else faults.NumberPast
    return kind(answer.text, network, None if at is None else decimal_text(at))


# the commands


def solve(plant: PlantLike, budget: int = BUDGET, program: Optional[str] = None) -> Solution:
    """A network of least cost, or none if no network has flows, with the tree that proves it.

    Raises `BudgetSpent` or `NumberPast`, with the cheapest network found, where the search came
    to no end. `budget` is the most nodes that the tree may have.
    """
    own = as_plant(plant, program)
    answer = call("solve", ["plant", str(budget)], {"plant": _plant_bytes(own)}, program)
    if answer.status not in (0, 4, 5):
        raise _failed("solve", answer)
    network = _claimed(answer.lines, own.payout_period)
    if answer.status != 0:
        raise _stopped(answer, network)
    return Solution(own, network, answer.text, program)


def report(plant: PlantLike, tree: TreeLike, program: Optional[str] = None) -> Report:
    """What a tree proves, and the network that it claims in numbers. The tree may come from
    anywhere, also from a search that was stopped: its text is that of the exception.

    Raises `ClaimRefused` where the network of the claim is none of this plant.
    """
    own = as_plant(plant, program)
    files = {"plant": _plant_bytes(own), "tree": _tree_bytes(tree)}
    answer = call("json", ["plant", "tree"], files, program)
    if answer.status == 1:
        raise faults.ClaimRefused(answer.text.split()[-1])
    if answer.status != 0:
        raise _failed("json", answer)
    return Report.from_json(json.loads(answer.text))


def show(plant: PlantLike, budget: int = BUDGET, program: Optional[str] = None) -> str:
    """The report for people: what is proved, in its first line, and the network in tables. It
    comes even if the search did not finish; the first line says so."""
    own = as_plant(plant, program)
    answer = call("show", ["plant", str(budget)], {"plant": _plant_bytes(own)}, program)
    if answer.status not in (0, 4, 5):
        raise _failed("show", answer)
    return answer.text


def check(plant: PlantLike, tree: TreeLike, program: Optional[str] = None) -> Verdict:
    """Whether a tree, or a ranking, proves its claim on the plant; it may come from anywhere."""
    own, data = as_plant(plant, program), _tree_bytes(tree)
    command = "rankcheck" if data.startswith(RANK_LINE.encode()) else "check"
    files = {"plant": _plant_bytes(own), "tree": data}
    answer = call(command, ["plant", "tree"], files, program)
    line = answer.text.strip()
    if answer.status == 0 and line == "accepted":
        return Verdict(True, line)
    if answer.status != 1:
        raise _failed(command, answer)
    words = line.split()
    places = {words[1]: int(words[2])} if words[1] in ("node", "network", "head") else {}
    return Verdict(False, line, words[-1], **places)


def rank(
    plant: PlantLike, count: int, budget: int = BUDGET, program: Optional[str] = None
) -> Ranking:
    """The `count` best networks, each at its own least cost, with a text that proves it."""
    own = as_plant(plant, program)
    files = {"plant": _plant_bytes(own)}
    answer = call("rank", ["plant", str(count), str(budget)], files, program)
    if answer.status not in (0, 4, 5):
        raise _failed("rank", answer)
    lines = answer.lines
    starts = range(3, 3 + 3 * int(lines[2].split()[1]), 3)
    networks = tuple(_network(lines[k:k + 3], own.payout_period) for k in starts)
    if answer.status != 0:
        raise _stopped(answer, networks[0] if networks else None)
    return Ranking(own, count, networks, answer.text)


def list_structures(
    plant: PlantLike, after: str = "start", count: int = 1000, program: Optional[str] = None
) -> Listing:
    """At most `count` clash-free solution structures after the token `after`, in order."""
    own = as_plant(plant, program)
    words = ["plant", after, str(count)]
    answer = call("list", words, {"plant": _plant_bytes(own)}, program)
    if answer.status == 9:
        raise faults.BadToken(after)
    if answer.status != 0:
        raise _failed("list", answer)
    *rows, last = [line.split() for line in answer.lines]
    found = tuple(Structure(it[0], tuple(it[1:])) for it in rows)
    return Listing(found, last[1] if last[0] == "more" else None)


def all_structures(
    plant: PlantLike, step: int = 10_000, program: Optional[str] = None
) -> Iterator[Structure]:
    """All clash-free solution structures in order, one by one; each call asks for `step`."""
    own, after = as_plant(plant, program), "start"
    while True:
        found = list_structures(own, after, step, program)
        yield from found
        if found.more is None:
            return
        after = found.more


def stable(
    plant: PlantLike, tree: TreeLike, kind: str, name: str, budget: int = BUDGET,
    program: Optional[str] = None,
) -> Range:
    """How far one number may move until another network is better than the claimed one.

    `kind` is `price` of a material, or `fix` or `proportional` of a unit. The network has to be
    one of least cost now, else `NotBest` is raised. The range is exact to one millionth.
    """
    if kind not in ("price", "fix", "proportional"):
        raise ValueError(f"{kind!r} is none of price, fix, proportional")
    own = as_plant(plant, program)
    files = {"plant": _plant_bytes(own), "tree": _tree_bytes(tree)}
    answer = call("stable", ["plant", "tree", kind, name, str(budget)], files, program)
    lines, years = answer.lines, own.payout_period
    if answer.status == 1:
        raise faults.ClaimRefused(lines[0].split()[-1])
    if answer.status == 13:
        raise faults.NotBest(_network(lines[1:4], years))
    if answer.status == 14:
        raise faults.UnknownName("material" if kind == "price" else "unit", name)
    if answer.status in (4, 5):
        whole = lines[1].startswith("file_type")
        at = Fraction(int(lines[0].split()[1]), 10**6)
        raise _stopped(answer, _claimed(lines[1:], years) if whole else None, at)
    if answer.status != 0:
        raise _failed("stable", answer)
    low, below, rest = _end(lines, years)
    high, above, _ = _end(rest, years)
    return Range(kind, name, low, below, high, above)


def _end(lines: List[str], years: int) -> Tuple[Fraction, Optional[Network], List[str]]:
    """One end of a range, with the network beyond it, and the lines that are left."""
    value = Fraction(int(lines[0].split()[1]), 10**6)
    if lines[1].endswith("limit"):
        return value, None, lines[2:]
    return value, _network(lines[2:5], years), lines[5:]


def plan_text(plan: Sequence[Mapping[str, Any]]) -> str:
    """The text of a plan, a dictionary for each period: `price` and `bounds` of materials.

    For example `[{}, {"price": {"A": 5}, "bounds": {"P": (30, 30)}}]`.
    """
    lines = ["file_type=PNS_plan_v1"]
    for period in plan:
        for key in period:
            if key not in ("price", "bounds"):
                raise ValueError(f"{key!r} of a period is none of price, bounds")
        lines.append("period")
        for name, value in period.get("price", {}).items():
            lines.append(f"price {name_text(name)} {decimal_text(value)}")
        for name, (low, high) in period.get("bounds", {}).items():
            lines.append(f"bounds {name_text(name)} {decimal_text(low)} {decimal_text(high)}")
    return "\n".join(lines) + "\n"


def periods(
    plant: PlantLike, plan: PlanLike, budget: int = BUDGET, program: Optional[str] = None
) -> Optional[Design]:
    """What to build once for several periods, and how to run it in each, at least cost; or None
    if the plant has no design. `plan` is a list as for `plan_text`, a text, or a path."""
    own = as_plant(plant, program)
    text = plan_text(plan) if not isinstance(plan, (str, os.PathLike)) else plan
    files = {"plant": _plant_bytes(own), "plan": _bytes(text)}
    answer = call("periods", ["plant", "plan", str(budget)], files, program)
    if answer.status in (4, 5):
        raise _stopped(answer, None)
    if answer.status != 0:
        raise _failed("periods", answer)
    lines = answer.lines
    if lines == ["infeasible"]:
        return None
    names, (over, *most) = lines[0].split()[1:], map(int, lines[1].split()[1:])
    cost = Fraction(int(lines[2].split()[1]), over * own.payout_period * 10**18)
    runs = [
        Period(_sizes(lines[k + 1].split()[1:], lines[k + 2].split()[1:], over))
        for k in range(3, len(lines), 3)
    ]
    return Design(own, _sizes(names, [str(it) for it in most], over), cost, tuple(runs))
