"""What the program answers, as values. Sizes are in the units of the file, costs in its money."""
from __future__ import annotations

import functools
from dataclasses import dataclass, field
from fractions import Fraction
from typing import Any, Dict, Iterator, List, Mapping, Optional, Sequence, Tuple

from .plant import Plant

Row = Dict[str, Any]


def frame(rows: Sequence[Row], exact: bool = False) -> Any:
    """The rows as a pandas.DataFrame; needs pandas. Fractions become floats, unless `exact`."""
    try:
        import pandas
    except ImportError:
        raise ImportError("tables need pandas, which is not here; rows are there without") from None
    if exact:
        return pandas.DataFrame(rows)
    shown = [
        {key: float(it) if isinstance(it, Fraction) else it for key, it in row.items()}
        for row in rows
    ]
    return pandas.DataFrame(shown)


@dataclass(frozen=True)
class Network:
    """A network: the size of each of its units, and what it costs in one year."""

    sizes: Mapping[str, Fraction]
    cost: Fraction

    @property
    def units(self) -> Tuple[str, ...]:
        """The names of the units, in the order of the plant."""
        return tuple(self.sizes)

    def __str__(self) -> str:
        sizes = ", ".join(f"{name} {size}" for name, size in self.sizes.items())
        return f"{sizes}: cost {self.cost}"


@dataclass(frozen=True)
class Report:
    """What a tree proves, and the network of its claim in numbers, as the program prints them.

    `verdict` is `proved`, `not finished` or `not proved`; in the last case `node` is the first node
    that fails, from 0 in preorder, or `head` the first line of the head of the tree, from 0, and
    `why` is the cause. `claim` is `network`, `infeasible` or `unknown`. Without a network all from
    `counts` to `left_out` is empty. A row is a dictionary, a number in it is a Fraction, or None
    where it overflows 128 bits. Money is for one year, costs are above 0.

    Of a tree that is not finished `low` is what no network costs less than, and `gap` is how far
    the network is above that, over the size of its cost; each is None if it is not known.
    """

    verdict: str
    claim: str
    node: Optional[int] = None
    why: Optional[str] = None
    counts: Mapping[str, int] = field(default_factory=dict)
    payout_period: int = 1
    units: Tuple[Row, ...] = ()
    materials: Tuple[Row, ...] = ()
    money: Mapping[str, Optional[Fraction]] = field(default_factory=dict)
    paid_once: Optional[Fraction] = None
    left_out: Tuple[str, ...] = ()
    low: Optional[Fraction] = None
    gap: Optional[Fraction] = None
    head: Optional[int] = None

    @property
    def proved(self) -> bool:
        """Whether the tree proves its claim."""
        return self.verdict == "proved"

    @classmethod
    def from_json(cls, facts: Mapping[str, Any]) -> Report:
        """The report of the object that `pns json` prints."""
        return cls(
            facts["verdict"], facts["claim"], facts["node"], facts["why"],
            facts.get("counts", {}), facts.get("payout_period", 1),
            tuple(_row("unit", it) for it in facts.get("units", ())),
            tuple(_row("material", it) for it in facts.get("materials", ())),
            {key: _exact(it) for key, it in facts.get("money", {}).items()},
            _exact(facts.get("paid_once")), tuple(facts.get("left_out", ())),
            _exact(facts.get("low")), _exact(facts.get("gap")), facts.get("head"),
        )

    def unit_table(self, exact: bool = False) -> Any:
        """`units` as a pandas.DataFrame."""
        return frame(self.units, exact)

    def material_table(self, exact: bool = False) -> Any:
        """`materials` as a pandas.DataFrame."""
        return frame(self.materials, exact)


def _exact(value: Any) -> Any:
    """A number of the object as a Fraction; a word, or what is missing, as it is."""
    if not isinstance(value, dict):
        return value
    return None if value["exact"] is None else Fraction(value["exact"])


def _row(what: str, values: Mapping[str, Any]) -> Row:
    return {what if key == "name" else key: _exact(it) for key, it in values.items()}


@dataclass(frozen=True)
class Solution:
    """What `solve` found: a network of least cost, or None if no network has flows.

    `tree` is the text that proves it; `check` judges it. `program` is the one that was called.
    """

    plant: Plant = field(repr=False)
    network: Optional[Network]
    tree: str = field(repr=False)
    program: Optional[str] = field(default=None, repr=False, compare=False)

    @property
    def infeasible(self) -> bool:
        """Whether no network meets the bounds."""
        return self.network is None

    @property
    def cost(self) -> Optional[Fraction]:
        """The cost in one year, or None if there is no network."""
        return None if self.network is None else self.network.cost

    @property
    def nodes(self) -> int:
        """How many nodes the tree has."""
        return sum(line.split(" ", 1)[0] == "node" for line in self.tree.splitlines())

    @functools.cached_property
    def report(self) -> Report:
        """What the tree proves and the network in numbers; the program is called for it once."""
        from .calls import report

        return report(self.plant, self.tree, self.program)

    def unit_rows(self) -> List[Row]:
        """A row for each unit of the network: its size and what it costs in one year."""
        return [dict(it) for it in self.report.units]

    def material_rows(self) -> List[Row]:
        """A row for each material of the network: made, used, left over, and what that costs."""
        return [dict(it) for it in self.report.materials]

    def unit_table(self, exact: bool = False) -> Any:
        """`unit_rows` as a pandas.DataFrame."""
        return self.report.unit_table(exact)

    def material_table(self, exact: bool = False) -> Any:
        """`material_rows` as a pandas.DataFrame."""
        return self.report.material_table(exact)


@dataclass(frozen=True)
class Verdict:
    """What `check` says of a tree; true if it is accepted.

    A refusal has its `cause` and its place: `node`, from 0 in preorder, `head`, a line of the head
    from 0, or `network`, from 1 in a ranking, or none where the claim itself is refused.
    """

    accepted: bool
    line: str
    cause: Optional[str] = None
    node: Optional[int] = None
    network: Optional[int] = None
    head: Optional[int] = None

    def __bool__(self) -> bool:
        return self.accepted

    def __str__(self) -> str:
        return self.line


@dataclass(frozen=True)
class Ranking:
    """The best networks, cheapest first. If there are fewer than `asked`, no others have
    flows. `text` proves it; `check` judges it."""

    plant: Plant = field(repr=False)
    asked: int
    networks: Tuple[Network, ...]
    text: str = field(repr=False)

    def __iter__(self) -> Iterator[Network]:
        return iter(self.networks)

    def __len__(self) -> int:
        return len(self.networks)

    @property
    def complete(self) -> bool:
        """Whether these are surely all networks with flows."""
        return len(self.networks) < self.asked

    def rows(self) -> List[Row]:
        """A row for each network: its place, its cost, and the size of each unit that some have."""
        has = {name for it in self.networks for name in it.sizes}
        names = [name for name in self.plant.units if name in has]
        return [
            {"place": k, "cost": it.cost, **{name: it.sizes.get(name) for name in names}}
            for k, it in enumerate(self.networks, 1)
        ]

    def table(self, exact: bool = False) -> Any:
        """`rows` as a pandas.DataFrame."""
        return frame(self.rows(), exact)


@dataclass(frozen=True)
class Structure:
    """A clash-free solution structure: its units, and the token from which a listing goes on."""

    token: str
    units: Tuple[str, ...]


@dataclass(frozen=True)
class Listing:
    """Clash-free solution structures in order. `more` is the token from which a later call goes on,
    or None if no structure follows."""

    structures: Tuple[Structure, ...]
    more: Optional[str]

    def __iter__(self) -> Iterator[Structure]:
        return iter(self.structures)

    def __len__(self) -> int:
        return len(self.structures)


@dataclass(frozen=True)
class Range:
    """From `low` to `high` the network stays one of least cost, all other numbers as they are.

    One millionth below `low` the network `below` costs less, and one above `high` the network
    `above`; their costs are those at that value. None stands where a limit of the text ends it.
    """

    kind: str
    name: str
    low: Fraction
    below: Optional[Network]
    high: Fraction
    above: Optional[Network]


@dataclass(frozen=True)
class Period:
    """The units that run in one period, with their sizes."""

    sizes: Mapping[str, Fraction]


@dataclass(frozen=True)
class Design:
    """What `periods` found: the capacities of what is built once, and how it runs."""

    plant: Plant = field(repr=False)
    capacities: Mapping[str, Fraction]
    cost: Fraction
    periods: Tuple[Period, ...]

    @property
    def built(self) -> Tuple[str, ...]:
        """The names of the units that are built."""
        return tuple(self.capacities)

    def rows(self) -> List[Row]:
        """A row for each unit that is built: its capacity, and its size in each period."""
        return [
            {"unit": name, "capacity": most, **{
                f"period {k}": it.sizes.get(name) for k, it in enumerate(self.periods, 1)
            }}
            for name, most in self.capacities.items()
        ]

    def table(self, exact: bool = False) -> Any:
        """`rows` as a pandas.DataFrame."""
        return frame(self.rows(), exact)
