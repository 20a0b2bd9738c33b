"""What can go wrong in a call, as exceptions. All of them are a `PnsError`."""
from __future__ import annotations

from typing import TYPE_CHECKING, Optional

if TYPE_CHECKING:
    from .results import Network


class PnsError(Exception):
    """A call of the program that gave no answer."""


class ProgramMissing(PnsError):
    """There is no program to call."""


class CallFailed(PnsError):
    """The program ended with a status that has no exception of its own."""

    def __init__(self, command: str, status: int, text: str) -> None:
        told = text.strip().splitlines()[-1:] or ["nothing was printed"]
        hint = f"; `pns help {command}` has the limits of its words" if status == 2 else ""
        super().__init__(f"pns {command} ended with status {status}: {told[0]}{hint}")
        self.command, self.status, self.text = command, status, text


class Fault(PnsError):
    """A text has a fault; the program names the first one.

    `line` counts from 1, `kind` is a word of the tables in docs/FORMATS.md, and `words` is what
    stands in that line, empty where the line is missing.
    """

    what = "text"

    def __init__(self, line: int, kind: str, words: str = "") -> None:
        shown = f": {words}" if words else ""
        super().__init__(f"{self.what} line {line} {kind}{shown}")
        self.line, self.kind, self.words = line, kind, words


class PlantFault(Fault):
    """The text of a plant has a fault."""

    what = "problem"


class TreeFault(Fault):
    """The text of a branch tree, or of a ranking, has a fault."""

    what = "tree"


class PlanFault(Fault):
    """The text of a plan has a fault."""

    what = "plan"


class SearchStopped(PnsError):
    """A search came to no end, so nothing is proved.

    `network` is the cheapest network that was found, which may not be the best one, or None;
    `text` is what the program printed. `at` is the price or cost at which `stable` stopped.
    """

    why = "the search stopped"

    def __init__(self, text: str, network: Optional[Network] = None, at: object = None) -> None:
        place = "" if at is None else f", at the value {at}"
        super().__init__(f"{self.why}{place}")
        self.text, self.network, self.at = text, network, at


class BudgetSpent(SearchStopped):
    """The tree would have more nodes than the budget (status 5). Take twice as many."""

    why = "the budget of nodes is spent"


class NumberPast(SearchStopped):
    """A number would leave 128 bits (status 4). A larger budget does not help; fewer digits do."""

    why = "a number would leave 128 bits"


class ClaimRefused(PnsError):
    """The network that a tree claims cannot be used: it is missing, or a line of it fails."""

    def __init__(self, cause: str) -> None:
        super().__init__(f"the claim of the tree is refused: {cause}")
        self.cause = cause


class NotBest(PnsError):
    """`stable` was asked of a network that is not a best one; `network` costs less."""

    def __init__(self, network: Network) -> None:
        names = " ".join(network.units)
        super().__init__(f"the claimed network is not one of least cost: {names} costs less")
        self.network = network


class UnknownName(PnsError):
    """The plant has no material, or no unit, of this name."""

    def __init__(self, what: str, name: str) -> None:
        super().__init__(f"the plant has no {what} {name!r}")
        self.name = name


class BadToken(PnsError):
    """A listing was to go on after a token of no solution structure."""

    def __init__(self, token: str) -> None:
        super().__init__(f"{token!r} is neither 'start' nor the token of a solution structure")
        self.token = token
