"""Which units of a plant to build, by calling the proved program `pns`, in exact fractions.

    import pathlib, pns

    plant = pns.Plant.read("plant.pns")
    best = pns.solve(plant)
    print(best.network.units, best.cost)
    assert pns.check(plant, best)

The argument `program` of a call names the program, else the variable PNS, else it is `pns` on the
PATH. A plant is a `Plant`, a dictionary, a text, or a `pathlib.Path`. Sizes are in the units of
the file and costs in its money, a year, as `fractions.Fraction`. What is no answer is raised as
a `PnsError`; a fault of a text has its line and its kind.
"""
from .calls import (
    all_structures, call, canonical_text, check, find_program, list_structures, periods, plan_text,
    rank, report, show, solve, stable,
)
from .calls import list_structures as list  # noqa: A004, by the name of the command
from .faults import (
    BadToken, BudgetSpent, CallFailed, ClaimRefused, Fault, NotBest, NumberPast, PlanFault,
    PlantFault, PnsError, ProgramMissing, SearchStopped, TreeFault, UnknownName,
)
from .plant import Material, Plant, Unit
from .results import (
    Design, Listing, Network, Period, Range, Ranking, Report, Solution, Structure, Verdict, frame,
)

__version__ = "0.1.0"

# `list` is left out, so that `from pns import *` leaves Python's own list as it is
__all__ = [
    "BadToken", "BudgetSpent", "CallFailed", "ClaimRefused", "Design", "Fault", "Listing",
    "Material", "Network", "NotBest", "NumberPast", "Period", "PlanFault", "Plant", "PlantFault",
    "PnsError", "ProgramMissing", "Range", "Ranking", "Report", "SearchStopped", "Solution",
    "Structure", "TreeFault", "Unit", "UnknownName", "Verdict", "all_structures", "call",
    "canonical_text", "check", "find_program", "frame", "list_structures", "periods", "plan_text",
    "rank", "report", "show", "solve", "stable",
]
