"""Plants: materials, operating units and exclusions, from and to dictionaries and text."""
from __future__ import annotations

import dataclasses
import decimal
import numbers
import os
import pathlib
import re
from dataclasses import dataclass, field
from fractions import Fraction
from typing import Any, Dict, List, Mapping, Optional, Sequence, Union

Number = Union[int, float, str, decimal.Decimal, Fraction]
FIRST_LINE = "file_type=PNS_problem_v1"
MOST = Fraction(10**9)
KINDS = ("raw_material", "intermediate", "product")


def fraction(value: Number) -> Fraction:
    """The exact value of a number. A float stands for the decimal that Python shows of it."""
    if isinstance(value, bool):
        raise TypeError("True and False are no numbers of a plant")
    if isinstance(value, Fraction):
        return value
    if isinstance(value, float):
        return Fraction(repr(float(value)))
    if isinstance(value, numbers.Integral):
        return Fraction(int(value))
    if isinstance(value, (str, decimal.Decimal)):
        return Fraction(value)
    raise TypeError(f"{value!r} is no number")


def decimal_text(value: Number) -> str:
    """The number as a text has it: a whole number of millionths, no zeros at the end."""
    exact = fraction(value)
    millionths = exact * 10**6
    if millionths.denominator != 1:
        raise ValueError(f"{exact} is no whole number of millionths")
    whole, rest = divmod(abs(millionths.numerator), 10**6)
    places = f".{rest:06}".rstrip("0") if rest else ""
    return f"{'-' if exact < 0 else ''}{whole}{places}"


def name_text(name: str) -> str:
    """The name itself, if it is one that a text may have."""
    if not isinstance(name, str) or not re.fullmatch(r"[A-Za-z_][A-Za-z0-9_.-]{0,63}", name):
        raise ValueError(
            f"{name!r} is no name: a letter or _, then letters, digits, _, - or ., at most 64"
        )
    return name


@dataclass
class Material:
    """A material: its kind, its price and the bounds of what is bought or left over in a year."""

    kind: str = "intermediate"
    price: Fraction = Fraction(0)
    flow_rate_lower_bound: Fraction = Fraction(0)
    flow_rate_upper_bound: Fraction = MOST

    def __post_init__(self) -> None:
        if self.kind not in KINDS:
            raise ValueError(f"{self.kind!r} is no kind of a material: {', '.join(KINDS)}")
        for key in MATERIAL_KEYS:
            setattr(self, key, fraction(getattr(self, key)))


@dataclass
class Unit:
    """An operating unit. At size z it uses and makes z times its rates, and costs for a year
    `fix_cost`, `proportional_cost` times z, and its share of the investment."""

    inputs: Dict[str, Fraction] = field(default_factory=dict)
    outputs: Dict[str, Fraction] = field(default_factory=dict)
    capacity_lower_bound: Fraction = Fraction(0)
    capacity_upper_bound: Fraction = MOST
    fix_cost: Fraction = Fraction(0)
    proportional_cost: Fraction = Fraction(0)
    investment_fix_cost: Fraction = Fraction(0)
    investment_proportional_cost: Fraction = Fraction(0)

    def __post_init__(self) -> None:
        self.inputs = {name: fraction(rate) for name, rate in self.inputs.items()}
        self.outputs = {name: fraction(rate) for name, rate in self.outputs.items()}
        for key in UNIT_KEYS:
            setattr(self, key, fraction(getattr(self, key)))


MATERIAL_KEYS: Dict[str, Fraction] = {
    "price": Fraction(0), "flow_rate_lower_bound": Fraction(0), "flow_rate_upper_bound": MOST,
}
UNIT_KEYS: Dict[str, Fraction] = {
    "capacity_lower_bound": Fraction(0), "capacity_upper_bound": MOST,
    "fix_cost": Fraction(0), "proportional_cost": Fraction(0),
    "investment_fix_cost": Fraction(0), "investment_proportional_cost": Fraction(0),
}


@dataclass
class Plant:
    """A plant. Materials and units are numbered in the order of their dictionaries.

    The numbers may be changed in place: `plant.materials["CO2"].price = "-0.07"`. The names of
    the values are those of the text; docs/FORMATS.md of the repository says what they mean.
    """

    materials: Dict[str, Material] = field(default_factory=dict)
    units: Dict[str, Unit] = field(default_factory=dict)
    exclusions: Dict[str, List[str]] = field(default_factory=dict)
    payout_period: int = 1

    def copy(self) -> Plant:
        """Another plant with the same values, all of them exact."""
        return Plant(
            {name: dataclasses.replace(it) for name, it in self.materials.items()},
            {name: dataclasses.replace(it) for name, it in self.units.items()},
            {name: list(it) for name, it in self.exclusions.items()}, self.payout_period,
        )

    # dictionaries

    @classmethod
    def from_dict(cls, data: Mapping[str, Any]) -> Plant:
        """The plant of a dictionary such as `to_dict` gives. What is left out is a default."""
        for key in data:
            if key not in ("materials", "units", "exclusions", "payout_period"):
                raise ValueError(f"{key!r} is no part of a plant")
        materials, units = data.get("materials", {}), data.get("units", {})
        for name, values in materials.items():
            _known(name, values, ("kind", *MATERIAL_KEYS))
        for name, values in units.items():
            _known(name, values, ("inputs", "outputs", *UNIT_KEYS))
        return cls(
            materials={name: Material(**values) for name, values in materials.items()},
            units={name: Unit(**values) for name, values in units.items()},
            exclusions={name: list(it) for name, it in data.get("exclusions", {}).items()},
            payout_period=int(data.get("payout_period", 1)),
        )

    def to_dict(self) -> Dict[str, Any]:
        """The plant as plain values that `json` can write. Whole numbers are int, others are
        decimals in text; what is a default is left out."""
        found: Dict[str, Any] = {"materials": {}, "units": {}}
        for name, material in self.materials.items():
            found["materials"][name] = {"kind": material.kind, **_plain(material, MATERIAL_KEYS)}
        for name, unit in self.units.items():
            found["units"][name] = {
                "inputs": {it: _number(rate) for it, rate in unit.inputs.items()},
                "outputs": {it: _number(rate) for it, rate in unit.outputs.items()},
                **_plain(unit, UNIT_KEYS),
            }
        if self.exclusions:
            found["exclusions"] = {name: list(it) for name, it in self.exclusions.items()}
        if self.payout_period != 1:
            found["payout_period"] = self.payout_period
        return found

    # text

    @classmethod
    def from_text(cls, text: str, program: Optional[str] = None) -> Plant:
        """The plant of a text. The program reads it, and raises a `PlantFault` with its fault."""
        from .calls import canonical_text

        return cls._from_canonical(canonical_text(text.encode("utf-8"), program))

    @classmethod
    def read(cls, path: Union[str, os.PathLike], program: Optional[str] = None) -> Plant:
        """The plant of a file."""
        from .calls import canonical_text

        return cls._from_canonical(canonical_text(pathlib.Path(path).read_bytes(), program))

    def to_text(self) -> str:
        """The canonical text of the plant. Where the plant has no fault it is the one that the
        program itself prints; the plant is not judged here."""
        lines = [FIRST_LINE]
        if self.payout_period != 1:
            lines += ["", "defaults:", f"payout_period={self.payout_period}"]
        lines += ["", "materials:"]
        for name, it in self.materials.items():
            values = [f"{key}={decimal_text(getattr(it, key))}" for key in MATERIAL_KEYS]
            lines.append(f"{name_text(name)}: {', '.join([it.kind, *values])}")
        lines += ["", "operating_units:"]
        for name, unit in self.units.items():
            held = [
                f"{key}={decimal_text(getattr(unit, key))}" for key in UNIT_KEYS
                if not key.startswith("investment") or fraction(getattr(unit, key)) != 0
            ]
            lines.append(f"{name_text(name)}: {', '.join(held)}")
        lines += ["", "material_to_operating_unit_flow_rates:"]
        for name, unit in self.units.items():
            lines.append(f"{name}: {_side(unit.inputs)} => {_side(unit.outputs)}")
        if self.exclusions:
            places = {name: k for k, name in enumerate(self.units)}
            lines += ["", "mutual_exclusions:"]
            for name, members in self.exclusions.items():
                ordered = sorted(members, key=lambda it: places.get(it, len(places)))
                lines.append(f"{name_text(name)}: {', '.join(map(name_text, ordered))}")
        return "\n".join(lines) + "\n"

    def write(self, path: Union[str, os.PathLike]) -> None:
        """Writes the text of the plant to a file."""
        pathlib.Path(path).write_bytes(self.to_text().encode("ascii"))

    @classmethod
    def _from_canonical(cls, text: str) -> Plant:
        plant, section = cls(), ""
        for line in text.splitlines()[1:]:
            if not line:
                continue
            if line.endswith(":"):
                section = line[:-1]
            elif section == "defaults":
                plant.payout_period = int(line.partition("=")[2])
            else:
                name, _, rest = line.partition(": ")
                plant._take(section, name, rest)
        return plant

    def _take(self, section: str, name: str, rest: str) -> None:
        """Takes one line of a section of a canonical text."""
        if section == "materials":
            kind, *items = rest.split(", ")
            self.materials[name] = Material(kind, **dict(it.split("=") for it in items))
        elif section == "operating_units":
            self.units[name] = Unit(**dict(it.split("=") for it in rest.split(", ")))
        elif section == "material_to_operating_unit_flow_rates":
            unit = self.units[name]
            unit.inputs, unit.outputs = map(_rates, rest.split(" => "))
        else:
            self.exclusions[name] = rest.split(", ")


def _known(name: str, values: Mapping[str, Any], keys: Sequence[str]) -> None:
    for key in values:
        if key not in keys:
            raise ValueError(f"{key!r} of {name!r} is none of {', '.join(keys)}")


def _number(value: Fraction) -> Union[int, str]:
    exact = fraction(value)
    return int(exact) if exact.denominator == 1 else decimal_text(exact)


def _plain(it: Any, keys: Mapping[str, Fraction]) -> Dict[str, Union[int, str]]:
    values = {key: fraction(getattr(it, key)) for key in keys}
    return {key: _number(values[key]) for key in keys if values[key] != keys[key]}


def _side(rates: Mapping[str, Fraction]) -> str:
    terms = []
    for name, rate in rates.items():
        one = fraction(rate) == 1
        terms.append(name_text(name) if one else f"{decimal_text(rate)} {name_text(name)}")
    return " + ".join(terms)


def _rates(side: str) -> Dict[str, Fraction]:
    words = [term.split() for term in side.split(" + ")]
    return {it[-1]: Fraction(it[0]) if len(it) == 2 else Fraction(1) for it in words}
