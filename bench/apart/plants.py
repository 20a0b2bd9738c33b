"""The reader of plants: the text of a plant, and of a plan, read apart from `pns`. It takes the
forms of docs/FORMATS.md, but no byte order mark."""
import os
import re
from fractions import Fraction

TOP = os.path.dirname(os.path.dirname(os.path.dirname(os.path.abspath(__file__))))
CASES = os.path.join(TOP, "cases")
MOST = Fraction(10**9)
MATERIAL_KEYS = {"price": 0, "flow_rate_lower_bound": 0, "flow_rate_upper_bound": MOST}
UNIT_KEYS = {
    "capacity_lower_bound": 0,
    "capacity_upper_bound": MOST,
    "fix_cost": 0,
    "proportional_cost": 0,
    "investment_fix_cost": 0,
    "investment_proportional_cost": 0,
}


class Material:
    def __init__(self, kind, values):
        self.kind, self.price = kind, values["price"]
        self.bounds = values["flow_rate_lower_bound"], values["flow_rate_upper_bound"]


class Unit:
    def __init__(self, values):
        self.least, self.most = values["capacity_lower_bound"], values["capacity_upper_bound"]
        self.fixed, self.proportional = values["fix_cost"], values["proportional_cost"]
        self.built, self.built_size = (
            values["investment_fix_cost"],
            values["investment_proportional_cost"],
        )
        self.inputs, self.outputs = {}, {}

    def rate(self, material):
        return self.outputs.get(material, Fraction(0)) - self.inputs.get(material, Fraction(0))

    def touches(self):
        return {**self.inputs, **self.outputs}.keys()


class Plant:
    """A plant with the prices and bounds of each period; without a plan it has one."""

    def __init__(self, text, plan):
        sections, part = {}, ""
        for line in (it.strip() for it in text.splitlines()):
            if line.startswith("#"):
                continue
            if line.endswith(":"):
                part = line[:-1]
            elif line:
                sections.setdefault(part, []).append(line)
        defaults = dict(pair_of(line) for line in sections.get("defaults", []))
        self.payout = Fraction(defaults.get("payout_period", 1))
        self.materials = {}
        for name, items in map(entry, sections["materials"]):
            kinds = [it for it in items if "=" not in it] or [
                defaults.get("material_type", "intermediate")
            ]
            self.materials[name] = Material(
                kinds[0], valued(items, MATERIAL_KEYS, defaults, "material_")
            )
        self.units = {
            name: Unit(valued(items, UNIT_KEYS, defaults, "operating_unit_"))
            for name, items in map(entry, sections.get("operating_units", []))
        }
        for line in sections["material_to_operating_unit_flow_rates"]:
            name, sides = line.split(":")
            unit = self.units.setdefault(
                name.strip(), Unit(valued([], UNIT_KEYS, defaults, "operating_unit_"))
            )
            unit.inputs, unit.outputs = (side_of(side) for side in sides.split("=>"))
        self.exclusions = {
            name: items for name, items in map(entry, sections.get("mutual_exclusions", []))
        }
        self.periods = periods_of(self.materials, plan)
        self.several = plan is not None

    def makers(self, material, units):
        return [name for name in units if material in self.units[name].outputs]

    def users(self, material, units):
        return [name for name in units if material in self.units[name].inputs]

    def is_raw(self, material):
        return self.materials[material].kind == "raw_material"

    def products(self):
        return [name for name, it in self.materials.items() if it.kind == "product"]

    def largest(self, units):
        """The greatest set of these units that meets the axioms, or none if none does."""
        units = [
            name for name in units if not any(self.is_raw(it) for it in self.units[name].outputs)
        ]
        while True:
            kept = [
                name
                for name in units
                if all(self.is_raw(it) or self.makers(it, units) for it in self.units[name].inputs)
            ]
            if kept == units:
                break
            units = kept
        if not all(self.makers(it, units) for it in self.products()):
            return []
        return [name for name in units if name in self.leading(units)]

    def leading(self, units):
        """Those of the units that lead to a product."""
        wanted, led = set(self.products()), set()
        while True:
            more = {
                name
                for name in units
                if name not in led and wanted & self.units[name].outputs.keys()
            }
            if not more:
                return led
            led |= more
            wanted |= {it for name in more for it in self.units[name].inputs}

    def is_allowed(self, units):
        return all(len(set(members) & set(units)) <= 1 for members in self.exclusions.values())

    def touched(self, units):
        return [
            name for name in self.materials if any(name in self.units[it].touches() for it in units)
        ]


def entry(line):
    name, _, rest = line.partition(":")
    return name.strip(), [it.strip() for it in rest.split(",") if it.strip()]


def valued(items, keys, defaults, front):
    values = {key: Fraction(defaults.get(front + key, value)) for key, value in keys.items()}
    for key, value in (pair_of(it) for it in items if "=" in it):
        values[key] = Fraction(value)
    return values


def pair_of(item):
    """The key and the value of an item."""
    key, _, value = item.partition("=")
    return key.strip(), value.strip()


def side_of(text):
    terms = (term.split() for term in re.split(r"\s\+\s", text))
    return {term[-1]: Fraction(term[0]) if len(term) == 2 else Fraction(1) for term in terms}


def periods_of(materials, plan):
    """For each period the price and the bounds of each material."""
    same = {name: (it.price, it.bounds) for name, it in materials.items()}
    if plan is None:
        return [same]
    periods = []
    for words in (line.split() for line in plan.splitlines()[1:]):
        if not words or words[0].startswith("#"):
            continue
        if words[0] == "period":
            periods.append(dict(same))
        elif words[0] == "price":
            periods[-1][words[1]] = Fraction(words[2]), periods[-1][words[1]][1]
        else:
            periods[-1][words[1]] = periods[-1][words[1]][0], (
                Fraction(words[2]),
                Fraction(words[3]),
            )
    return periods


def read_plant(case):
    """The plant of a case, with its plan if it has one."""
    folder = os.path.join(CASES, case)
    plan = os.path.join(folder, "plan")
    return Plant(
        text_in(os.path.join(folder, "plant.pns")), text_in(plan) if os.path.exists(plan) else None
    )


def text_in(path):
    with open(path, encoding="utf-8") as file:
        return file.read()


def case_names():
    return sorted(it for it in os.listdir(CASES) if os.path.isdir(os.path.join(CASES, it)))
