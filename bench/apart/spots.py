"""What the scripts of ranges share: the network of a text of `solve`, its cost with another value
of one price or cost, and a range as `stable` prints it."""
from fractions import Fraction

MILLION = 10**6
LIMIT = 10**15
WORDS = {"price": "price", "fix": "fix", "proportional": "proportional"}


class Network:
    """A network as `pns` prints it: its units, their sizes, and its cost in money a year."""

    def __init__(self, lines, payout):
        words = {line.split(" ")[0]: line.split(" ")[1:] for line in lines}
        self.units = words["network"]
        d = int(words["sizes"][0])
        self.sizes = {
            name: Fraction(int(z), d * MILLION) for name, z in zip(self.units, words["sizes"][1:])
        }
        self.cost = Fraction(int(words["cost"][0]), d * MILLION**3) / payout

    def left(self, plant, material):
        return sum(
            (plant.units[name].rate(material) * size for name, size in self.sizes.items()),
            Fraction(0),
        )

    def slope(self, plant, kind, name):
        """What it costs more, in money a year, if the value is 1 more."""
        if kind == "price":
            return -self.left(plant, name)
        if kind == "fix":
            return Fraction(int(name in self.sizes))
        return self.sizes.get(name, Fraction(0))


def network_of(text, payout):
    lines = text.splitlines()
    lines = lines[next(k for k, line in enumerate(lines) if line.startswith("network")) :][:3]
    return Network(lines, payout)


def slopes(plant, kind, name):
    """The least and the greatest slope that the flows of any structure can have."""
    if kind == "fix":
        return Fraction(0), Fraction(1)
    if kind == "proportional":
        return Fraction(0), plant.units[name].most
    material = plant.materials[name]
    lower, upper = material.bounds
    if material.kind == "raw_material":
        return Fraction(0), upper
    return -upper, -lower if material.kind == "product" else Fraction(0)


def value_now(plant, kind, name):
    if kind == "price":
        return int(plant.materials[name].price * MILLION)
    unit = plant.units[name]
    return int((unit.fixed if kind == "fix" else unit.proportional) * MILLION)


def least_value(kind):
    return 0 if kind == "fix" else -LIMIT


def amount(millionths):
    sign, much = ("-" if millionths < 0 else ""), abs(millionths)
    return f"{sign}{much // MILLION}.{much % MILLION:06d}"


def with_value(program, path, kind, name, value):
    """The path of the plant with this value, in millionths, in the spot."""
    script = program.file(
        "script", f"file_type=PNS_edits_v1\n{WORDS[kind]} {name} {amount(value)}\n"
    )
    status, text = program.call("edit", path, script)
    assert status == 0, text
    return program.file("edited.pns", text)


class Range:
    """What `stable` prints of a range."""

    def __init__(self, text, payout):
        lines = text.splitlines()
        above = next(k for k, line in enumerate(lines) if line.startswith("to "))
        self.start, self.end = int(lines[0].split(" ")[1]), int(lines[above].split(" ")[1])
        self.below = None if lines[1] == "below limit" else Network(lines[2:5], payout)
        self.above = (
            None
            if lines[above + 1] == "above limit"
            else Network(lines[above + 2 : above + 5], payout)
        )
