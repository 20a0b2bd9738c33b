"""Plants of `make` whose rates are drawn anew with decimals, the same on every machine."""
import re


class Draws:
    """Pseudo-random whole numbers, the same on every machine (SplitMix64)."""

    def __init__(self, seed):
        self.state = seed

    def draw(self, below):
        mask = 2**64 - 1
        self.state = (self.state + 0x9E3779B97F4A7C15) & mask
        z = self.state
        z = ((z ^ (z >> 30)) * 0xBF58476D1CE4E5B9) & mask
        z = ((z ^ (z >> 27)) * 0x94D049BB133111EB) & mask
        return (z ^ (z >> 31)) % below


def rate(draws, decimals):
    """A rate from 1 to 9 with so many decimals, as a problem text has it."""
    one = 10**decimals
    whole, rest = divmod(one + draws.draw(8 * one + 1), one)
    places = f"{rest:0{decimals}}".rstrip("0") if rest else ""
    return f"{whole}.{places}" if places else str(whole)


def with_rate(term, draws, decimals):
    """The term with another rate in place of its own; a term without a number has the rate 1."""
    drawn = rate(draws, decimals)
    name = term.split()[-1]
    return name if drawn == "1" else f"{drawn} {name}"


def with_rates(line, draws, decimals):
    unit, sides = line.split(": ", 1)
    drawn = (
        " + ".join(with_rate(term, draws, decimals) for term in side.split(" + "))
        for side in sides.split(" => ")
    )
    return f"{unit}: {' => '.join(drawn)}"


def with_bound(line, bound):
    """The material's line with this upper bound, if it is no product's."""
    if ": product" in line:
        return line
    return re.sub(r"flow_rate_upper_bound=\d+", f"flow_rate_upper_bound={bound}", line)


def rewritten(text, draws, decimals, bound):
    """The text of a generated plant with rates drawn anew and other bounds."""
    lines, section = [], ""
    for line in text.splitlines():
        if line.endswith(":"):
            section = line[:-1]
        elif line and section == "materials":
            line = with_bound(line, bound)
        elif line and section == "material_to_operating_unit_flow_rates":
            line = with_rates(line, draws, decimals)
        lines.append(line)
    return "\n".join(lines) + "\n"
