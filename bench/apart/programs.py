"""Plants as programs: the program of the sizes when the units that run in each period are settled,
with its least cost in fractions by a simplex method of its own, and the mixed-integer model of a
plant, with the text of it that glpsol and cbc read. Nothing here asks `pns`."""
from fractions import Fraction

from plants import MOST


class Program:
    """Least cost over columns of at least 0, by rows `low <= sum <= high`; costs and rows are by
    names of columns."""

    def __init__(self):
        self.cost, self.rows, self.yes, self.fixed = {}, [], [], Fraction(0)

    def add(self, row, low=None, high=None):
        self.rows.append(({key: value for key, value in row.items() if value}, low, high))

    def pay(self, column, value):
        self.cost[column] = self.cost.get(column, Fraction(0)) + value


def yearly(plant, name):
    """What a unit costs in a year: when it is there, and for each of its size."""
    unit = plant.units[name]
    return (
        unit.fixed + unit.built / plant.payout,
        unit.proportional + unit.built_size / plant.payout,
    )


def range_of(plant, material, period):
    price, (low, high) = plant.periods[period][material]
    return price, (-high, -low) if plant.is_raw(material) else (low, high)


def sizes_program(plant, runs):
    """The program of the sizes when the units that run in each period are settled."""
    program = Program()
    built = [name for name in plant.units if any(name in units for units in runs)]
    for name in built:
        unit, (fixed, slope) = plant.units[name], yearly(plant, name)
        program.fixed += fixed
        program.pay(("size", name), slope)
        program.add({("size", name): 1}, unit.least, unit.most)
    for period, units in enumerate(runs):

        def column(name):
            return ("run", name, period) if plant.several else ("size", name)

        for name in units:
            if plant.several:
                program.add({column(name): 1, ("size", name): -1}, None, Fraction(0))
        for material in plant.touched(units):
            price, (low, high) = range_of(plant, material, period)
            row = {column(name): plant.units[name].rate(material) for name in units}
            program.add(row, low, high)
            for key, rate in row.items():
                program.pay(key, -price * rate)
    return program


def least(program):
    """The least cost and the columns of such a program in fractions, by the simplex method with the
    rule of the first index; or none."""
    columns = sorted({key for row, _, _ in program.rows for key in row} | set(program.cost))
    place = {key: k for k, key in enumerate(columns)}
    table, basis, width = [], [], len(columns)
    equations = []
    for row, low, high in program.rows:
        if low is not None and low == high:
            equations.append((row, 0, low))
        else:
            equations += [(row, -1, low)] if low is not None else []
            equations += [(row, 1, high)] if high is not None else []
    slacks = sum(1 for _, sign, _ in equations if sign)
    total, slack = width + slacks + len(equations), width
    for number, (row, sign, right) in enumerate(equations):
        line = [Fraction(0)] * (total + 1)
        for key, value in row.items():
            line[place[key]] = Fraction(value)
        if sign:
            line[slack] = Fraction(sign)
            slack += 1
        line[total] = Fraction(right)
        if right < 0:
            line = [-it for it in line]
        own = slack - 1 if sign and line[slack - 1] == 1 else width + slacks + number
        line[own] = Fraction(1)
        table.append(line)
        basis.append(own)
    first = [Fraction(k >= width + slacks) for k in range(total)] + [Fraction(0)]
    second = [program.cost.get(key, Fraction(0)) for key in columns] + [Fraction(0)] * (
        total + 1 - width
    )
    if -walk(table, basis, first, total) > 0:
        return None
    drop_artificial(table, basis, width + slacks)
    value = -walk(table, basis, second, width + slacks)
    sizes = {key: Fraction(0) for key in columns}
    for line, column in zip(table, basis):
        if column < width:
            sizes[columns[column]] = line[-1]
    return value + program.fixed, sizes


def drop_artificial(table, basis, real):
    for number in range(len(table) - 1, -1, -1):
        if basis[number] >= real:
            column = next((k for k in range(real) if table[number][k]), None)
            if column is None:
                del table[number], basis[number]
            else:
                pivot(table, basis, [], number, column)


def walk(table, basis, cost, usable):
    """Goes to the end for this cost row and returns its last entry, the cost with the other
    sign."""
    cost = list(cost)
    for line, column in zip(table, basis):
        if cost[column]:
            factor = cost[column]
            cost = [a - factor * b for a, b in zip(cost, line)]
    while True:
        column = next((k for k in range(usable) if cost[k] < 0), None)
        if column is None:
            return cost[-1]
        rows = [
            (line[-1] / line[column], basis[k], k)
            for k, line in enumerate(table)
            if line[column] > 0
        ]
        if not rows:
            raise ArithmeticError("no least cost")
        cost = pivot(table, basis, cost, min(rows)[2], column)


def pivot(table, basis, cost, number, column):
    divisor = table[number][column]
    chosen = table[number] = [it / divisor for it in table[number]]
    places = [k for k, it in enumerate(chosen) if it]
    for line in [it for k, it in enumerate(table) if k != number] + [cost]:
        factor = line[column] if line else 0
        if factor:
            for k in places:
                line[k] -= factor * chosen[k]
    basis[number] = column
    return cost


def choices(plant, maximal):
    """Every set of units of the maximal structure that has all axioms and no exclusion clash."""
    for mask in range(1, 1 << len(maximal)):
        units = [name for k, name in enumerate(maximal) if mask >> k & 1]
        if plant.is_allowed(units) and plant.largest(units) == units:
            yield units


def mixed(plant, maximal, loose, shut):
    """The model with a yes-or-no column for each unit and period; `loose` and `shut` are rows that
    were found wanting."""
    program = Program()
    for name in maximal:
        unit, (fixed, slope) = plant.units[name], yearly(plant, name)
        program.pay(("is", name), fixed)
        program.pay(("size", name), slope)
        program.add({("size", name): 1, ("is", name): -unit.least}, Fraction(0), None)
        program.add({("size", name): 1, ("is", name): -unit.most}, None, Fraction(0))
        program.yes.append(("is", name))
        if plant.several:
            runs = {("runs", name, period): Fraction(-1) for period in range(len(plant.periods))}
            program.add({("is", name): 1, **runs}, None, Fraction(0))
    for members in plant.exclusions.values():
        program.add(
            {("is", name): Fraction(1) for name in members if name in maximal}, None, Fraction(1)
        )
    for period in range(len(plant.periods)):
        add_period(program, plant, maximal, period)
    for row, low in loose + shut:
        program.add(row, low, None)
    return program


def names_of(plant, period):
    if plant.several:
        return (lambda name: ("runs", name, period)), (lambda name: ("run", name, period))
    return (lambda name: ("is", name)), (lambda name: ("size", name))


def add_period(program, plant, maximal, period):
    runs, size = names_of(plant, period)
    for name in maximal if plant.several else []:
        program.yes.append(runs(name))
        program.add({size(name): 1, runs(name): -plant.units[name].most}, None, Fraction(0))
        program.add({size(name): 1, ("size", name): -1}, None, Fraction(0))
        program.add({runs(name): 1, ("is", name): -1}, None, Fraction(0))
    for material in plant.touched(maximal):
        price, (low, high) = range_of(plant, material, period)
        row = {size(name): plant.units[name].rate(material) for name in maximal}
        touching = [name for name in maximal if material in plant.units[name].touches()]
        is_product = plant.materials[material].kind == "product"
        if is_product or low <= 0 <= high:
            program.add(row, low if abs(low) < MOST else None, high if abs(high) < MOST else None)
        else:
            add_where_touched(
                program,
                (material, period),
                [runs(name) for name in maximal if material in plant.units[name].touches()],
                (row, low, high),
            )
        for key, rate in row.items():
            program.pay(key, -price * rate)
        making = {runs(name): Fraction(1) for name in plant.makers(material, maximal)}
        if is_product:
            program.add(making, Fraction(1), None)
        for name in plant.users(material, maximal) if not plant.is_raw(material) else []:
            program.add({**making, runs(name): Fraction(-1)}, Fraction(0), None)


def add_where_touched(program, place, touching, bounded):
    """Bounds that hold only if a unit that touches the material runs."""
    (row, low, high), here = bounded, ("has", *place)
    program.yes.append(here)
    for runs in touching:
        program.add({here: 1, runs: -1}, Fraction(0), None)
    program.add({here: 1, **{runs: Fraction(-1) for runs in touching}}, None, Fraction(0))
    if abs(low) < MOST:
        program.add({**row, here: -low}, Fraction(0), None)
    if abs(high) < MOST:
        program.add({**row, here: -high}, None, Fraction(0))


def text_of(program):
    """The program in the form that both solvers read."""
    columns = sorted(
        {key for row, _, _ in program.rows for key in row} | set(program.cost) | set(program.yes)
    )
    named = {key: f"c{k}" for k, key in enumerate(columns)}

    def total(row):
        return (
            " ".join(
                f"{'+' if value >= 0 else '-'} {decimal(abs(value))} {named[key]}"
                for key, value in row.items()
            )
            or f"0 {named[columns[0]]}"
        )

    lines = [
        "Minimize",
        " cost: " + total({key: value for key, value in program.cost.items() if value}),
        "Subject To",
    ]
    for row, low, high in program.rows:
        if row and low is not None:
            lines.append(f" r{len(lines)}: {total(row)} >= {decimal(low)}")
        if row and high is not None:
            lines.append(f" r{len(lines)}: {total(row)} <= {decimal(high)}")
    lines += ["Binary"] + [f" {named[key]}" for key in program.yes] + ["End"]
    return "\n".join(lines) + "\n", {name: key for key, name in named.items()}


def decimal(value):
    return repr(float(value)) if Fraction(value).denominator != 1 else str(int(value))


def built_of(plant, runs):
    return [name for name in plant.units if any(name in units for units in runs)]
