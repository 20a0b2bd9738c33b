"""The plants of `bench/plain/run list` and `text`, the same each time."""


def draws(state):
    """Numbers below what is asked, as `make` draws them."""

    def draw(below):
        nonlocal state
        state = (75 * state + 74) % 65537
        return state % below

    return draw


def text_of(materials, rates):
    sections = [
        ["file_type=PNS_problem_v1"],
        ["materials:", *materials],
        ["material_to_operating_unit_flow_rates:", *rates],
    ]
    return "\n".join("\n".join(lines) for lines in sections) + "\n"


def layered(units):
    """Stages of units in a row, of which each makes the intermediate material of its stage from
    that of the stage before or from a raw one."""
    draw, stages, rates = draws(7), units // 3, []
    for unit in range(units):
        stage = unit % (stages + 1)
        drawn = draw(12)
        source = f"R{drawn % 3}" if stage == 0 else f"M{stage - 1}" if drawn % 4 < 3 else "R2"
        rates.append(f"U{unit}: {source} => {f'M{stage}' if stage < stages else 'P'}")
    materials = [f"R{i}: raw_material" for i in range(3)] + [
        f"M{i}: intermediate" for i in range(stages)
    ]
    return text_of([*materials, "P: product"], rates)


def dense(units):
    """Half as many intermediate materials as units, and two products. Each unit uses two to four
    materials and makes two or three, so there are many cycles."""
    draw, mids, rates = draws(11), units // 2, []
    raws, made = [f"R{i}" for i in range(units // 10)], [f"M{i}" for i in range(mids)] + ["P", "Q"]
    for unit in range(units):
        outputs = [made[unit % len(made)]]
        while len(outputs) < 2 + unit % 2:
            outputs += [name for name in [made[draw(len(made))]] if name not in outputs]
        inputs = [raws[draw(len(raws))]]
        while len(inputs) < 2 + draw(3):
            inputs += [name for name in [made[draw(mids)]] if name not in inputs + outputs]
        rates.append(f"U{unit}: {' + '.join(inputs)} => {' + '.join(outputs)}")
    materials = [f"{name}: raw_material" for name in raws] + [
        f"{name}: intermediate" for name in made[:mids]
    ]
    return text_of([*materials, "P: product", "Q: product"], rates)


def notes(count):
    """Lines that each reader skips."""
    return "".join(f"note_{i}=words that are read past by each reader\n" for i in range(count))


def skipped():
    """4 MB of which nearly all is skipped."""
    head, tail = text_of(["A: raw_material", "P: product"], ["U: A => P"]).split("\n", 1)
    return f"{head}\n{notes(80000)}{tail}"


def long_rates(name, whole, skip):
    """256 materials and 128 units whose lines have a term for each material, with this many lines
    to skip before them."""

    def term(u, m):
        rest = (u * 7919 + m * 104729) % 1000000
        return f"{1 + (u * 7 + m * 13) % 97:{whole}}.{rest:06d} {name(m)}"

    def side(u, first):
        return " + ".join(term(u, m) for m in range(first, first + 128))

    kinds = ["raw_material"] * 2 + ["intermediate"] * 126 + ["product"] * 128
    materials = [f"{name(m)}: {kind}, price={m}.25" for m, kind in enumerate(kinds)]
    rates = [f"unit_{u}: {side(u, 0)} => {side(u, 128)}" for u in range(128)]
    head, tail = text_of(materials, rates).split("\n", 1)
    return f"{head}\n{notes(skip)}{tail}"


def rates():
    """2.1 MB with long lines of rates."""
    return long_rates("material_with_a_rather_long_name_that_tells_much_{}".format, "d", 0)


def long_names():
    """4 MB: the same with names of 64 bytes, numbers of 31 and lines that are skipped."""
    name = "material_with_a_rather_long_name_that_tells_much_about_it_{:06d}".format
    return long_rates(name, "024d", 16000)


def small():
    """56 KB in which each material and each unit has all its items."""
    lines = ["file_type=PNS_problem_v1", "materials:"]
    for m in range(256):
        kind = "raw_material" if m < 40 else "product" if m >= 250 else "intermediate"
        lines.append(
            f"material_{m}: {kind}, price={m % 17}.{m % 100:02d}, "
            f"flow_rate_lower_bound=0.5, flow_rate_upper_bound={1000 + m}"
        )
    lines.append("operating_units:")
    for u in range(128):
        lines.append(
            f"unit_{u}: capacity_lower_bound=0.{u % 10}, capacity_upper_bound={100 + u}.25, "
            f"fix_cost={10 + u % 7}, proportional_cost=1.{u}, "
            f"investment_fix_cost={20 + u}, investment_proportional_cost=0.125"
        )
    lines.append("material_to_operating_unit_flow_rates:")
    for u in range(128):
        lines.append(
            f"unit_{u}: 1.{u} material_{u % 120} + 0.75 material_{120 + (u * 7 + 1) % 60} => "
            f"2.5 material_{180 + u % 70} + 0.333333 material_{250 + u % 6}"
        )
    return "\n".join(lines) + "\n"
