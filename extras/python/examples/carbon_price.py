#!/usr/bin/env python3
"""At which price of CO2 does the cheapest plant change? Each row is proved by the program.

    python3 examples/carbon_price.py [PLANT]

PLANT is cases/carbon/plant.pns of the repository, if left out: CO2 is left over there, at a price
below 0 in thousand EUR a ton. The script begins at a free ton and makes it dearer: `stable` prints
how far the cheapest network stays so, and one millionth beyond, another one is solved for.
"""
import pathlib
import sys
from fractions import Fraction

TOP = pathlib.Path(__file__).resolve().parents[1]
sys.path.insert(0, str(TOP))

import pns  # noqa: E402, found beside this folder where it is not installed

STEP = Fraction(1, 10**6)


def main() -> None:
    path = sys.argv[1] if len(sys.argv) > 1 else TOP.parents[1] / "cases" / "carbon" / "plant.pns"
    plant = pns.Plant.read(path)
    price = Fraction(0)
    print("EUR a ton of CO2    t of CO2   built")
    while True:
        plant.materials["CO2"].price = price
        best = pns.solve(plant)
        assert pns.check(plant, best)
        found = pns.stable(plant, best, "price", "CO2")
        tons = sum(row["net"] for row in best.material_rows() if row["material"] == "CO2")
        end = "any" if found.below is None else f"{float(-found.low * 1000):8.2f}"
        built = ", ".join(f"{name} {float(it):g}" for name, it in best.network.sizes.items())
        print(f"{float(-price * 1000):6.2f} to {end:>8}  {float(tons):8.0f}   {built}")
        if found.below is None:
            return
        price = found.low - STEP


if __name__ == "__main__":
    main()
