"""Finds the shortest chain of units whose search ends with status 4, overflow of 128 bits, for
yields of 2, 3, 4 and 6 decimals. In a chain each unit makes the material of the next from that
before it, at a yield between 0.8 and 1 that is drawn from a fixed number. Prints a line for each
count of decimals. Nothing here is part of the gate. `bench/reach/run chains PROGRAM` runs another
program than crates/pns/out/pns, which `make run` builds; without it this says so and ends with
status 0.
"""
import os
import random
import subprocess
import sys
import tempfile

from shared import PROGRAM, is_there, written

MOST = 40


def chain(units, decimals):
    draws = random.Random(1)
    lines = ["file_type=PNS_problem_v1", "materials:", "M0: raw_material, price=2"]
    lines += [f"M{k}" for k in range(1, units)] + [f"M{units}: product, flow_rate_lower_bound=20"]
    lines.append("material_to_operating_unit_flow_rates:")
    for k in range(units):
        digits = draws.randrange(8 * 10**decimals // 10, 10**decimals) | 1
        lines.append(f"U{k}: M{k} => 0.{digits:0{decimals}d} M{k + 1}")
    return "\n".join(lines) + "\n"


def main():
    program = sys.argv[1] if len(sys.argv) > 1 else PROGRAM
    if not is_there("chains", program):
        return 0
    with tempfile.TemporaryDirectory() as work:
        path = os.path.join(work, "chain.pns")
        for decimals in (2, 3, 4, 6):
            for units in range(1, MOST + 1):
                words = [program, "solve", written(path, chain(units, decimals)), "100"]
                if subprocess.run(words, capture_output=True).returncode == 4:
                    print(
                        f"{decimals} decimals: the shortest chain that ends past 128 bits has "
                        f"{units} units"
                    )
                    break
            else:
                print(f"{decimals} decimals: no chain of at most {MOST} units is past 128 bits")
    return 0
