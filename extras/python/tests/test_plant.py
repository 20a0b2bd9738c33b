"""Plants as values, dictionaries and text; these need no program."""
import decimal
import json
import sys
import types
import unittest
from fractions import Fraction
from unittest import mock

import pns
from pns.plant import decimal_text, fraction

SHIPPED = {
    "materials": {
        "A": {"kind": "raw_material", "price": 2},
        "B": {"kind": "raw_material", "price": 3},
        "C": {"kind": "intermediate"},
        "E": {},
        "F": {},
        "P": {"kind": "product", "flow_rate_lower_bound": 20, "flow_rate_upper_bound": 20},
    },
    "units": {
        "U1": {
            "inputs": {"A": 1}, "outputs": {"C": 1},
            "capacity_upper_bound": 100, "fix_cost": 10, "proportional_cost": 1,
        },
        "U2": {
            "inputs": {"B": 1}, "outputs": {"C": 1},
            "capacity_upper_bound": 100, "fix_cost": 1, "proportional_cost": 1,
        },
        "U3": {"inputs": {"C": 1}, "outputs": {"P": 1}, "capacity_upper_bound": 150, "fix_cost": 5},
        "U4": {"inputs": {"E": 1}, "outputs": {"P": 1}},
        "U5": {"inputs": {"B": 1}, "outputs": {"F": 1}},
    },
}


class Numbers(unittest.TestCase):
    def test_values_are_exact(self):
        for value in (0.1, "0.1", decimal.Decimal("0.1"), Fraction(1, 10), "1e-1"):
            self.assertEqual(fraction(value), Fraction(1, 10))
        self.assertEqual(fraction(-3), Fraction(-3))

    def test_what_is_no_number(self):
        for value in (True, None, [1]):
            self.assertRaises(TypeError, fraction, value)
        for value in ("ten", float("inf"), float("nan")):
            self.assertRaises(ValueError, fraction, value)

    def test_texts(self):
        told = {"-0.05": "-0.05", 20: "20", 1e6: "1000000", "2.50": "2.5", "0.000001": "0.000001"}
        for value, text in told.items():
            self.assertEqual(decimal_text(value), text)
        self.assertRaises(ValueError, decimal_text, Fraction(1, 3))
        self.assertRaises(ValueError, decimal_text, "0.0000001")


class Plants(unittest.TestCase):
    def test_dictionary_back(self):
        plant = pns.Plant.from_dict(SHIPPED)
        again = pns.Plant.from_dict(json.loads(json.dumps(plant.to_dict())))
        self.assertEqual(plant, again)
        self.assertEqual(plant.to_text(), again.to_text())

    def test_decimals_stay(self):
        plant = pns.Plant.from_dict({"materials": {"CO2": {"price": -0.05}}})
        self.assertEqual(plant.to_dict()["materials"]["CO2"]["price"], "-0.05")

    def test_a_copy_stands_apart(self):
        plant = pns.Plant.from_dict(SHIPPED)
        other = plant.copy()
        other.materials["A"].price = "2.5"
        other.units["U1"].inputs["A"] = 2
        self.assertEqual(plant, pns.Plant.from_dict(SHIPPED))
        self.assertEqual(other.copy().materials["A"].price, Fraction(5, 2))

    def test_text(self):
        plant = pns.Plant.from_dict(SHIPPED)
        plant.payout_period = 8
        plant.units["U3"].investment_fix_cost = 2
        plant.exclusions["one_maker"] = ["U2", "U1"]
        lines = plant.to_text().split("\n")
        self.assertEqual(lines[2:4], ["defaults:", "payout_period=8"])
        self.assertIn(
            "U3: capacity_lower_bound=0, capacity_upper_bound=150, fix_cost=5, "
            "proportional_cost=0, investment_fix_cost=2", lines,
        )
        self.assertEqual(lines[-3:], ["mutual_exclusions:", "one_maker: U1, U2", ""])

    def test_slips(self):
        for data in (
            {"material": {}}, {"materials": {"A": {"prize": 1}}}, {"units": {"U": {"in": {}}}},
            {"materials": {"A": {"kind": "raw"}}},
        ):
            with self.subTest(data=data):
                self.assertRaises(ValueError, pns.Plant.from_dict, data)
        for name in ("", "2A", "A B", "A\n", "ä", "A" * 65):
            plant = pns.Plant.from_dict({"materials": {name: {}}})
            self.assertRaises(ValueError, plant.to_text)

    def test_a_path_is_no_text(self):
        self.assertRaises(ValueError, pns.solve, "plant.pns")
        self.assertRaises(ValueError, pns.check, SHIPPED, "tree")

    def test_plans(self):
        text = pns.plan_text([{}, {"price": {"A": 5}, "bounds": {"P": (30, 30.5)}}])
        wanted = ["file_type=PNS_plan_v1", "period", "period", "price A 5", "bounds P 30 30.5", ""]
        self.assertEqual(text.split("\n"), wanted)
        self.assertRaises(ValueError, pns.plan_text, [{"prices": {}}])

    def test_frames(self):
        rows = [{"unit": "U1", "size": Fraction(1, 4)}]
        stand_in = types.SimpleNamespace(DataFrame=lambda it: it)
        with mock.patch.dict(sys.modules, pandas=stand_in):
            self.assertEqual(repr(pns.frame(rows)), "[{'unit': 'U1', 'size': 0.25}]")
            self.assertEqual(pns.frame(rows, exact=True), rows)
        with mock.patch.dict(sys.modules, pandas=None):
            self.assertRaises(ImportError, pns.frame, rows)

    def test_no_program(self):
        self.assertRaises(pns.ProgramMissing, pns.solve, SHIPPED, program="/no/such/program")


if __name__ == "__main__":
    unittest.main()
