"""Decimals and intervals: exact, and rounded outward."""

import unittest
from fractions import Fraction
from pathlib import Path

from support import TOP

from feeder_companion import decimals
from feeder_companion.intervals import Interval, Phasor, Power, greatest, least, sum_of, total


class Decimals(unittest.TestCase):
    def test_the_package_is_the_repository_s(self):
        self.assertEqual(Path(decimals.__file__).parents[2], TOP)

    def test_numbers_are_read_exactly(self):
        self.assertEqual(decimals.parse("-0.000011", 6), -11)
        self.assertEqual(decimals.parse("120", 0), 120)
        for text in ("1.0", "1.0000000", "1", "", "-", "+1.000000", "1e6.000000", "１.000000", "1.00000a", ".000000"):
            with self.assertRaises(ValueError, msg=text):
                decimals.parse(text, 6)

    def test_numbers_are_shown_as_they_were_read(self):
        for text in ("0.000000", "-0.000001", "950.000021", "-12.345678"):
            self.assertEqual(decimals.show(decimals.parse(text, 6), 6), text)

    def test_roundings_are_to_their_sides(self):
        third = Fraction(1, 3)
        self.assertEqual((decimals.show_down(third, 3), decimals.show_up(third, 3)), ("0.333", "0.334"))
        self.assertEqual((decimals.show_down(-third, 3), decimals.show_up(-third, 3)), ("-0.334", "-0.333"))
        self.assertEqual(decimals.show_near(Fraction(-1, 8), 2), "-0.13")
        self.assertEqual((decimals.root_down(Fraction(17, 2)), decimals.root_up(Fraction(17, 2))), (2, 3))
        self.assertEqual((decimals.root_down(9), decimals.root_up(9)), (3, 3))

    def test_a_plan_s_numbers_are_exact(self):
        self.assertEqual(decimals.fraction_of("0.95"), Fraction(19, 20))
        for text in ("1/2", "a", "", "nan"):
            with self.assertRaises(ValueError):
                decimals.fraction_of(text)


class Intervals(unittest.TestCase):
    def test_products_hold_the_products_of_all_numbers(self):
        a, b = Interval(-2, 3), Interval(-5, 1)
        self.assertEqual(a * b, Interval(-15, 10))
        self.assertEqual(a.square(), Interval(0, 9))
        self.assertEqual(a - b, Interval(-3, 8))
        self.assertEqual(a.scaled(Fraction(-1, 2)), Interval(Fraction(-3, 2), 1))
        self.assertEqual(total([a, b]), Interval(-7, 4))
        self.assertEqual((greatest([a, b]), least([a, b])), (Interval(-2, 3), Interval(-5, 1)))

    def test_a_magnitude_is_rounded_outward(self):
        self.assertEqual(Phasor.around(3, 4, 0).size(), Interval(5, 5))
        self.assertEqual(Phasor.around(1, 1, 0).size(), Interval(1, 2))
        self.assertEqual(Phasor.around(0, 0, 2).size(), Interval(0, 3))

    def test_a_power_is_the_voltage_times_the_conjugate_of_the_current(self):
        voltage, current = Phasor.around(2, 3, 0), Phasor.around(5, 7, 0)
        self.assertEqual(voltage.power(current), Power(Interval(31, 31), Interval(1, 1)))
        self.assertEqual(voltage.turned(2), Phasor(Interval(-6, -6), Interval(4, 4)))
        self.assertEqual(sum_of([voltage.power(current)] * 2).p, Interval(62, 62))
        kilo = voltage.power(current).kilo
        self.assertEqual((kilo.p.low_text(3), kilo.p.high_text(3)), ("0.000", "0.001"))

    def test_a_power_over_an_interval_holds_each_power_in_it(self):
        voltage, current = Phasor.around(100, -40, 3), Phasor.around(-7, 9, 2)
        power = voltage.power(current)
        for v in (complex(97, -43), complex(103, -37), complex(100, -40)):
            for i in (complex(-9, 7), complex(-5, 11), complex(-7, 9)):
                exact = v * i.conjugate()
                self.assertTrue(power.p.holds(int(exact.real)) and power.q.holds(int(exact.imag)))


if __name__ == "__main__":
    unittest.main()
