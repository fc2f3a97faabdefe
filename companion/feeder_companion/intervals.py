"""Intervals of exact numbers, and phasors whose two parts are known within intervals.

All arithmetic is of whole numbers and fractions, so nothing is rounded on the way. Two functions alone round, and always
outward: `size`, the magnitude of a phasor, to whole units, and the texts of ends, low down and high up.

Voltages are in microvolts and currents in microamperes, as whole units; a power is then in 10^-12 VA.
"""

from __future__ import annotations

from collections.abc import Iterable
from dataclasses import dataclass
from fractions import Fraction

from .decimals import Exact, root_down, root_up, show_down, show_near, show_up


@dataclass(frozen=True, slots=True)
class Interval:
    """All numbers from `low` to `high`, both included."""

    low: Exact
    high: Exact

    @classmethod
    def around(cls, centre: int, radius: int) -> Interval:
        """All numbers within the radius of the centre."""
        return cls(centre - radius, centre + radius)

    @classmethod
    def exactly(cls, value: Exact) -> Interval:
        """The one number."""
        return cls(value, value)

    def __add__(self, other: Interval) -> Interval:
        return Interval(self.low + other.low, self.high + other.high)

    def __sub__(self, other: Interval) -> Interval:
        return Interval(self.low - other.high, self.high - other.low)

    def __neg__(self) -> Interval:
        return Interval(-self.high, -self.low)

    def __mul__(self, other: Interval) -> Interval:
        ends = (self.low * other.low, self.low * other.high, self.high * other.low, self.high * other.high)
        return Interval(min(ends), max(ends))

    def scaled(self, factor: Exact) -> Interval:
        """The interval times an exact number."""
        ends = (self.low * factor, self.high * factor)
        return Interval(min(ends), max(ends))

    def square(self) -> Interval:
        """The squares of its numbers: never below zero, where a product with itself could be."""
        ends = (self.low * self.low, self.high * self.high)
        return Interval(0 if self.low <= 0 <= self.high else min(ends), max(ends))

    def holds(self, value: Exact) -> bool:
        """Whether the number lies in it."""
        return self.low <= value <= self.high

    @property
    def middle(self) -> Fraction:
        """Half way between its ends."""
        return Fraction(self.low + self.high) / 2

    def low_text(self, places: int) -> str:
        """The low end, rounded down."""
        return show_down(self.low, places)

    def high_text(self, places: int) -> str:
        """The high end, rounded up."""
        return show_up(self.high, places)

    def middle_text(self, places: int) -> str:
        """The middle, rounded to the nearest."""
        return show_near(self.middle, places)


ZERO = Interval(0, 0)


def total(intervals: Iterable[Interval]) -> Interval:
    """The sum, 0 of none."""
    low: Exact = 0
    high: Exact = 0
    for it in intervals:
        low, high = low + it.low, high + it.high
    return Interval(low, high)


def greatest(intervals: Iterable[Interval]) -> Interval:
    """The interval of the greatest of some numbers, one out of each."""
    found = list(intervals)
    return Interval(max(it.low for it in found), max(it.high for it in found))


def least(intervals: Iterable[Interval]) -> Interval:
    """The interval of the least of some numbers, one out of each."""
    found = list(intervals)
    return Interval(min(it.low for it in found), min(it.high for it in found))


@dataclass(frozen=True, slots=True)
class Phasor:
    """A complex number whose parts lie in two intervals."""

    re: Interval
    im: Interval

    @classmethod
    def around(cls, re: int, im: int, radius: int) -> Phasor:
        """Each part within the radius of the given one."""
        return cls(Interval.around(re, radius), Interval.around(im, radius))

    def __add__(self, other: Phasor) -> Phasor:
        return Phasor(self.re + other.re, self.im + other.im)

    def __sub__(self, other: Phasor) -> Phasor:
        return Phasor(self.re - other.re, self.im - other.im)

    def __neg__(self) -> Phasor:
        return Phasor(-self.re, -self.im)

    def scaled(self, factor: Exact) -> Phasor:
        """The phasor times an exact real number."""
        return Phasor(self.re.scaled(factor), self.im.scaled(factor))

    def turned(self, factor: Exact) -> Phasor:
        """The phasor times an exact imaginary number, j times the factor."""
        return Phasor(self.im.scaled(-factor), self.re.scaled(factor))

    def square(self) -> Interval:
        """The squares of the magnitudes."""
        return self.re.square() + self.im.square()

    def size(self) -> Interval:
        """The magnitudes, rounded outward to whole units."""
        square = self.square()
        return Interval(root_down(square.low), root_up(square.high))

    def power(self, current: Phasor) -> Power:
        """This voltage times the conjugate of the current."""
        return Power(self.re * current.re + self.im * current.im, self.im * current.re - self.re * current.im)


GROUND = Phasor(ZERO, ZERO)


@dataclass(frozen=True, slots=True)
class Power:
    """Real power p and reactive power q, in 10^-12 W and 10^-12 var."""

    p: Interval
    q: Interval

    def __add__(self, other: Power) -> Power:
        return Power(self.p + other.p, self.q + other.q)

    def __sub__(self, other: Power) -> Power:
        return Power(self.p - other.p, self.q - other.q)

    def __neg__(self) -> Power:
        return Power(-self.p, -self.q)

    def scaled(self, factor: Exact) -> Power:
        """The power times an exact number."""
        return Power(self.p.scaled(factor), self.q.scaled(factor))

    @property
    def kilo(self) -> Power:
        """The same in kW and kvar."""
        return self.scaled(Fraction(1, 10**15))


NO_POWER = Power(ZERO, ZERO)


def sum_of(powers: Iterable[Power]) -> Power:
    """The sum, 0 of none."""
    found = list(powers)
    return Power(total(it.p for it in found), total(it.q for it in found))
