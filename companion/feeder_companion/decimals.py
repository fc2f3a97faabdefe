"""Decimals as whole numbers of their last place: read and written exactly, rounded only where a function says so."""

from __future__ import annotations

from fractions import Fraction
from math import isqrt

Exact = int | Fraction
"""A number without rounding."""

MICRO = 6
NANO = 9


def parse(text: str, places: int) -> int:
    """The number of a text with exactly `places` decimals, in units of its last place: `0.000011` is 11."""
    digits = text[1:] if text.startswith("-") else text
    whole, point, part = digits.partition(".")
    is_plain = whole.isascii() and whole.isdigit() and (not part or part.isascii() and part.isdigit())
    if not is_plain or len(part) != places or bool(point) != bool(places):
        raise ValueError(f"{text!r} is no number with {places} decimals")
    value = int(whole + part)
    return -value if text.startswith("-") else value


def show(value: int, places: int) -> str:
    """A whole number of units of the last place as a decimal with `places` decimals."""
    sign, digits = "-" if value < 0 else "", str(abs(value)).rjust(places + 1, "0")
    return f"{sign}{digits[:-places]}.{digits[-places:]}" if places else f"{sign}{digits}"


def floor(value: Exact) -> int:
    """The greatest whole number that isn't above the value."""
    return value.numerator // value.denominator


def ceil(value: Exact) -> int:
    """The least whole number that isn't below the value."""
    return -(-value.numerator // value.denominator)


def nearest(value: Exact) -> int:
    """The nearest whole number, ties away from zero."""
    size = (2 * abs(value.numerator) + value.denominator) // (2 * value.denominator)
    return -size if value < 0 else size


def root_down(value: Exact) -> int:
    """The greatest whole number whose square isn't above the value, which isn't below zero."""
    return isqrt(floor(value))


def root_up(value: Exact) -> int:
    """The least whole number whose square isn't below the value, which isn't below zero."""
    least = ceil(value)
    root = isqrt(least)
    return root + (root * root < least)


def show_down(value: Exact, places: int) -> str:
    """The value with `places` decimals, rounded toward minus infinity."""
    return show(floor(value * 10**places), places)


def show_up(value: Exact, places: int) -> str:
    """The value with `places` decimals, rounded toward plus infinity."""
    return show(ceil(value * 10**places), places)


def show_near(value: Exact, places: int) -> str:
    """The value with `places` decimals, rounded to the nearest."""
    return show(nearest(value * 10**places), places)


def fraction_of(text: str) -> Fraction:
    """The exact value of a plain decimal, as a person writes it: `0.95`, `1e-3`."""
    try:
        value = Fraction(text.strip())
    except (ValueError, ZeroDivisionError):
        raise ValueError(f"{text!r} is no number") from None
    if "/" in text:
        raise ValueError(f"{text!r} is no number")
    return value
