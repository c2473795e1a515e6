"""The numbers of LOW:HIGH:STEP, as exact fractions, as decimal text and as floats."""
import math
from decimal import Decimal, localcontext
from fractions import Fraction

import numpy as np

MOST_PLACES = 100  # decimals that are written out
EXACT = 1 << 53  # whole numbers up to it are exact as floats


class Span:
    """Whole numbers in equal steps, over one unit.

    A number becomes a Fraction only when it is requested.
    """

    def __init__(self, tops: range, unit: int) -> None:
        self.tops, self.unit = tops, unit
        self.places = next((k for k in range(MOST_PLACES + 1) if 10**k % unit == 0), None)
        self.scale = 10 ** (self.places or 0) // unit

    def __len__(self) -> int:
        return len(self.tops)

    def __getitem__(self, k: int) -> Fraction:
        return Fraction(self.tops[k], self.unit)

    def times(self, ks: np.ndarray, factor: Fraction, low: int) -> np.ndarray:
        """Return the numbers at these positions times a factor, each rounded once to a float.

        A number below `low` is nan, and so is one that no float holds.
        """
        tops, (over, under) = self.tops, (factor / self.unit).as_integer_ratio()
        most = max(abs(tops[0]) * over, abs(tops[-1]) * over, over, abs(tops.step), under)
        if most <= EXACT:
            wholes = tops.start + tops.step * ks
            out = wholes * over / under  # both are exact as floats, so the division rounds once
            out[wholes < max(low * self.unit, -EXACT)] = math.nan
            return out
        found = [_quotient(tops[k], over, under, low * self.unit) for k in ks.tolist()]
        return np.array(found)

    def text(self, k: int) -> str:
        """Return number k as decimal text."""
        places, top = self.places, self.tops[k]
        if places is None:
            return _text_of_many_places(self[k])
        digits = f"{abs(top) * self.scale:0{places + 1}d}"
        if places:
            digits = f"{digits[:-places]}.{digits[-places:]}".rstrip("0").rstrip(".")
        return digits if top >= 0 else f"-{digits}"


def _quotient(top: int, over: int, under: int, low: int) -> float:
    """Return a whole number times a fraction, rounded once; nan below `low` or if too large."""
    try:
        return top * over / under if top >= low else math.nan
    except OverflowError:
        return math.nan


def _text_of_many_places(x: Fraction) -> str:
    """Return the text of a number whose unit has too many decimals; its own may be fewer."""
    alone = Span(range(x.numerator, x.numerator + 1), x.denominator)
    if alone.places is not None:
        return alone.text(0)
    with localcontext() as c:
        c.prec = 120
        return f"{(Decimal(x.numerator) / Decimal(x.denominator)).normalize():f}"
