"""Rounding of physical numbers to whole parts, and what it changed."""
from dataclasses import dataclass
from fractions import Fraction


def round_half_up(x: Fraction | int) -> int:
    """Return the nearest whole number; of two, the larger."""
    return int((Fraction(x) + Fraction(1, 2)).__floor__())


@dataclass
class Rounded:
    """A number that rounding changed: of cell `cell` (0 is the gate), in parts or thousandths."""

    cell: int
    what: str
    wanted: Fraction
    used: int

    @property
    def error(self) -> float:
        """The relative error; 0 if 0 was wanted."""
        return float((self.used - self.wanted) / self.wanted) if self.wanted else 0.0
