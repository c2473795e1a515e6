"""The fundamental diagram of a cell: the density, or the count, at capacity and free speed."""
from fractions import Fraction

from .library import WHOLE, Road


def critical_density(capacity: Fraction | int, speed: Fraction | int) -> Fraction:
    """Return the density at capacity and free speed, in veh/km: veh/h divided by km/h."""
    return Fraction(capacity) / speed


def critical_count(road: Road, i: int) -> Fraction | None:
    """Return what the cell at i holds at capacity and free speed, in parts.

    None if its speed is 0.
    """
    speed = road.speed[i]
    return critical_density(WHOLE * road.capacity[i], speed) if speed else None
