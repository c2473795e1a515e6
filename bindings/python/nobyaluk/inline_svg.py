"""Smaller pictures inside a page.

They have fewer digits, one path for lines of one style, and each letter's shape once in the page.
"""
import re

_LINE = re.compile(r'<path d="([^"]*)" ([^>]*)/>')
_SHAPE = re.compile(r'<path id="([^"]*)" d="[^"]*"(?: transform="[^"]*")?/>\s*')


class InlineSvg:
    """The pictures of one page."""

    def __init__(self) -> None:
        self.shapes: set[str] = set()  # letters that the page has

    def small(self, svg: str) -> str:
        """Return a picture without the letters that the page already has."""
        svg = re.sub(r' d="([^"]*)"', lambda m: f' d="{_short(m[1])}"', svg)
        return _joined(_SHAPE.sub(self._once, re.sub(r"\n\s*", "\n", svg)))

    def _once(self, found: re.Match[str]) -> str:
        if found[1] in self.shapes:
            return ""
        self.shapes.add(found[1])
        return found[0]


def _short(path: str) -> str:
    """Return a path with two decimals, on one line."""
    return " ".join(re.sub(r"(\.\d\d)\d+", r"\1", path).split())


def _joined(svg: str) -> str:
    """Return consecutive lines of one style as one path.

    Filled shapes stay unchanged: where they overlap, one path would look different.
    """
    out: list[str] = []
    style, closing = None, ""
    for line in svg.split("\n"):
        found = _LINE.fullmatch(line)
        if found and "fill: none" in found[2] and found[2] == style:
            out[-1] = f"{out[-1].removesuffix(closing)} {found[1]}{closing}"
            continue
        style = found[2] if found and "fill: none" in found[2] else None
        closing = f'" {style}/>'
        out.append(line)
    return "\n".join(out)
