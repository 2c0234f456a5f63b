"""Maps as pictures: SVG of squares, each with what it is as its title, and the same as text."""
from __future__ import annotations

from typing import Any
from xml.sax.saxutils import escape


SIZE = 12
LETTERS = "ABCDEFGHIJKLMNOPQRSTUVWXYZabcdefghijklmnopqrstuvwxyz0123456789@#"
SHADES = ".:-=+*#%@"


class Picture:
    """Squares and lines of text, in SVG."""

    def __init__(self) -> None:
        self.parts = []
        self.width = self.height = 0

    def grow(self, x: Any, y: Any) -> None:
        self.width, self.height = max(self.width, x), max(self.height, y)

    def square(self, x: Any, y: Any, color: Any, title: Any) -> None:
        self.grow(x + SIZE, y + SIZE)
        self.parts.append(
            f'<rect x="{x}" y="{y}" width="{SIZE - 1}" height="{SIZE - 1}" fill="{color}"><title>{escape(title)}</title></rect>'
        )

    def row(self, x: Any, y: Any, count: int, color: Any, title: Any) -> None:
        """So many squares next to each other that have one title: a dashed line."""
        self.grow(x + SIZE * count, y + SIZE)
        line = f'd="M{x} {y + (SIZE - 1) / 2}h{SIZE * count - 1}"'
        stroke = f'stroke="{color}" stroke-width="{SIZE - 1}" stroke-dasharray="{SIZE - 1} 1"'
        self.parts.append(f"<path {line} {stroke}><title>{escape(title)}</title></path>")

    def legend(self, y: Any, colors: dict[str, str]) -> None:
        """What each color stands for."""
        x = SIZE
        for text, color in colors.items():
            self.parts.append(
                f'<rect x="{x}" y="{y - SIZE + 3}" width="{SIZE - 1}" height="{SIZE - 1}" fill="{color}"/>'
            )
            self.text(x + SIZE + 2, y, text)
            x += (len(text) + 5) * 7

    def text(self, x: Any, y: Any, text: str) -> None:
        self.grow(x + 7 * len(text), y + 4)
        self.parts.append(f'<text x="{x}" y="{y}">{escape(text)}</text>')

    def svg(self) -> str:
        size = f'width="{self.width + SIZE}" height="{self.height + SIZE}"'
        head = f'<svg xmlns="http://www.w3.org/2000/svg" {size} font-family="monospace" font-size="11">'
        ground = '<rect width="100%" height="100%" fill="white"/>'
        return "\n".join([head, ground, *self.parts, "</svg>"])


def color_of(place: Any) -> str:
    """A color for each user, neighbours far apart on the circle."""
    return f"hsl({place * 137 % 360},65%,{45 + place * 7 % 25}%)"


def shade_of(part: Any) -> str:
    """A color for how full something is: from light to dark."""
    return f"hsl(210,70%,{90 - round(65 * part)}%)"


FREE = "#eeeeee"
