"""Pictures as SVG, by hand: a log scale, lines, dots and text that read well in black on white."""
import math
from xml.sax.saxutils import escape

import library

FONT = "font-family='DejaVu Sans, Verdana, sans-serif'"


class Picture:
    def __init__(self, width, height, title):
        self.width, self.height, self.title, self.parts = width, height, title, []

    def text(self, x, y, said, size=13, anchor="start", fill="#222", weight="normal"):
        self.parts.append(f"<text x='{x:.1f}' y='{y:.1f}' font-size='{size}' text-anchor='{anchor}' fill='{fill}' font-weight='{weight}'>"
                          f"{escape(said)}</text>")

    def line(self, x1, y1, x2, y2, stroke="#ccc", width=1.0, dash=""):
        dashed = f" stroke-dasharray='{dash}'" if dash else ""
        ends = f"x1='{x1:.1f}' y1='{y1:.1f}' x2='{x2:.1f}' y2='{y2:.1f}'"
        self.parts.append(f"<line {ends} stroke='{stroke}' stroke-width='{width}'{dashed}/>")

    def dot(self, x, y, fill, radius=5.0):
        self.parts.append(f"<circle cx='{x:.1f}' cy='{y:.1f}' r='{radius}' fill='{fill}'/>")

    def path(self, points, stroke, width=2.0):
        joined = " ".join(f"{x:.1f},{y:.1f}" for x, y in points)
        self.parts.append(f"<polyline points='{joined}' fill='none' stroke='{stroke}' stroke-width='{width}' stroke-linejoin='round'/>")

    def write(self, path):
        head = (f"<svg xmlns='http://www.w3.org/2000/svg' width='{self.width}' height='{self.height}' "
                f"viewBox='0 0 {self.width} {self.height}' {FONT} role='img'>\n<title>{escape(self.title)}</title>\n"
                f"<rect width='100%' height='100%' fill='#fff'/>\n")
        library.replace(path, (head + "\n".join(self.parts) + "\n</svg>\n").encode())


class LogScale:
    """From numbers to places: `low` at `first`, `high` at `last`."""

    def __init__(self, low, high, first, last):
        self.low, self.high, self.first, self.last = low, high, first, last

    def __call__(self, number):
        share = math.log(number / self.low) / math.log(self.high / self.low)
        return self.first + (self.last - self.first) * share

    def ticks(self):
        """1, 2 and 5 of each power of ten."""
        tens = range(math.floor(math.log10(self.low)) - 1, math.ceil(math.log10(self.high)) + 1)
        return [m * 10.0 ** t for t in tens for m in (1, 2, 5) if self.low * 0.999 <= m * 10.0 ** t <= self.high * 1.001]

