"""Lines, dots, boxes and words, as SVG."""
from html import escape
from math import log


def scale_of(low, high, begin, end):
    """From numbers to places on a line, by their logarithms."""
    return lambda number: begin + (end - begin) * log(number / low) / log(high / low)


class Drawing:
    def __init__(self, width, height):
        self.width, self.height = ceil_of(width), ceil_of(height)
        self.parts = []

    def text(self, x, y, words, size=12, color="#222222", anchor="start", bold=False):
        """Puts words at a place, and tells about where they end."""
        weight = ' font-weight="bold"' if bold else ""
        self.parts.append(f'<text x="{x:.1f}" y="{y:.1f}" font-size="{size}" fill="{color}" text-anchor="{anchor}"{weight}>{escape(words)}</text>')
        return x + 0.58 * size * len(words)

    def line(self, x, y, to_x, to_y, color, width=1, dashed=False):
        dashes = ' stroke-dasharray="5 4"' if dashed else ""
        self.parts.append(f'<line x1="{x:.1f}" y1="{y:.1f}" x2="{to_x:.1f}" y2="{to_y:.1f}" stroke="{color}" stroke-width="{width}"{dashes}/>')

    def path(self, places, color, dashed=False):
        dashes = ' stroke-dasharray="5 4"' if dashed else ""
        points = " ".join(f"{x:.1f},{y:.1f}" for x, y in places)
        self.parts.append(f'<polyline points="{points}" fill="none" stroke="{color}" stroke-width="2"{dashes}/>')

    def dot(self, x, y, color):
        self.parts.append(f'<circle cx="{x:.1f}" cy="{y:.1f}" r="4.5" fill="{color}" stroke="#ffffff"/>')

    def box(self, x, y, width, height, color, opacity=1):
        self.parts.append(f'<rect x="{x:.1f}" y="{y:.1f}" width="{max(width, 1):.1f}" height="{height:.1f}" fill="{color}" fill-opacity="{opacity}"/>')

    def save(self, path):
        head = f'<svg xmlns="http://www.w3.org/2000/svg" width="{self.width}" height="{self.height}" viewBox="0 0 {self.width} {self.height}" font-family="DejaVu Sans, Verdana, sans-serif">'
        with open(path, "w") as file:
            file.write("\n".join([head, f'<rect width="{self.width}" height="{self.height}" fill="#ffffff"/>', *self.parts, "</svg>", ""]))


def ceil_of(number):
    return int(-(-number // 1))
