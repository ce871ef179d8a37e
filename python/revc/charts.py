"""Toffoli gates against lines as a picture: SVG, both axes by powers of ten."""
import math
from typing import Iterator, List, Sequence, Tuple

Curve = Tuple[str, List[Tuple[int, int]]]  # a name, and for each circuit its lines and its Toffoli gates

WIDTH, HEIGHT = 720, 440
LEFT, RIGHT, TOP, BOTTOM = 90, 24, 24, 56
COLOURS = ["#1f4e9c", "#b3441e", "#2e7d32", "#6a3d9a"]
STYLE = "text { font: 13px sans-serif; fill: #1b1b1b } .grid { stroke: #dddddd } .axis { stroke: #1b1b1b }"


def chart(curves: Sequence[Curve], counted: str) -> str:
    """A curve for each program, a point for each of its circuits: what is `counted` against lines."""
    points = [point for _, each in curves for point in each]
    x, y = axis([p[0] for p in points], LEFT, WIDTH - RIGHT), axis([p[1] for p in points], HEIGHT - BOTTOM, TOP)
    out = [f'<svg xmlns="http://www.w3.org/2000/svg" width="{WIDTH}" height="{HEIGHT}" viewBox="0 0 {WIDTH} {HEIGHT}">',
           f"<style>{STYLE}</style>", f'<rect width="{WIDTH}" height="{HEIGHT}" fill="#ffffff"/>']
    for at, value in x[1]:
        out.append(line(at, TOP, at, HEIGHT - BOTTOM, "grid"))
        out.append(text(at, HEIGHT - BOTTOM + 20, format(value, ","), "middle"))
    for at, value in y[1]:
        out.append(line(LEFT, at, WIDTH - RIGHT, at, "grid"))
        out.append(text(LEFT - 8, at + 4, format(value, ","), "end"))
    out += [line(LEFT, HEIGHT - BOTTOM, WIDTH - RIGHT, HEIGHT - BOTTOM, "axis"),
            line(LEFT, TOP, LEFT, HEIGHT - BOTTOM, "axis"),
            text((LEFT + WIDTH - RIGHT) / 2, HEIGHT - 14, "lines", "middle"),
            text(LEFT, TOP - 8, counted, "start")]
    for number, each in enumerate(curves):
        out += curve(each, x[0], y[0], COLOURS[number % len(COLOURS)], number)
    return "\n".join(out + ["</svg>", ""])


def axis(values: Sequence[int], start: float, end: float) -> Tuple["Scale", List[Tuple[float, int]]]:
    low, high = math.log10(max(1, min(values)) * 0.85), math.log10(max(values) * 1.18)
    scale = Scale(low, high, start, end)
    marks = [k * 10 ** e for e in range(int(low), int(high) + 1) for k in (1, 2, 5)]
    return scale, [(scale(each), each) for each in marks if low <= math.log10(each) <= high]


class Scale:
    def __init__(self, low: float, high: float, start: float, end: float):
        self.low, self.rate, self.start = low, (end - start) / (high - low), start

    def __call__(self, value: int) -> float:
        return self.start + (math.log10(max(1, value)) - self.low) * self.rate


def curve(each: Curve, x: "Scale", y: "Scale", colour: str, number: int) -> Iterator[str]:
    points = sorted((x(lines), y(count)) for lines, count in each[1])
    path = " ".join(f"{across:.1f},{down:.1f}" for across, down in points)
    yield f'<polyline points="{path}" fill="none" stroke="{colour}" stroke-width="1.6"/>'
    for across, down in points:
        yield f'<circle cx="{across:.1f}" cy="{down:.1f}" r="3.5" fill="{colour}"/>'
    at = TOP + 20 + 18 * number
    yield f'<circle cx="{WIDTH - RIGHT - 150}" cy="{at - 4}" r="4" fill="{colour}"/>'
    yield text(WIDTH - RIGHT - 138, at, each[0], "start")


def line(x1: float, y1: float, x2: float, y2: float, kind: str) -> str:
    return f'<line class="{kind}" x1="{x1:.1f}" y1="{y1:.1f}" x2="{x2:.1f}" y2="{y2:.1f}"/>'


def text(x: float, y: float, words: str, anchor: str) -> str:
    return f'<text x="{x:.1f}" y="{y:.1f}" text-anchor="{anchor}">{words}</text>'
