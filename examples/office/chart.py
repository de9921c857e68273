"""Charts in SVG, of the standard library alone: lines over a scale of numbers or of days, and stacked bars.

A chart is a text, one `svg` element. Its axes, ticks and legend follow from the values. examples/office/page and bench/award
use it.
"""

from __future__ import annotations

import dataclasses
import datetime
import math
from html import escape
from typing import Callable, List, Optional, Sequence, Tuple, Union

#: What stands on the axis below: a number or a day.
Place = Union[float, datetime.date]

#: Colours that readers with a weakness for red or green can tell apart too, and dashes that tell lines apart on grey paper.
COLOURS = ["#0072b2", "#d55e00", "#009e73", "#cc79a7", "#a67c00", "#3aa0dd", "#555555"]
DASHES = ["", "9 4", "2 4", "12 4 2 4", "5 3", "1 3", "14 3"]
INK, FAINT, PALE = "#333333", "#dddddd", "#e4e4e4"


@dataclasses.dataclass(frozen=True)
class Size:
    """How large a chart is, in units of its own: the page may show it larger or smaller."""

    width: int = 720
    height: int = 340
    left: int = 72
    right: int = 32
    font: int = 11

    @property
    def letter(self) -> float:
        """About how wide a letter is."""
        return 0.57 * self.font


#: As wide as a screen, and as wide as a phone.
BROAD, NARROW = Size(1280, 400, 64, 24, 14), Size(390, 330, 48, 12, 12)


@dataclasses.dataclass(frozen=True)
class Series:
    """A named line: its points from left to right. A dashed one is drawn thin, for what stands beside."""

    name: str
    points: Sequence[Tuple[Place, float]]
    dashed: bool = False
    #: Which of the colours it has, where not that of its place among the lines.
    colour: Optional[int] = None


class Axis:
    """A scale from values to places on the page, linear or by powers of ten, with its ticks."""

    def __init__(self, values: Sequence[float], first: float, last: float, logarithmic: bool = False, zero: bool = False) -> None:
        self.logarithmic = logarithmic
        self.first, self.last = first, last
        least, most = min(values), max(values)
        if logarithmic:
            self.least, self.most = 10.0 ** math.floor(math.log10(least)), 10.0 ** math.ceil(math.log10(most))
            if self.least == self.most:
                self.most *= 10
            count = round(math.log10(self.most / self.least))
            self.ticks = [self.least * 10.0**power for power in range(count + 1)]
        else:
            least = min(0.0, least) if zero else least
            if least == most:
                # One value alone stands in the middle.
                least, most = (0.0, most or 1.0) if zero else (least - (abs(least) or 1.0) / 200, most + (abs(most) or 1.0) / 200)
            step = _step((most - least) / 5)
            self.least, self.most = math.floor(least / step + 1e-9) * step, math.ceil(most / step - 1e-9) * step
            self.ticks = [self.least + step * count for count in range(round((self.most - self.least) / step) + 1)]

    def at(self, value: float) -> float:
        if self.logarithmic:
            part = math.log10(value / self.least) / math.log10(self.most / self.least)
        else:
            part = (value - self.least) / (self.most - self.least)
        return self.first + part * (self.last - self.first)


def _step(least: float) -> float:
    """The least of 1, 2, 5 times a power of ten that is no less."""
    power = 10.0 ** math.floor(math.log10(least))
    return next(power * it for it in (1, 2, 5, 10) if power * it >= least * (1 - 1e-9))


def plain(value: float) -> str:
    """A number with commas, and no more decimals than it has."""
    text = f"{value:,.6f}".rstrip("0").rstrip(".")
    return text or "0"


class _Drawing:
    """A chart while it is drawn: its title, its legend in rows under that, and the room that is left for its values."""

    def __init__(
        self, size: Size, title: str, legend: Sequence[Tuple[str, str, str, bool]], notes: Optional[Sequence[str]]
    ) -> None:
        self.size, self.notes = size, list(notes or ())
        self.parts = [
            f'<svg xmlns="http://www.w3.org/2000/svg" viewBox="0 0 {size.width} {size.height}" width="{size.width}" '
            f'height="{size.height}" role="img" font-family="Helvetica, Arial, sans-serif"><title>{escape(title)}</title>',
            f'<rect width="{size.width}" height="{size.height}" fill="#ffffff"/>',
        ]
        self.text(2, 1.5 * size.font, title, "start", size.font + 3, "bold")
        row, x = 3.1 * size.font, 2.0
        for name, colour, dashes, filled in legend:
            room = 30 + size.letter * (len(name) + 2)
            if x > 2 and x + room > size.width:
                row, x = row + 1.5 * size.font, 2.0
            if filled:
                self.parts.append(f'<rect x="{x:.1f}" y="{row - 0.75 * size.font:.1f}" width="20" height="{0.8 * size.font:.1f}" '
                                  f'fill="{colour}"/>')
            else:
                self.line(x, row - 0.35 * size.font, x + 24, row - 0.35 * size.font, colour, 2.5, dashes)
            self.text(x + 28, row, name, "start")
            x += room
        self.top = row + (3.0 if legend else 1.2) * size.font
        self.bottom = size.height - 3.6 * size.font - 1.2 * (size.font - 1) * len(self.notes)
        self.left, self.right = size.left, size.width - size.right

    def text(self, x: float, y: float, text: str, anchor: str = "middle", font: int = 0, weight: str = "normal") -> None:
        self.parts.append(f'<text x="{x:.1f}" y="{y:.1f}" text-anchor="{anchor}" font-size="{font or self.size.font}" '
                          f'font-weight="{weight}" fill="{INK}">{escape(text)}</text>')

    def line(self, x1: float, y1: float, x2: float, y2: float, colour: str = FAINT, width: float = 1, dashes: str = "") -> None:
        dashed = f' stroke-dasharray="{dashes}"' if dashes else ""
        self.parts.append(f'<line x1="{x1:.1f}" y1="{y1:.1f}" x2="{x2:.1f}" y2="{y2:.1f}" stroke="{colour}" '
                          f'stroke-width="{width:g}"{dashed}/>')

    def scale(self, axis: Axis, name: str, text: Callable[[float], str]) -> None:
        """The axis at the left, with a faint line for each tick, and its name above it."""
        for tick in axis.ticks:
            self.line(self.left, axis.at(tick), self.right, axis.at(tick))
            self.text(self.left - 6, axis.at(tick) + 0.35 * self.size.font, text(tick), "end")
        self.text(2, self.top - 1.0 * self.size.font, name, "start")

    def below(self, labels: Sequence[Tuple[float, str]], name: str) -> None:
        """The axis below, with its labels, and its name under them."""
        for x, label in labels:
            self.line(x, self.bottom, x, self.bottom + 5, INK)
            half = 0.5 * self.size.letter * len(label)
            self.text(min(max(x, half + 1), self.size.width - half - 1), self.bottom + 5 + 1.1 * self.size.font, label)
        self.line(self.left, self.bottom, self.right, self.bottom, INK)
        self.text(self.right, self.bottom + 5 + 2.4 * self.size.font, name, "end")

    def whole(self) -> str:
        for place, note in enumerate(self.notes):
            y = self.size.height - 6 - 1.2 * (self.size.font - 1) * (len(self.notes) - 1 - place)
            self.text(2, y, note, "start", self.size.font - 1)
        return "\n".join([*self.parts, "</svg>"]) + "\n"


def _number(place: Place) -> float:
    return float(place.toordinal()) if isinstance(place, datetime.date) else float(place)


def lines(
    title: str,
    series: Sequence[Series],
    *,
    across: str,
    up: str,
    logarithmic: bool = False,
    zero: bool = False,
    span: Sequence[Place] = (),
    up_text: Callable[[float], str] = plain,
    notes: Optional[Sequence[str]] = None,
    size: Size = Size(),
) -> str:
    """A chart of lines with their points. `across` and `up` name the axes, with their units.

    logarithmic: both axes by powers of ten; all values are above zero
    zero:        the axis at the left begins at zero
    span:        places that the axis below has in any case
    up_text:     how a value is written
    notes:       lines under the chart
    """
    all_points = [point for it in series for point in it.points]
    if not all_points:
        raise ValueError("a chart has at least one point")
    looks = [place if it.colour is None else it.colour for place, it in enumerate(series)]
    colours = [COLOURS[look % len(COLOURS)] for look in looks]
    dashes = ["5 4" if it.dashed else "" if it.colour is None else DASHES[it.colour % len(DASHES)] for it in series]
    many, small = len(all_points) > 100, size.width < 700
    if many and small:
        # Dashes would hide lines of so many points.
        dashes = [""] * len(series)
    legend = [(it.name, colour, dash, False) for it, colour, dash in zip(series, colours, dashes)]
    legend = legend if len(series) > 1 or series[0].colour is not None else []
    drawn = _Drawing(size, title, legend, notes)
    days = isinstance(all_points[0][0], datetime.date)
    places = sorted({_number(x) for x, _ in all_points} | {_number(x) for x in span})
    x_axis = Axis(places, drawn.left + 12, drawn.right - 12, logarithmic)
    if days:
        # From the first day to the last.
        x_axis.least, x_axis.most = places[0], places[-1]
        if len(places) == 1:
            x_axis.least, x_axis.most = x_axis.least - 1, x_axis.most + 1
        labels = _of_days(places, x_axis, size)
    else:
        labels = [(x_axis.at(tick), plain(tick)) for tick in x_axis.ticks]
    y_axis = Axis([y for _, y in all_points], drawn.bottom, drawn.top, logarithmic, zero)
    drawn.scale(y_axis, up, up_text)
    drawn.below(labels, across)
    radius = [3.5, 2.2, 1.3][many + small]
    for it, colour, dash in zip(series, colours, dashes):
        marks = [(x_axis.at(_number(x)), y_axis.at(y)) for x, y in it.points]
        ways = " ".join(f"{x:.1f},{y:.1f}" for x, y in marks)
        dashed = f' stroke-dasharray="{dash}"' if dash else ""
        drawn.parts.append(f'<polyline points="{ways}" fill="none" stroke="{colour}" '
                           f'stroke-width="{1 if many and small else 1.5 if many or it.dashed else 2}"{dashed}/>')
        for (x, y), (across_value, value) in zip(marks, it.points):
            shown = across_value.isoformat() if isinstance(across_value, datetime.date) else plain(across_value)
            drawn.parts.append(f'<circle cx="{x:.1f}" cy="{y:.1f}" r="{radius}" fill="{colour}">'
                               f"<title>{escape(it.name)}, {shown}: {up_text(value)}</title></circle>")
    return drawn.whole()


def stacked_bars(
    title: str,
    names: Sequence[str],
    bars: Sequence[Tuple[str, Sequence[float], float]],
    *,
    across: str,
    up: str,
    behind: str,
    up_text: Callable[[float], str] = plain,
    notes: Optional[Sequence[str]] = None,
    size: Size = Size(),
) -> str:
    """Bars side by side, in the order given: the parts of each one on the other, in the order of their names.

    Each bar is its label, its parts, and the value of the pale bar behind it, which `behind` names. `up_text` says how a value is
    written at the axis.
    """
    if not bars:
        raise ValueError("a chart has at least one bar")
    legend = [(name, COLOURS[part], "", True) for part, name in enumerate(names)] + [(behind, PALE, "", True)]
    drawn = _Drawing(size, title, legend, notes)
    y_axis = Axis([max(sum(values), marked) for _, values, marked in bars], drawn.bottom, drawn.top, zero=True)
    drawn.scale(y_axis, up, up_text)
    room = (drawn.right - drawn.left) / len(bars)
    width = min(60.0, 0.7 * room)
    every = math.ceil(max(len(label) + 2 for label, _, _ in bars) * size.letter / room)
    labels = []
    for place, (label, values, marked) in enumerate(bars):
        middle = drawn.left + (place + 0.5) * room

        def bar(name: str, value: float, base: float, wide: float, colour: str) -> None:
            top, bottom = y_axis.at(base + value), y_axis.at(base)
            drawn.parts.append(f'<rect x="{middle - wide / 2:.1f}" y="{top:.1f}" width="{wide:.1f}" height="{bottom - top:.1f}" '
                               f'fill="{colour}"><title>{escape(label)}, {escape(name)}: {plain(value)}</title></rect>')

        bar(behind, marked, 0.0, min(1.3 * width, 0.95 * room), PALE)
        below = 0.0
        for part, value in enumerate(values):
            bar(names[part], value, below, width, COLOURS[part])
            below += value
        if place % every == 0:
            labels.append((middle, label))
    drawn.below(labels, across)
    return drawn.whole()


def one_below_the_other(charts: Sequence[str], size: Size = Size()) -> str:
    """One chart of several of one size."""
    whole = size.height * len(charts)
    parts = [f'<svg xmlns="http://www.w3.org/2000/svg" viewBox="0 0 {size.width} {whole}" width="{size.width}" height="{whole}">']
    for place, it in enumerate(charts):
        parts.append(f'<g transform="translate(0 {size.height * place})">\n{it}</g>')
    return "\n".join([*parts, "</svg>"]) + "\n"


def _of_days(days: Sequence[float], axis: Axis, size: Size) -> List[Tuple[float, str]]:
    """Labels that have room side by side: the days themselves, or else the beginnings of months or of years."""
    room = 13 * size.letter
    if len(days) * room <= axis.last - axis.first and all(axis.at(b) - axis.at(a) >= room for a, b in zip(days, days[1:])):
        return [(axis.at(day), datetime.date.fromordinal(int(day)).isoformat()) for day in days]
    first, last = (datetime.date.fromordinal(int(day)) for day in (days[0], days[-1]))
    months = [datetime.date(year, month, 1) for year in range(first.year, last.year + 1) for month in range(1, 13)]
    months = [it for it in months if first <= it <= last]
    for step in 1, 3, 6, 12, 24, 60, 120:
        kept = [it for it in months if (12 * it.year + it.month - 1) % step == 0]
        if len(kept) * room <= axis.last - axis.first:
            break
    if len(kept) < 2:
        # Less than a month or two: the days that have room.
        kept = []
        for day in map(datetime.date.fromordinal, map(int, days)):
            if not kept or axis.at(_number(day)) - axis.at(_number(kept[-1])) >= room:
                kept.append(day)
        return [(axis.at(_number(it)), it.isoformat()) for it in kept]
    return [(axis.at(_number(it)), f"{it:%Y}" if step >= 12 else f"{it:%b %Y}") for it in kept]
