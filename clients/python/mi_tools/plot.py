"""The tool plot: bars and lines as SVG, or in the terminal. What is drawn comes from `sampling.py`."""
from __future__ import annotations

import argparse
import shutil
import sys
from typing import List, Optional, Sequence, Tuple, Union
from xml.sax.saxutils import escape

from mi_client import Ended, Refused, TooManyEqual
from mi_tools.loading import load_rows
from mi_tools.opening import add_source, opened, source_words, status_of, why
from mi_tools.rowfiles import read_json_lines, reading
from mi_tools.sampling import Bars, Line, along, distribution
from mi_tools.show import width_of

HIGH = 16
"""The lines of a drawing in the terminal."""
LEFT, TOP, RIGHT, BOTTOM = 70, 72, 20, 48
"""The room around a drawing as SVG."""
INK = "#1f6feb"
COUNTED = "records"
"""The name of the axis along which bars are long."""


def number(value: float) -> str:
    return f"{value:,.0f}" if value == int(value) else f"{value:,.2f}"


def bars_as_text(it: Bars, width: int) -> str:
    if not it.bars:
        return f"{it.title}\nno records"
    head = [(it.key, COUNTED)] if it.key else []
    rows = head + [(name, number(count)) for name, count in it.bars]
    widest, longest = max(width_of(name) for name, _ in rows), max(len(count) for _, count in rows)
    room, most = max(10, width - widest - longest - 3), max(count for _, count in it.bars) or 1
    drawn_bars = [""] * len(head) + ["#" * round(room * count / most) for _, count in it.bars]
    lines = [f"{' ' * (widest - width_of(name))}{name} {count:>{longest}} {bar}".rstrip() for (name, count), bar in zip(rows, drawn_bars)]
    return "\n".join([*headings(it), *lines])


def headings(it: Union[Bars, Line]) -> List[str]:
    """The title, and what was looked at."""
    return [it.title, it.sampled] if it.sampled else [it.title]


def line_as_text(it: Line, width: int) -> str:
    if not it.points:
        return f"{it.title}\nno records"
    low, high = min(y for _, y in it.points), max(y for _, y in it.points)
    margin = max(len(number(low)), len(number(high)), len(it.up)) + 1
    room = max(10, width - margin - 1)
    last = it.points[-1][0] or 1
    dots = {(round(x / last * (room - 1)), round((y - low) / ((high - low) or 1) * (HIGH - 1))) for x, y in it.points}
    lines = []
    for row in range(HIGH - 1, -1, -1):
        label = number(high) if row == HIGH - 1 else number(low) if row == 0 else ""
        lines.append(f"{label:>{margin}}|{''.join('*' if (x, row) in dots else ' ' for x in range(room))}".rstrip())
    foot = f"{'':>{margin}}+{'-' * room}"
    end = number(it.points[-1][0])
    ends = f"{'':>{margin}} 0{it.across:^{max(0, room - 1 - len(end))}}{end}"
    return "\n".join([*headings(it), *([f"{it.up:>{margin}}"] if it.up else []), *lines, foot, ends])


def svg(it: Union[Bars, Line], inner: Sequence[str], width: int, height: int) -> str:
    return "\n".join([
        f'<svg xmlns="http://www.w3.org/2000/svg" viewBox="0 0 {width} {height}" font-family="sans-serif" font-size="12">',
        f'<rect width="{width}" height="{height}" fill="white"/>',
        f'<text x="{LEFT}" y="24" font-size="15">{escape(it.title)}</text>',
        f'<text x="{LEFT}" y="42" fill="#555">{escape(it.sampled)}</text>',
        *inner,
        "</svg>",
        "",
    ])


def bars_as_svg(it: Bars, width: int = 800) -> str:
    step = 22
    left = min(300, 20 + 7 * max(width_of(name) for name in [it.key, *(name for name, _ in it.bars)]))
    most = max([count for _, count in it.bars], default=1) or 1
    parts = [f'<text x="{left - 6}" y="{TOP - 6}" text-anchor="end" font-style="italic">{escape(it.key)}</text>',
             f'<text x="{left}" y="{TOP - 6}" font-style="italic">{COUNTED}</text>']
    for n, (name, count) in enumerate(it.bars):
        y = TOP + n * step
        long = (width - left - 90) * count / most
        parts.append(f'<text x="{left - 6}" y="{y + 14}" text-anchor="end">{escape(name)}</text>')
        parts.append(f'<rect x="{left}" y="{y + 3}" width="{long:.1f}" height="{step - 6}" fill="{INK}"/>')
        parts.append(f'<text x="{left + long + 6:.1f}" y="{y + 14}">{number(count)}</text>')
    return svg(it, parts, width, TOP + step * len(it.bars) + 20)


def line_as_svg(it: Line, width: int = 800, height: int = 420) -> str:
    low = min([y for _, y in it.points], default=0.0)
    high = max([y for _, y in it.points], default=1.0)
    last = (it.points[-1][0] if it.points else 1) or 1
    wide, tall = width - LEFT - RIGHT, height - TOP - BOTTOM

    def place(point: Tuple[int, float]) -> str:
        x, y = point
        return f"{LEFT + wide * x / last:.1f},{TOP + tall * (1 - (y - low) / ((high - low) or 1)):.1f}"

    parts = [f'<text x="{LEFT}" y="{TOP - 8}" text-anchor="middle" font-style="italic">{escape(it.up)}</text>',
             f'<text x="{LEFT + wide / 2:.1f}" y="{TOP + tall + 38}" text-anchor="middle" font-style="italic">{escape(it.across)}</text>',
             f'<path d="M{LEFT},{TOP}V{TOP + tall}H{LEFT + wide}" fill="none" stroke="#888"/>']
    for value in (low, (low + high) / 2, high):
        y = TOP + tall * (1 - (value - low) / ((high - low) or 1))
        parts.append(f'<text x="{LEFT - 6}" y="{y + 4:.1f}" text-anchor="end">{number(value)}</text>')
    for part in (0, 0.5, 1):
        parts.append(f'<text x="{LEFT + wide * part:.1f}" y="{TOP + tall + 18}" text-anchor="middle">{number(int(last * part))}</text>')
    if it.points:
        parts.append(f'<polyline points="{" ".join(map(place, it.points))}" fill="none" stroke="{INK}" stroke-width="2"/>')
    return svg(it, parts, width, height)


def drawn(it: Union[Bars, Line], as_svg: bool, width: int) -> str:
    if isinstance(it, Bars):
        return bars_as_svg(it) if as_svg else bars_as_text(it, width)
    return line_as_svg(it) if as_svg else line_as_text(it, width)


def main(words: Optional[List[str]] = None) -> int:
    about = "Draws how many records have which keys of an index; with --column, a column's value along the index."
    parser = argparse.ArgumentParser(prog="weltiyo plot", description=about)
    add_source(parser)
    parser.add_argument("--table", help="the table; without it the first")
    parser.add_argument("--column", help="a column of numbers, in place of the distribution")
    parser.add_argument("--points", type=int, default=200, help="at how many places a column is looked at (%(default)s)")
    parser.add_argument("--bins", type=int, default=20, help="how many ranges a distribution has (%(default)s)")
    parser.add_argument("--svg", metavar="FILE", help="writes a picture to this file in place of the terminal")
    parser.add_argument("--load", metavar="FILE", help="loads this dump first, into a server of its own unless one is named")
    parser.add_argument("index", help="a ranked index; an ordered one is walked whole")
    options = source_words(parser, words, lambda it: it.load)
    if options.points < 1 or options.bins < 1:
        parser.error("--points and --bins begin at 1")
    try:
        with opened(options) as db:
            if options.load:
                with reading(options.load) as file:
                    load_rows(db, read_json_lines(file, options.load, None))
            if options.column:
                it: Union[Bars, Line] = along(db, options.table, options.index, options.column, options.points)
            else:
                it = distribution(db, options.table, options.index, options.bins)
        text = drawn(it, bool(options.svg), shutil.get_terminal_size().columns)
        if options.svg:
            with open(options.svg, "w", encoding="utf-8") as out:
                out.write(text)
        else:
            print(text)
    except BrokenPipeError:
        raise  # (nobody reads what is written)
    except (Ended, OSError, Refused, ValueError, TooManyEqual, RuntimeError) as error:
        print(f"weltiyo plot: {why(error, options)}", file=sys.stderr)
        return status_of(error)
    return 0
