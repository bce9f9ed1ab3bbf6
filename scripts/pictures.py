#!/usr/bin/env python3
"""Draws the pictures of the documents: each `docs/pictures/NAME.txt` into `docs/pictures/NAME.svg`.

    pictures.py [--check]

--check writes nothing, and names each picture that isn't what its text gives; the status is 1 then. A picture shows the colours of a light or
of a dark page, as its reader has set them. In a text `#` begins a remark, and each other line is one of these; numbers are pixels from the
upper left corner, STYLE is one or several of `plain soft strong new gone old code big left` or nothing, and `\\` in front of `|` is a bar:

    size W H                          the first line: how large the picture is
    title TEXT                        what the picture shows, for who can't see it
    box X Y W H STYLE | LINE | ..     a box with lines of text in its middle, or at its left by the style `left`
    row X Y W H STYLE | CELL | ..     a box cut into cells of one width, each with a text
    text X Y STYLE | LINE             a line of text that begins there
    middle X Y STYLE | LINE           a line of text whose middle is there
    arrow X Y X Y .. STYLE            an arrow along these points
    line X Y X Y .. STYLE             a line along these points

A text `*LINE*` is bold, and `~LINE~` stands for what isn't there any more."""
import glob
import os
import re
import sys
from xml.sax.saxutils import escape

TOP = os.path.dirname(os.path.dirname(os.path.abspath(__file__)))
LIGHT = {"page": "#ffffff", "ink": "#1f2328", "quiet": "#59636e", "edge": "#818b98", "plain": "#f6f8fa", "soft": "#ddeefb", "strong": "#fbe9c6",
         "new": "#d8f3dc", "gone": "#f3d9d9"}
DARK = {"page": "#0d1117", "ink": "#e6edf3", "quiet": "#9da7b3", "edge": "#6e7681", "plain": "#161b22", "soft": "#12324f", "strong": "#4a3a12",
        "new": "#14401f", "gone": "#4d2024"}
FILLS = ("plain", "soft", "strong", "new", "gone")
STYLES = (*FILLS, "old", "code", "big", "left")
STEP = 16
"""From a line of text to the next one."""


class Wrong(Exception):
    """A line that isn't one of a picture."""


def colours(theme):
    rules = [f".page{{fill:{theme['page']}}}text{{fill:{theme['ink']}}}.old{{fill:{theme['quiet']}}}.head{{fill:{theme['edge']}}}"]
    rules += [f".{it}{{fill:{theme[it]};stroke:{theme['edge']}}}" for it in FILLS]
    rules.append(f".way{{stroke:{theme['edge']}}}")
    return "".join(rules)


STYLE_SHEET = (
    "text{font:13px system-ui,'Segoe UI',Helvetica,Arial,sans-serif}.code{font-family:ui-monospace,Menlo,Consolas,monospace;font-size:12px}"
    ".big{font-size:15px}.bold{font-weight:600}.middle{text-anchor:middle}.cut{text-decoration:line-through}.way{fill:none;stroke-width:1.4}"
    ".dashed{stroke-dasharray:5 4}"
    f"{colours(LIGHT)}@media (prefers-color-scheme:dark){{{colours(DARK)}}}"
)


def words_of(part):
    """The numbers and the styles of the first part of a line."""
    numbers, styles = [], []
    for word in part.split():
        if re.fullmatch(r"-?\d+", word):
            numbers.append(int(word))
        elif word in STYLES:
            styles.append(word)
        else:
            raise Wrong(f"`{word}` is no number and no style")
    return numbers, styles


def written(x, y, line, styles, middle):
    """A line of text."""
    names = [it for it in ("code", "big", "old") if it in styles] + ["middle"] * middle
    if len(line) > 2 and line[0] == line[-1] == "*":
        line, names = line[1:-1], [*names, "bold"]
    elif len(line) > 2 and line[0] == line[-1] == "~":
        line, names = line[1:-1], [*names, "old", "cut"]
    names = f' class="{" ".join(dict.fromkeys(names))}"' if names else ""
    return f'<text x="{x:g}" y="{y:g}"{names}>{escape(line)}</text>' if line else ""


def rectangle(x, y, wide, high, styles):
    fill = next((it for it in styles if it in FILLS), "plain")
    dashed = " dashed" if "old" in styles else ""
    return f'<rect x="{x}" y="{y}" width="{wide}" height="{high}" rx="4" class="{fill}{dashed}"/>'


def box(numbers, styles, lines):
    x, y, wide, high = numbers
    first = y + (high - STEP * len(lines)) / 2 + 12
    at = x + 10 if "left" in styles else x + wide / 2
    texts = [written(at, first + STEP * n, it, styles, "left" not in styles) for n, it in enumerate(lines)]
    return [rectangle(x, y, wide, high, styles), *texts]


def row(numbers, styles, cells):
    x, y, wide, high = numbers
    each = wide / len(cells)
    made = [rectangle(x, y, wide, high, styles)]
    for n, it in enumerate(cells):
        if n:
            made.append(f'<path d="M{x + each * n:g} {y}v{high}" class="way"/>')
        made.append(written(x + each * (n + 0.5), y + high / 2 + 4.5, it, styles, True))
    return made


def way(numbers, styles, has_head):
    points = list(zip(numbers[::2], numbers[1::2]))
    if len(numbers) % 2 or len(points) < 2:
        raise Wrong("two points are wanted, or more")
    dashed = " dashed" if "old" in styles else ""
    made = [f'<path d="M{" L".join(f"{x} {y}" for x, y in points)}" class="way{dashed}"/>']
    if has_head:
        (a, b), (x, y) = points[-2:]
        far = ((x - a) ** 2 + (y - b) ** 2) ** 0.5 or 1
        dx, dy = (x - a) / far, (y - b) / far
        left, right = (x - 8 * dx - 4 * dy, y - 8 * dy + 4 * dx), (x - 8 * dx + 4 * dy, y - 8 * dy - 4 * dx)
        made.append(f'<path d="M{x} {y} L{left[0]:.1f} {left[1]:.1f} L{right[0]:.1f} {right[1]:.1f}z" class="head"/>')
    return made


def drawn(line):
    """What a line of a picture's text draws."""
    verb, _, rest = line.partition(" ")
    first, *texts = [it.strip().replace("\0", "|") for it in rest.replace("\\|", "\0").split("|")]
    numbers, styles = words_of(first)
    if verb in ("box", "row") and len(numbers) == 4 and texts:
        return (box if verb == "box" else row)(numbers, styles, texts)
    if verb in ("text", "middle") and len(numbers) == 2 and len(texts) == 1:
        return [written(*numbers, texts[0], styles, verb == "middle")]
    if verb in ("arrow", "line") and not texts:
        return way(numbers, styles, verb == "arrow")
    raise Wrong("it is no line of a picture")


def picture(text):
    """The SVG of a picture's text."""
    lines = [(n, it.strip()) for n, it in enumerate(text.split("\n"), 1)]
    lines = [(n, it) for n, it in lines if it and not it.startswith("#")]
    size = re.fullmatch(r"size (\d+) (\d+)", lines[0][1]) if lines else None
    if not size:
        raise Wrong("line 1: the size is wanted")
    wide, high = size[1], size[2]
    title = next((it[6:] for _, it in lines if it.startswith("title ")), "")
    made = [
        f'<svg xmlns="http://www.w3.org/2000/svg" width="{wide}" height="{high}" viewBox="0 0 {wide} {high}" role="img">',
        f"<title>{escape(title)}</title>",
        f"<style>{STYLE_SHEET}</style>",
        f'<rect width="{wide}" height="{high}" class="page"/>',
    ]
    for n, line in lines[1:]:
        if not line.startswith("title "):
            try:
                made += [it for it in drawn(line) if it]
            except Wrong as error:
                raise Wrong(f"line {n}: {error}") from None
    return "\n".join([*made, "</svg>", ""])


def main(given):
    if given not in ([], ["--check"]):
        print(__doc__, file=sys.stderr)
        return 2
    well = True
    for file in sorted(glob.glob(f"{TOP}/docs/pictures/*.txt")):
        to, name = f"{file[:-4]}.svg", os.path.relpath(file, TOP)
        try:
            with open(file, encoding="utf-8") as it:
                made = picture(it.read())
        except Wrong as error:
            print(f"{name}: {error}")
            well = False
            continue
        old = None
        if os.path.exists(to):
            with open(to, encoding="utf-8") as it:
                old = it.read()
        if old == made:
            continue
        if given:
            print(f"{os.path.relpath(to, TOP)} isn't what {name} gives: python3 scripts/pictures.py makes it")
            well = False
        else:
            with open(to, "w", encoding="utf-8") as it:
                it.write(made)
            print(f"made {os.path.relpath(to, TOP)}")
    return 0 if well else 1


if __name__ == "__main__":
    sys.exit(main(sys.argv[1:]))
