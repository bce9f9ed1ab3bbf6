"""Writes what was measured: a table in Markdown, plots in SVG, and the raw figures."""
import json
import math
import os
import statistics

import workloads

COLOURS = {"Weltiyo": "#0b6e4f", "Boost": "#c8553d", "SQLite": "#2d5d8a", "Redis": "#8d6a9f"}
OTHER_COLOUR = "#666666"
NO_COMMAND = "it has no such command"


def write(folder, about, tables):
    os.makedirs(folder, exist_ok=True)
    parts = {
        "results.json": json.dumps({"about": about, "tables": tables}, indent=1) + "\n",
        "results.md": markdown(about, tables),
        "speed.svg": speed_plots(about, tables),
        "memory.svg": memory_plot(about, tables),
    }
    for name, text in parts.items():
        with open(f"{folder}/{name}", "w", encoding="utf-8") as file:
            file.write(text)


# Figures


def seconds(about, one):
    return one["seconds"] if about["clock"] == "wall" else max(one["on_processor"], 1e-9)


def speeds(about, cell):
    """Lines a second, of each round."""
    return [one["lines"] / seconds(about, one) for one in cell["rounds"]]


def ratios(about, ours, other):
    """Of each round, since a system that is left out is so in all of them."""
    return [a / b for a, b in zip(speeds(about, ours), speeds(about, other))]


def short(value):
    """Three digits, and k or M."""
    for size, name in ((1e6, "M"), (1e3, "k")):
        if value >= size:
            return f"{value / size:.3g}{name}"
    return f"{value:.3g}"


def quotient(value):
    return f"{value:.2f}" if value >= 0.1 else f"{value:.1g}"


def with_spread(values, shown=short):
    """The median, and in brackets the least and the greatest."""
    if not values:
        return "-"
    return f"{shown(statistics.median(values))} ({shown(min(values))} to {shown(max(values))})"


# Markdown


def markdown(about, tables):
    names = list(about["systems"])
    lines = [
        "# What it was compared with, and how fast each was",
        "",
        f"Measured on {about['date']} by `{about['command']}`, on {about['machine']}; the load of the machine was {about['load'][0]:.1f} at the beginning and"
        f" {', '.join(f'{it:.1f}' for it in about['load'][1:])} behind each table (it is 1 to 2 where nothing else runs). The sources were at `{about['commit']}`.",
        "",
    ]
    if about["quick"]:
        lines += ["**A quick run: the workloads are smaller than their titles say, and the figures say nothing.**", ""]
    if max(about["load"]) > 2.5:
        lines += ["**Other work ran on the machine: these figures are not final.** Ratios of one round say more than the speeds.", ""]
    if "without proofs" in next(iter(about["systems"].values())):
        lines += ["**The program was compiled without proofs and checks each access as it runs: its speed and memory say nothing.**", ""]
    lines += ["| System | What was measured |", "|---|---|"]
    lines += [f"| {name} | {what} |" for name, what in about["systems"].items()]
    lines += [
        "",
        f"The program's file begins with the SHA-256 digits `{about['program']}`. " + clock_text(about),
        f"Each figure is the median of {about['rounds']} rounds, with the least and the greatest in brackets; a ratio is taken within a round, in which the"
        " systems are asked in turn; what takes less than 0.4 s is asked again until it took so long (the table is filled 20 times at most). More than 1 means that Weltiyo is faster. All replies were compared and are the same bytes; those of Redis are"
        " put together from its own first.",
        "",
        "To repeat: that command (`make bench` alone takes the wall clock and a limit of 60 s; the packages: `apt-get install g++ libboost-dev libsimdjson-dev libsqlite3-dev redis-server`).",
        "",
        "![lines a second](speed.svg)",
        "",
        "![bytes a record](memory.svg)",
        "",
    ]
    for table in tables:
        lines += speed_table(about, table, names)
    lines += growth_table(about, tables, names) + memory_table(tables, names) + left_out(about, tables, names) + workload_list()
    return "\n".join(lines) + "\n"


def clock_text(about):
    if about["clock"] == "wall":
        return "Time is what passed from the first byte written to the last reply."
    return "Time is that of the system's own processor, so other work on the machine disturbs less."


def speed_table(about, table, names):
    others = names[1:]
    lines = [f"## {table['rows']:,} records, lines a second", ""]
    lines += ["| Workload | " + " | ".join(names + [f"{names[0]} / {it}" for it in others]) + " |", "|---" * (len(names) + len(others) + 1) + "|"]
    for name, title in workloads.TITLES.items():
        cells = table["cells"][name]
        ours = cells[names[0]]
        found = [with_spread(speeds(about, cells[it])) for it in names]
        found += [with_spread(ratios(about, ours, cells[it]), quotient) for it in others]
        lines.append(f"| {title} | " + " | ".join(found) + " |")
    return [*lines, ""]


def growth_table(about, tables, names):
    """How many times longer a line takes over the most records than over the fewest."""
    few, many = tables[0], tables[-1]
    if few["rows"] == many["rows"]:
        return []
    lines = ["## Growth", "", f"How many times longer a line takes over {many['rows']:,} records than over {few['rows']:,}, by the medians.", ""]
    lines += ["| Workload | " + " | ".join(names) + " |", "|---" * (len(names) + 1) + "|"]
    for key, title in workloads.TITLES.items():
        both = [[speeds(about, table["cells"][key][name]) for table in (few, many)] for name in names]
        found = [f"{statistics.median(fast) / statistics.median(slow):.1f}" if fast and slow else "-" for fast, slow in both]
        lines.append(f"| {title} | " + " | ".join(found) + " |")
    return [*lines, ""]


def memory_table(tables, names):
    lines = ["## Bytes a record", "", "What the resident memory grew by while the table was filled, for each record.", ""]
    lines += ["| Records | " + " | ".join(names) + " |", "|---" * (len(names) + 1) + "|"]
    for table in tables:
        found = [with_spread(table["bytes"][it], lambda value: f"{value:.0f}") for it in names]
        lines.append(f"| {table['rows']:,} | " + " | ".join(found) + " |")
    return [*lines, ""]


def left_out(about, tables, names):
    lines = [f"- {it}" for it in about["left_out"]]
    for name in names:
        missing = [title for key, title in workloads.TITLES.items() if tables and tables[0]["cells"][key][name]["left_out"] == NO_COMMAND]
        if missing:
            lines.append(f"- {name}; {'; '.join(missing)}: {NO_COMMAND}")
        for table in tables:
            for key, title in workloads.TITLES.items():
                why = table["cells"][key][name]["left_out"]
                if why and why != NO_COMMAND:
                    rest = "; the other workloads of this size too" if key == "insert" else ""
                    lines.append(f"- {name}, {table['rows']:,} records, {title}: {why}{rest}")
    limits = f"A cell is left out where one unit takes more than {about['limit']:.0f} s, or the process wants more than {about['memory']:.0f} GB."
    return ["## Left out", "", limits, "", *(lines or ["- nothing"]), ""]


def workload_list():
    lines = ["## The workloads", "", "| Workload | What is asked |", "|---|---|"]
    return lines + [f"| {title} | {workloads.EXPLAINED[name]} |" for name, title in workloads.TITLES.items()]


# Plots


class Axis:
    """A logarithmic axis from a low to a high value, over pixels."""

    def __init__(self, values, first, last):
        self.low, self.high = math.floor(math.log10(min(values)) + 1e-9), math.ceil(math.log10(max(values)) - 1e-9)
        self.high = max(self.high, self.low + 1)
        self.first, self.last = first, last

    def at(self, value):
        return self.first + (math.log10(value) - self.low) / (self.high - self.low) * (self.last - self.first)

    def ticks(self):
        return [10.0 ** it for it in range(self.low, self.high + 1)]


def panel(left, top, width, height, title, series, unit):
    """One plot: for each system its points (records, median, least, greatest)."""
    points = [it for some in series.values() for it in some]
    out = [f'<text x="{left}" y="{top - 12}" class="title">{title}</text>']
    out.append(f'<rect x="{left}" y="{top}" width="{width}" height="{height}" class="frame"/>')
    if not points:
        return [*out, f'<text x="{left + width / 2}" y="{top + height / 2}" class="middle">left out</text>']
    across = Axis([it[0] for it in points], left + 14, left + width - 14)
    upward = Axis([value for it in points for value in it[1:]], top + height, top)
    for value in across.ticks():
        x = across.at(value)
        out.append(f'<line x1="{x:.1f}" y1="{top}" x2="{x:.1f}" y2="{top + height}" class="grid"/>')
        out.append(f'<text x="{x:.1f}" y="{top + height + 15}" class="middle">{power(value)}</text>')
    for value in upward.ticks():
        y = upward.at(value)
        out.append(f'<line x1="{left}" y1="{y:.1f}" x2="{left + width}" y2="{y:.1f}" class="grid"/>')
        out.append(f'<text x="{left - 6}" y="{y + 4:.1f}" class="end">{power(value)}</text>')
    out.append(f'<text x="{left + width / 2}" y="{top + height + 30}" class="middle">records</text>')
    out.append(f'<text x="{left - 38}" y="{top + height / 2}" class="middle" transform="rotate(-90 {left - 38} {top + height / 2})">{unit}</text>')
    for name, some in series.items():
        out += curve(name, some, across, upward)
    return out


def curve(name, points, across, upward):
    colour = COLOURS.get(name, OTHER_COLOUR)
    places = [(across.at(it[0]), upward.at(it[1])) for it in points]
    joined = " ".join(f"{x:.1f},{y:.1f}" for x, y in places)
    out = [f'<polyline points="{joined}" fill="none" stroke="{colour}" stroke-width="2"/>'] if len(points) > 1 else []
    for (x, y), (_, _, least, most) in zip(places, points):
        out.append(f'<line x1="{x:.1f}" y1="{upward.at(least):.1f}" x2="{x:.1f}" y2="{upward.at(most):.1f}" stroke="{colour}"/>')
        out.append(f'<circle cx="{x:.1f}" cy="{y:.1f}" r="3.5" fill="{colour}"/>')
    return out


def power(value):
    return f'10<tspan dy="-5" font-size="8">{round(math.log10(value))}</tspan>'


STYLE = (
    "text{font:11px sans-serif;fill:#333}.title{font-weight:bold;font-size:12px}.middle{text-anchor:middle}.end{text-anchor:end}"
    ".grid{stroke:#ddd}.frame{fill:white;stroke:#999}"
)


def image(width, height, parts):
    head = f'<svg xmlns="http://www.w3.org/2000/svg" width="{width}" height="{height}" viewBox="0 0 {width} {height}">'
    return "\n".join([head, f"<style>{STYLE}</style>", f'<rect width="{width}" height="{height}" fill="white"/>', *parts, "</svg>"]) + "\n"


def legend(names, left, top):
    out = []
    for number, name in enumerate(names):
        x = left + 110 * number
        out.append(f'<line x1="{x}" y1="{top}" x2="{x + 24}" y2="{top}" stroke="{COLOURS.get(name, OTHER_COLOUR)}" stroke-width="3"/>')
        out.append(f'<text x="{x + 30}" y="{top + 4}">{name}</text>')
    return out


def point(rows, values):
    return rows, statistics.median(values), min(values), max(values)


def speed_plots(about, tables):
    """A plot for each workload, of lines a second over the number of records, both logarithmic."""
    width, height, parts = 210, 150, []
    names = list(about["systems"])
    for number, (key, title) in enumerate(workloads.TITLES.items()):
        series = {}
        for name in names:
            found = [(table["rows"], speeds(about, table["cells"][key][name])) for table in tables]
            series[name] = [point(rows, values) for rows, values in found if values]
        left, top = 60 + number % 3 * (width + 70), 70 + number // 3 * (height + 80)
        parts += panel(left, top, width, height, title, series, "lines a second")
    return image(3 * (width + 70) + 20, math.ceil(len(workloads.TITLES) / 3) * (height + 80) + 50, legend(names, 60, 24) + parts)


def memory_plot(about, tables):
    names = list(about["systems"])
    series = {}
    for name in names:
        found = [(table["rows"], [it for it in table["bytes"][name] if it > 0]) for table in tables]
        series[name] = [point(rows, values) for rows, values in found if values]
    return image(520, 330, legend(names, 60, 24) + panel(60, 70, 430, 200, "resident memory", series, "bytes a record"))
