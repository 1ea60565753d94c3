"""Draws what judge_reads.py counted as SVG pictures: reads in all against the best path, by seed; reads until the n-th row;
each query's reads against the planner's; and the dearest query of each seed."""
from __future__ import annotations

import math
import os
from typing import TYPE_CHECKING, Iterable
from xml.sax.saxutils import escape

from judges.guarded_judge import most_reads

if TYPE_CHECKING:
    from judges.judge_reads import Told

    Runs = dict[tuple[int, int], list[Told]]  # by rows and seed
    BySteps = dict[int, Runs]

INK, GREY, LIGHT = "#222222", "#777777", "#dddddd"
COLOURS = {"best": "#222222", "planner": "#e08e0b", "threshold": "#9b59b6", "patient": "#999999", "AllRows": "#1d6fb8", "FirstRows": "#2a7f3f", "Bounded": "#00a3a3"}
WIDTH, HEIGHT = 460, 330
LEFT, RIGHT, TOP, BOTTOM = 56, 14, 34, 46


class Axis:
    """A scale from values to places, linear or by logarithm."""

    def __init__(self, low: float, high: float, start: float, end: float, log: bool):
        self.by = math.log if log else float
        self.low, self.high, self.start, self.end, self.log = low, high, start, end, log

    def __call__(self, value: float) -> float:
        held = min(max(value, self.low), self.high)
        part = (self.by(held) - self.by(self.low)) / (self.by(self.high) - self.by(self.low))
        return self.start + (self.end - self.start) * part


class Panel:
    """One coordinate system, the `place`-th from the left."""

    def __init__(self, place: int, title: str, x: tuple[float, float, bool], y: tuple[float, float, bool]):
        left = place * WIDTH
        self.left, self.right, self.top, self.bottom = left + LEFT, left + WIDTH - RIGHT, TOP, HEIGHT - BOTTOM
        self.x = Axis(x[0], x[1], self.left, self.right, x[2])
        self.y = Axis(y[0], y[1], self.bottom, self.top, y[2])
        self.parts: list[str] = []
        self.text((self.left + self.right) / 2, 20, title, "middle", bold=True)

    def text(self, x: float, y: float, words: str, anchor: str = "start", colour: str = INK, bold: bool = False, turn: bool = False) -> None:
        weight = ' font-weight="bold"' if bold else ""
        turned = f' transform="rotate(-90 {x:.1f} {y:.1f})"' if turn else ""
        self.parts.append(f'<text x="{x:.1f}" y="{y:.1f}" fill="{colour}" text-anchor="{anchor}"{weight}{turned}>{escape(words)}</text>')

    def line(self, points: Iterable[tuple[float, float]], colour: str, width: float = 1.0, dash: str = "") -> None:
        """A line through points of the axes."""
        path = " ".join(f"{self.x(x):.1f},{self.y(y):.1f}" for x, y in points)
        dashes = f' stroke-dasharray="{dash}"' if dash else ""
        self.parts.append(f'<polyline points="{path}" fill="none" stroke="{colour}" stroke-width="{width}"{dashes}/>')

    def dots(self, points: Iterable[tuple[float, float]], colour: str, size: float = 8, opacity: float = 1.0) -> None:
        path = "".join(f"M{self.x(x):.0f} {self.y(y):.0f}h0" for x, y in points)
        self.parts.append(f'<path d="{path}" stroke="{colour}" stroke-width="{size}" stroke-opacity="{opacity}" stroke-linecap="round"/>')

    def axes(self, x_ticks: dict[float, str], y_ticks: dict[float, str], x_name: str, y_name: str) -> None:
        for value, words in x_ticks.items():
            self.line([(value, self.y.low), (value, self.y.high)], LIGHT)
            self.text(self.x(value), self.bottom + 15, words, "middle", GREY)
        for value, words in y_ticks.items():
            self.line([(self.x.low, value), (self.x.high, value)], LIGHT)
            self.text(self.left - 5, self.y(value) + 4, words, "end", GREY)
        self.line([(self.x.low, self.y.high), (self.x.low, self.y.low), (self.x.high, self.y.low)], GREY)
        self.text((self.left + self.right) / 2, self.bottom + 33, x_name, "middle")
        self.text(self.left - 40, (self.top + self.bottom) / 2, y_name, "middle", turn=True)

    def legend(self, names: Iterable[str], x: float, y: float) -> None:
        for place, name in enumerate(names):
            at = y + 16 * place
            self.parts.append(f'<circle cx="{x:.1f}" cy="{at - 4:.1f}" r="4" fill="{COLOURS[name]}"/>')
            self.text(x + 9, at, name)


def svg(panels: list[Panel]) -> str:
    width = WIDTH * len(panels)
    parts = "\n".join(part for panel in panels for part in panel.parts)
    return (f'<svg xmlns="http://www.w3.org/2000/svg" width="{width}" height="{HEIGHT}" viewBox="0 0 {width} {HEIGHT}" '
            f'font-family="sans-serif" font-size="12">\n<rect width="{width}" height="{HEIGHT}" fill="#ffffff"/>\n{parts}\n</svg>\n')


def sizes(runs: Runs) -> list[int]:
    return sorted({rows for rows, _ in runs})


def of_size(runs: Runs, rows: int) -> list[Told]:
    return [query for (size, _), told in runs.items() if size == rows for query in told]


def ticks(*values: float) -> dict[float, str]:
    return {value: f"{value:,}" for value in values}


def by_places(seeds: int) -> tuple[float, float, bool]:
    """An axis of seeds, with room for words behind them."""
    return 0.5, 1.35 * seeds + 0.5, False


def seeded(runs: BySteps) -> Iterable[tuple[int, str, Runs]]:
    """For each size and each number of steps beside a foreground step: its place, words for it, and what was counted by seed."""
    every = [(rows, steps) for rows in sizes(next(iter(runs.values()))) for steps in runs]
    for place, (rows, steps) in enumerate(every):
        yield place, f"{rows:,} rows, --steps {steps}", {key: told for key, told in runs[steps].items() if key[0] == rows}


def by_seed(runs: BySteps) -> str:
    """Reads in all against the best path, of each seed."""
    panels = []
    for place, words, some in seeded(runs):
        panel = Panel(place, words, by_places(len(some)), (0.95, 1.75, False))
        panel.axes({at: str(seed) for at, (_, seed) in enumerate(some, 1)}, ticks(1.0, 1.25, 1.5, 1.75), "seed", "reads in all / best path")
        names = ["threshold", "planner", "FirstRows", "Bounded", "AllRows"]
        for name in names:
            points = [(at, sum(q.reads[name].whole for q in told) / sum(q.reads["best"].whole for q in told)) for at, told in enumerate(some.values(), 1)]
            panel.line(points, COLOURS[name], dash="3,3")
            panel.dots(points, COLOURS[name])
        panel.legend(names, panel.right - 86, panel.top + 12)
        panels.append(panel)
    return svg(panels)


def dearest(runs: BySteps) -> str:
    """The reads of the dearest query of each seed, against its table's pages, and what a guarded judge's may read at most."""
    panels = []
    for place, words, some in seeded(runs):
        panel = Panel(place, f"dearest query, {words}", by_places(len(some)), (0.8, 40, True))
        panel.axes({at: str(seed) for at, (_, seed) in enumerate(some, 1)}, ticks(1, 2, 4, 8, 16, 32), "seed", "reads / pages of the table")
        pages = next(iter(some.values()))[0].pages
        for strategy, most in ((name, most_reads(name, pages, 3) / pages) for name in ("background-only", "fast-first")):
            panel.line([(panel.x.low, most), (panel.x.high, most)], COLOURS["Bounded"], 1.5, "6,3")
            panel.text(panel.right, panel.y(most) - 4, strategy, "end", COLOURS["Bounded"])
        names = ["patient", "planner", "threshold", "FirstRows", "AllRows", "Bounded"]
        for name in names:
            panel.dots([(at, max(query.tables(name) for query in told)) for at, told in enumerate(some.values(), 1)], COLOURS[name])
        panel.legend(names, panel.right - 86, panel.top + 12)
        panels.append(panel)
    return svg(panels)


def by_row(runs: Runs) -> str:
    """Mean reads until the n-th row, over the queries for the first rows that have a row. A query with fewer rows counts with
    the reads until its end."""
    panels = []
    for place, rows in enumerate(sizes(runs)):
        some = [query for query in of_size(runs, rows) if query.soon and query.rows]
        most = rows // 4
        numbers = sorted({round(most ** (step / 40)) for step in range(41)})
        means = {name: [(n, sum(q.reads[name].until(n) for q in some) / len(some)) for n in numbers]
                 for name in ("planner", "threshold", "best", "FirstRows", "AllRows")}
        high = 1.15 * max(reads for points in means.values() for _, reads in points)
        low = 0.8 * min(reads for points in means.values() for _, reads in points)
        panel = Panel(place, f"{rows:,} rows: {len(some)} queries for the first rows", (1, most, True), (low, high, True))
        y = [v for v in (1, 2, 5, 10, 20, 50, 100, 200, 500, 1000, 2000) if low <= v <= high]
        panel.axes(ticks(*[v for v in (1, 10, 100, 1000) if v <= most]), ticks(*y), "n-th row", "mean reads until then")
        for name, points in means.items():
            panel.line(points, COLOURS[name], 2, "4,3" if name == "best" else "")
        panel.legend(means, panel.right - 86, panel.bottom - 76)
        panels.append(panel)
    return svg(panels)


def by_query(runs: Runs) -> str:
    """Of each query, the reads under AllRows against those of the planner's path."""
    panels = []
    for place, rows in enumerate(sizes(runs)):
        told = of_size(runs, rows)
        high = 1.2 * max(query.reads["best"].whole for query in told)
        panel = Panel(place, f"{rows:,} rows: {len(told)} queries", (1, high, True), (1 / 16, 16, True))
        y = {1 / 16: "1/16", 1 / 4: "1/4", 1: "1", 4: "4", 16: "16"}
        panel.axes(ticks(*[v for v in (1, 10, 100, 1000) if v <= high]), y, "reads of the best path", "reads, AllRows / planner")
        panel.line([(1, 1), (high, 1)], INK)
        points = [(q.reads["best"].whole, q.reads["AllRows"].whole / q.reads["planner"].whole) for q in told]
        panel.dots([p for p in points if p[1] <= 1], COLOURS["AllRows"], 4, 0.6)
        panel.dots([p for p in points if p[1] > 1], COLOURS["planner"], 4, 0.8)
        gained = sum(max(0, q.reads["planner"].whole - q.reads["AllRows"].whole) for q in told)
        lost = sum(max(0, q.reads["AllRows"].whole - q.reads["planner"].whole) for q in told)
        panel.text(panel.left + 8, panel.top + 14, f"more reads than the planner: {lost:,} in sum", colour=COLOURS["planner"])
        panel.text(panel.left + 8, panel.bottom - 10, f"fewer reads: {gained:,} in sum", colour=COLOURS["AllRows"])
        panels.append(panel)
    return svg(panels)


def draw(folder: str, runs: BySteps) -> None:
    """Draws all of them; those by row and by query are of the first number of steps."""
    os.makedirs(folder, exist_ok=True)
    first = next(iter(runs.values()))
    pictures = {"by-seed": by_seed(runs), "by-row": by_row(first), "by-query": by_query(first), "dearest": dearest(runs)}
    for name, picture in pictures.items():
        with open(os.path.join(folder, name + ".svg"), "w", encoding="utf-8") as file:
            file.write(picture)
