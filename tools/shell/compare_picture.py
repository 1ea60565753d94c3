"""Draws what compare.py counted as one SVG picture: of each cursor a bar for each judge and path, as long as what it reads until
the end, with a dot where the first row is there, a ring at the tenth and a stroke at the last one."""
from __future__ import annotations

from typing import TYPE_CHECKING

from judges.judge_pictures import COLOURS
from shell.timeline_picture import GREY, INK, Canvas, shortened

if TYPE_CHECKING:
    from shell.compare import Compared

LIGHT = "#dddddd"
WIDTH, LEFT, RIGHT, BAR, GAP = 860, 150, 210, 20, 22
BARS = {**COLOURS, "contrary": "#c1121f", "planner's guess": COLOURS["planner"], "best in hindsight": COLOURS["best"]}


def ticks(most: int) -> list[int]:
    """Some five round numbers from 0 to the most."""
    step = next(size * 10**power for power in range(20) for size in (1, 2, 5) if size * 10**power * 5 >= most)
    return list(range(0, most + 1, step))


def drawn(canvas: Canvas, of: Compared, top: float) -> float:
    """Draws a cursor, and gives where the next one may begin."""
    most = max(1, max(contender.reads.whole for contender in of.contenders))
    x = lambda reads: LEFT + (WIDTH - LEFT - RIGHT) * reads / most
    rows = "no row" if of.rows == 0 else "1 row" if of.rows == 1 else f"{of.rows:,} rows"
    canvas.text(20, top + 14, f"line {of.call.line}, session {of.call.session}, cursor {of.cursor}: {of.strategy}; {rows}", 13, bold=True)
    canvas.text(20, top + 31, shortened(of.call.text, 120), 11, GREY)
    begin = top + 40
    bottom = begin + BAR * len(of.contenders)
    for value in ticks(most):
        canvas.line([(x(value), begin), (x(value), bottom + 4)], LIGHT, 1)
        canvas.text(x(value), bottom + 16, f"{value:,}", 10, GREY, "middle")
    for place, contender in enumerate(of.contenders):
        y = begin + BAR * place
        first, tenth, last, whole = of.columns(contender)
        canvas.text(LEFT - 8, y + 14, contender.name, 12, INK, "end")
        canvas.box(LEFT, y + 4, x(whole) - LEFT, BAR - 8, BARS[contender.name], 0.45, contender.told)
        if last is not None:
            canvas.line([(x(last), y + 2), (x(last), y + BAR - 2)], INK, 2)
        if tenth is not None:
            canvas.ring(x(tenth), y + BAR / 2, INK)
        if first is not None:
            canvas.dot(x(first), y + BAR / 2, INK)
        canvas.text(x(whole) + 8, y + 14, f"{whole:,}", 11)
        canvas.text(x(whole) + 16 + 7 * len(f"{whole:,}"), y + 14, shortened(contender.words, 30), 10, GREY)
    return bottom + 16 + GAP


def picture(cursors: list[Compared], steps: int, race: bool) -> str:
    canvas = Canvas()
    words = f"Reads until the end: pages, leaves and records, by the slow model, --steps {steps}{' --race' if race else ''}"
    canvas.text(20, 24, words, 12)
    canvas.dot(24, 41, INK)
    canvas.text(32, 45, "first row", 11)
    canvas.ring(104, 41, INK)
    canvas.text(112, 45, "tenth row", 11)
    canvas.line([(188, 34), (188, 48)], INK, 2)
    canvas.text(196, 45, "last row", 11)
    y = 62.0
    for of in cursors:
        y = drawn(canvas, of, y)
    return canvas.svg(WIDTH, y)
