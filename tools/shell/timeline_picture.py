"""Draws courses of a cursor (timeline.py) as one SVG picture: calls from left to right, and of each judge a panel with what
was given, the control, each scan with its leaves, the pages and records read, and the reads in sum; below, what the judge
was told at each ruling."""
from __future__ import annotations

from typing import TYPE_CHECKING
from xml.sax.saxutils import escape

if TYPE_CHECKING:
    from shell.timeline import Course

LEFT, RIGHT, LANE, GAP = 170, 30, 26, 10
WIDTH = 1000
COLOURS = {
    "building": "#8ecae6",
    "background": "#b8b8d1",
    "foreground": "#95d5b2",
    "final-list": "#ffd166",
    "final-table": "#f4a261",
    "done": "#dddddd",
}
INK, GREY, RED, GREEN, BLUE = "#222222", "#888888", "#c1121f", "#2a7f3f", "#1d4e89"


class Canvas:
    def __init__(self):
        self.parts: list[str] = []

    def text(self, x: float, y: float, words: str, size: int = 12, colour: str = INK, anchor: str = "start", bold: bool = False) -> None:
        weight = ' font-weight="bold"' if bold else ""
        self.parts.append(f'<text x="{x:.1f}" y="{y:.1f}" font-size="{size}" fill="{colour}" text-anchor="{anchor}"{weight}>{escape(words)}</text>')

    def box(self, x: float, y: float, width: float, height: float, colour: str, opacity: float = 1.0, words: str = "") -> None:
        title = f"<title>{escape(words)}</title>" if words else ""
        self.parts.append(f'<rect x="{x:.1f}" y="{y:.1f}" width="{max(width, 0.5):.1f}" height="{height:.1f}" fill="{colour}" fill-opacity="{opacity}">{title}</rect>')

    def line(self, points: list[tuple[float, float]], colour: str, width: float = 1.5, dash: str = "") -> None:
        path = " ".join(f"{x:.1f},{y:.1f}" for x, y in points)
        dashes = f' stroke-dasharray="{dash}"' if dash else ""
        self.parts.append(f'<polyline points="{path}" fill="none" stroke="{colour}" stroke-width="{width}"{dashes}/>')

    def dot(self, x: float, y: float, colour: str, words: str = "") -> None:
        title = f"<title>{escape(words)}</title>" if words else ""
        self.parts.append(f'<circle cx="{x:.1f}" cy="{y:.1f}" r="3" fill="{colour}">{title}</circle>')

    def ring(self, x: float, y: float, colour: str) -> None:
        self.parts.append(f'<circle cx="{x:.1f}" cy="{y:.1f}" r="4" fill="white" stroke="{colour}" stroke-width="1.5"/>')

    def svg(self, width: int, height: float) -> str:
        """The whole picture, of this size."""
        head = f'<svg xmlns="http://www.w3.org/2000/svg" width="{width}" height="{height:.0f}" viewBox="0 0 {width} {height:.0f}" font-family="sans-serif">'
        return "\n".join([head, f'<rect width="{width}" height="{height:.0f}" fill="white"/>', *self.parts, "</svg>"]) + "\n"


class Panel:
    """The course of one judge. `calls` and `most` are the greatest counts of calls and of reads of all courses, so that
    panels have one scale."""

    def __init__(self, canvas: Canvas, course: Course, top: float, calls: int, most: int):
        self.canvas, self.course, self.y = canvas, course, top
        self.calls, self.most = calls, most

    def x(self, call: float) -> float:
        return LEFT + (WIDTH - LEFT - RIGHT) * call / self.calls

    def draw(self) -> float:
        """Draws the panel and gives where the next one may begin."""
        course, reads = self.course, sum(step.cost for step in self.course.steps)
        self.canvas.text(LEFT, self.y + 14, f"judge {course.judge}: {reads} reads", 14, bold=True)
        self.y += 20
        self.canvas.text(LEFT, self.y + 11, shortened(course.trace.removeprefix("trace "), 135), 10, GREY)
        self.y += 20
        self.controls()
        self.marks("rows given", [[0] * step.reply.startswith("row") for step in course.steps], INK)
        for name in self.scans():
            self.scan(name)
        for label, kind, colour in (("pages", "page", RED), ("records", "record", BLUE)):
            self.marks(label, [step.reads(kind) for step in course.steps], colour)
        self.reads_in_sum()
        self.rulings()
        return self.y + GAP

    def lane(self, label: str, height: float = LANE) -> float:
        """A lane with its label; gives its top."""
        top = self.y
        self.canvas.text(LEFT - 8, top + height / 2 + 4, shortened(label, 24), 12, INK, "end")
        self.canvas.line([(LEFT, top + height), (WIDTH - RIGHT, top + height)], "#eeeeee", 1)
        self.y += height
        return top

    def controls(self) -> None:
        top = self.lane("control")
        changes = [(at, what) for at, step in enumerate(self.course.steps) for what in step.reads("event", 0) if what in COLOURS]
        ends = [at for at, _ in changes[1:]] + [len(self.course.steps)]
        for (at, control), end in zip(changes, ends):
            self.canvas.box(self.x(at), top + 3, self.x(max(end, at + 0.3)) - self.x(at), LANE - 6, COLOURS[control], words=control)
            if self.x(end) - self.x(at) > 7 * len(control):
                self.canvas.text(self.x(at) + 4, top + 17, control, 11)

    def marks(self, label: str, reads: list[list], colour: str) -> None:
        """A tick for each read, those of a call beside one another."""
        if not any(reads):
            return
        top = self.lane(label)
        wide = self.x(1) - self.x(0)
        for at, of_call in enumerate(reads):
            for n in range(len(of_call)):
                self.canvas.box(self.x(at + (n + 0.5) / (len(of_call) + 0.5)) - 0.5, top + 5, min(2.0, wide / 2), LANE - 10, colour)

    def scans(self) -> list[str]:
        leaves = [name for step in self.course.steps for name, _ in step.reads("leaf")]
        begun = [what.split()[1] for step in self.course.steps for what in step.reads("event", 0) if what.startswith("scan ")]
        return list(dict.fromkeys(begun + leaves))

    def scan(self, name: str) -> None:
        """The lane of an index: a bar while it is scanned in the background, its end, and a tick for each leaf."""
        self.marks(f"leaves of {name}", [[at for n, at in step.reads("leaf") if n == name] for step in self.course.steps] or [[]], GREEN)
        top = self.y - LANE
        begun = None
        for at, step in enumerate(self.course.steps):
            for what in step.reads("event", 0):
                word, _, rest = what.partition(" ")
                if word == "scan" and rest == name:
                    begun = at
                elif word in ("list", "drop") and rest.split()[0] == name and begun is not None:
                    colour = GREEN if word == "list" else RED
                    self.canvas.box(self.x(begun), top + 2, self.x(at + 1) - self.x(begun), LANE - 4, colour, 0.18, what)
                    told = f"list of {rest.split()[1]}" if word == "list" else "dropped"
                    self.canvas.text(self.x(at + 1) + 4, top + 17, told, 11, colour)
                    begun = None
        if begun is not None:
            self.canvas.box(self.x(begun), top + 2, self.x(len(self.course.steps)) - self.x(begun), LANE - 4, GREEN, 0.18, f"scan {name}")

    def reads_in_sum(self) -> None:
        height = 80
        top = self.lane("reads in sum", height)
        total, points = 0, [(self.x(0), top + height)]
        for at, step in enumerate(self.course.steps):
            total += step.cost
            points.append((self.x(at + 1), top + height - (height - 8) * total / max(self.most, 1)))
        self.canvas.line(points, BLUE, 2)
        self.canvas.text(points[-1][0], points[-1][1] - 4, str(total), 11, BLUE, "end")

    def rulings(self) -> None:
        """What the judge was told: projected (line) and guaranteed (dashes), a dot for each ruling, red where it drops."""
        told = [(at + (n + 0.5) / len(step.reads("ruled", 0)), ruling) for at, step in enumerate(self.course.steps) for n, ruling in enumerate(step.reads("ruled", 0))]
        if not told:
            return
        height = 80
        top = self.lane("projected", height)
        self.canvas.text(LEFT - 8, top + height / 2 + 18, "(- - guaranteed)", 10, GREY, "end")
        most = max(max(r.projected, r.guaranteed) for _, r in told)
        y = lambda cost: top + height - 4 - (height - 16) * cost / max(most, 1)
        guaranteed = [(self.x(at), y(r.guaranteed)) for at, r in told]
        ends = [(guaranteed[0][0] - 10, guaranteed[0][1])], [(guaranteed[-1][0] + 10, guaranteed[-1][1])]
        self.canvas.line([*ends[0], *guaranteed, *ends[1]], GREY, 1.5, "4 3")
        self.canvas.line([(self.x(at), y(r.projected)) for at, r in told], INK, 1.5)
        labelled = 0.0
        for (at, r), (later, _) in zip(told, [*told[1:], (len(self.course.steps), None)]):
            words = f"{r.scan}: {r.scanned} scanned, {r.kept} kept, projected {r.projected}, guaranteed {r.guaranteed}: {r.verdict}"
            self.canvas.dot(self.x(at), y(r.projected), GREEN if r.verdict == "go on" else RED, words)
            if self.x(at) - labelled > 18:
                labelled = self.x(at)
                # on the other side of the dot where the next one is near
                near = self.x(later) - labelled <= 18
                self.canvas.text(labelled + (-6 if near else 5), y(r.projected) + (3 if near else -5), f"{r.projected}", 10, INK, "end" if near else "start")
        last = told[-1]
        self.canvas.text(self.x(last[0]) + 14, y(last[1].guaranteed) + 4, f"guaranteed {last[1].guaranteed}", 10, GREY)


def shortened(words: str, most: int) -> str:
    return words if len(words) <= most else words[: most - 2] + ".."


def drawn(canvas: Canvas, courses: list[Course], top: float) -> float:
    """Draws the courses of a cursor, one below another on one scale, and gives where the next cursor may begin."""
    opened = courses[0].opened
    canvas.text(20, top + 24, f"session {opened.session}, line {opened.line}", 12, GREY)
    canvas.text(20, top + 42, shortened(opened.text, 140), 12)
    calls = max(len(course.steps) for course in courses)
    most = max(sum(step.cost for step in course.steps) for course in courses)
    y = top + 56.0
    for course in courses:
        y = Panel(canvas, course, y, calls, most).draw()
    canvas.text(LEFT, y + 8, f"calls: OPEN and the {calls - 1} behind it, from left to right", 11, GREY)
    return y + 20


def picture(cursors: list[list[Course]]) -> str:
    """One SVG of cursors, one below another, each with its courses."""
    canvas, y = Canvas(), 0.0
    for courses in cursors:
        y = drawn(canvas, courses, y)
    return canvas.svg(WIDTH, y)
