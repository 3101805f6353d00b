"""The rows of the table: what is measured, beside what, whose work it is, and its bar."""
import os
import time
from dataclasses import dataclass
from typing import Callable, Optional

OURS, KITS = "ours", "the kit's"
# What is so little that it was not measured, where it is the difference of two times.
NOTHING = 1e-9
TITLES = ("work / the other", "whose", "pciids", "other", "ratio", "bar", "aim", "met")


class Skip(Exception):
    """Ends a row. It says what is missing."""


class Fault(Exception):
    """Ends a row. It says what went wrong."""


@dataclass
class Figures:
    """What the program takes and what the other takes: seconds, MB or instructions. Without
    another the bar is one of the figure itself."""

    ours: float
    other: Optional[float]
    unit: str = "s"

    def cells(self):
        return [in_unit(it, self.unit) if it is not None else "" for it in (self.ours, self.other)]

    def judged(self):
        """What the bar is compared with."""
        return self.ours if self.other is None else self.ours / max(self.other, NOTHING)

    def ratio(self):
        if self.other is None:
            return ""
        ratio = self.judged()
        return f"{ratio:.0f}" if ratio >= 20 else f"{ratio:.2f}"


def in_unit(figure, unit):
    """A figure as a cell shows it."""
    if unit == "instructions":
        return f"{figure:,.0f}"
    if unit == "s" and figure < 0.001:
        figure, unit = figure * 1_000_000, "µs"
    elif unit == "s" and figure < 1:
        figure, unit = figure * 1_000, "ms"
    return f"{figure:.1f} {unit}" if figure < 100 else f"{figure:.0f} {unit}"


@dataclass
class Row:
    """A row. `measure` takes the room, which makes what the row needs."""

    name: str
    work: str
    whose: str
    measure: Callable
    bar: Optional[float] = None
    aim: Optional[float] = None
    unit: str = ""  # of a bar that is no ratio

    def fixed(self):
        """What no run changes."""
        limits = [f"{it:g} {self.unit}".strip() if it else "" for it in (self.bar, self.aim)]
        return [self.work, self.whose, *limits]

    def without_figures(self, why):
        work, whose, bar, aim = self.fixed()
        return [work, whose, "", "", why, bar, aim, ""]

    def met(self, figures):
        judged = figures.judged()
        if self.aim and judged <= self.aim:
            return "aim"
        return "" if self.bar is None else "yes" if judged <= self.bar else "no"

    def cells(self, figures):
        work, whose, bar, aim = self.fixed()
        return [work, whose, *figures.cells(), figures.ratio(), bar, aim, self.met(figures)]


def line_of(cells):
    return f"| {' | '.join(cells)} |".replace("  ", " ")


def table(machine, lines):
    """The table in Markdown: the machine, and the rows."""
    head = [line_of(TITLES), "|" + "---|" * len(TITLES)]
    return "\n".join([f"{machine}:", "", *head, *(line_of(it) for it in lines)]) + "\n"


def machine():
    """The date, and what is run on."""
    with open("/proc/cpuinfo", encoding="utf-8") as file:
        models = [line.partition(": ")[2].strip() for line in file if line.startswith("model name")]
    kind = models[0] if models else "unknown processors"
    return f"{time.strftime('%Y-%m-%d')}, {len(os.sched_getaffinity(0))} processors ({kind})"
