"""Judges that are told all facts, in the slow model: a retrieval under one, and a run of `--judge bounded`, `all-rows` or `first-rows`, which
are those of crates/skew_judges."""
from __future__ import annotations

from collections import Counter
from typing import Callable

from judges.judge_reads import JUDGES, Facts, Judge
from model.engine import Engine
from model.race import Race
from model.union import Union

OWN = [JUDGES["Bounded"], JUDGES["AllRows"], JUDGES["FirstRows"]]  # by their numbers


def ruled_by(judge: Judge, retrieval) -> Callable[[int, int], str]:
    """What a retrieval asks where this judge rules, who is told all facts."""
    leaves: Counter[int] = Counter()

    def rule(projected: int, guaranteed: int) -> str:
        position, scan = under_way(retrieval)
        leaves[position] += 1  # it is asked behind each leaf of a scan but the last
        building, delivered = retrieval.control == "building", len(getattr(retrieval, "delivered", ()))
        return judge(Facts(building, position, scan.scanned, scan.kept, scan.index.estimate, leaves[position], projected, guaranteed, delivered))

    return rule


def under_way(retrieval) -> tuple[int, object]:
    """The scan about which a judge is asked, with its position among those planned."""
    if isinstance(retrieval, Race):
        return retrieval.scans.index(retrieval.turn()), retrieval.turn()
    if isinstance(retrieval, Union):
        return retrieval.present, retrieval.scans[retrieval.present]
    return sum(event.startswith("scan ") for event in retrieval.events) - 1, retrieval.scan


class Told(Engine):
    """The engine under judges that are told all facts, in the places of the supplied ones."""

    def rule(self, projected, guaranteed, retrieval):
        if not hasattr(retrieval, "asks"):
            retrieval.asks = ruled_by(self.present, retrieval)
        return retrieval.asks(projected, guaranteed)

    def present(self, facts: Facts) -> str:
        """What the judge answers that rules now."""
        return OWN[self.judge](facts)
