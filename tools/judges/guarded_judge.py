"""The guard around a judge, by its rule in words (docs/TRACES.md), and what a retrieval under it is held to read at most.

`Bounded` of crates/skew_judges is this guard, and is proved to answer so. That a retrieval under it reads no more than
`most_reads` is not proved: bounded_worst.py looks for one that does, over the slow model."""
from __future__ import annotations

from typing import TYPE_CHECKING

from model.retrieval import project

if TYPE_CHECKING:
    from judges.judge_reads import Facts, Judge

GREATEST = 2**64 - 1
FULLEST = 48  # entries of a leaf at most: 32 that are stored, and 16 of the transaction's own changes


def parts(scan: int) -> int:
    """Into how many parts the guarantee is cut for the scan at a position."""
    return (8, 2, 4)[scan] if scan < 3 else 2 << scan


def listed(facts: Facts) -> int:
    """The keys that are listed so far: those that the scan has kept, and those that a union's members before it have put
    together, which are what is projected beyond what the scan alone is projected to cost."""
    if facts.projected == GREATEST:
        return facts.kept + GREATEST
    return facts.kept + max(0, facts.projected - project(facts.estimate, facts.scanned, facts.kept))


def is_sunk(facts: Facts) -> bool:
    """Whether the leaves that were read beside one come to the scan's share."""
    return parts(facts.scan) * max(0, facts.spent - 1) >= facts.guaranteed


def is_long(facts: Facts) -> bool:
    return listed(facts) >= facts.guaranteed


def is_lent(facts: Facts) -> bool:
    """Whether a foreground beside the scan may fetch too many keys of its list."""
    return (8 << facts.scan) * facts.kept >= facts.guaranteed


def bounded(judge: Judge, leaves: bool = True) -> Judge:
    """The guard around a judge; without `leaves` what is sunk plays no part."""

    def rule(facts: Facts) -> str:
        if (leaves and is_sunk(facts)) or is_long(facts):
            return "drop"
        verdict = judge(facts)
        return "stop" if verdict == "go on" and facts.building and is_lent(facts) else verdict

    return rule


def most_reads(strategy: str, pages: int, scans: int) -> float | None:
    """What is read at most from a table of so many pages with so many planned scans, or members of a union; none where a
    foreground follows an index, whose own leaves and records come to it."""
    return {
        "background-only": 2 * pages + 2 * scans + FULLEST - 2,
        "fast-first": 9 * pages / 4 + (FULLEST + 2) * scans - 2,
        "union": 2 * pages + (FULLEST + 2) * scans,
    }.get(strategy)
