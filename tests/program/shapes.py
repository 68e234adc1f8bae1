"""Shapes that the change rows of targets make, and the effects of a command on what is out of
date."""
from collections import Counter
from typing import Iterator

from shared.reference import Reference

# how often the builds have to leave each shape, and have each effect, at least
WANTED = {"cycle": 1_000, "diamond": 500, "chain": 1_000, "popular": 500, "fresh_cycle": 50,
          "spread": 500, "settled": 500}
# each name that has change rows, with the names that these are on
Needs = dict[str, set[str]]


def needs_of(reference: Reference) -> Needs:
    return {name: set(cell.changes) for name, cell in reference.cells.items()}


def lengths_from(needs: Needs, target: str) -> dict[str, int]:
    """How many rows the shortest chain from a target has, to each name that it depends on."""
    lengths: dict[str, int] = {}
    latest = {target}
    length = 0
    while latest:
        length += 1
        latest = {name for one in latest for name in needs.get(one, ())} - lengths.keys()
        lengths.update(dict.fromkeys(latest, length))
    return lengths


def has_diamond(needs: Needs, target: str) -> bool:
    """Whether a target depends on two names that depend on one."""
    below = [name for between in needs[target] for name in needs.get(between, ())]
    return len(below) > len(set(below))


def shapes_in(reference: Reference) -> Iterator[str]:
    """The shapes that there are now, each once."""
    needs = needs_of(reference)
    lengths = {target: lengths_from(needs, target) for target in needs}
    has_cycle = any(target in lengths[target] for target in needs)
    if has_cycle:
        yield "cycle"
    if has_cycle and not reference.searched():
        yield "fresh_cycle"
    if any(has_diamond(needs, target) for target in needs):
        yield "diamond"
    if any(length >= 4 for chains in lengths.values() for length in chains.values()):
        yield "chain"
    needed = Counter(name for names in needs.values() for name in names)
    if any(count >= 4 for count in needed.values()):
        yield "popular"


def effects(before: set[str], after: set[str]) -> Iterator[str]:
    """What a command did to the targets that were out of date before it."""
    if len(after - before) >= 3:
        yield "spread"
    if len(before - after) >= 3:
        yield "settled"
