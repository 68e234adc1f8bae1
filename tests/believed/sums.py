"""How many lines have to be believed in all, as the page and README say it."""
import re
from collections.abc import Iterator

from believed.closure import Files

IN_ALL = re.compile(r"\b\d+ lines in all\b")
IN_README = re.compile(r"\bsome\s+(\d[\d,]*)\s+lines,\s+which\s+\[docs/BELIEVE\.md\]")


def lines_of(parts: tuple[Files, ...]) -> int:
    """The number of lines of all parts of the page."""
    return sum(count for files in parts for count, _ in files.values())


def rounded(count: int) -> int:
    """The number with two digits that aren't 0."""
    step: int = 10 ** max(len(str(count)) - 2, 0)
    return (count + step // 2) // step * step


def sum_of(count: int) -> str:
    """How the page says it."""
    return f"{count} lines in all"


def mended_sum(count: int, page: str) -> str:
    """The page with the right number."""
    return IN_ALL.sub(sum_of(count), page)


def wrong_sum(count: int, page: str) -> Iterator[str]:
    """Whether the page says it wrong, not at all or several times."""
    if IN_ALL.findall(page) != [sum_of(count)]:
        yield f"the page doesn't say once '{sum_of(count)}'"


def wrong_in_readme(count: int, readme: str) -> Iterator[str]:
    """Whether README says less, or nothing that can be read."""
    said = [int(number.replace(",", "")) for number in IN_README.findall(readme)]
    if len(said) != 1:
        yield "it doesn't say once how many lines have to be believed"
    elif said[0] < rounded(count):
        yield f"it says some {said[0]} lines, and {count} have to be believed"
