"""Whether each link of the pages leads somewhere: to a file of the repository, and to a heading of it if it names
one. tests/believe calls it."""
import re
from collections.abc import Iterator
from pathlib import Path

LINK = re.compile(r"\[[^\]]*\]\(([^)\s]+)\)")
BLOCK = re.compile(r"^```.*?^```", re.M | re.S)
INLINE = re.compile(r"`[^`\n]*`")
HEADING = re.compile(r"^#+ (.*)$", re.M)


def pages_of(top: Path) -> list[Path]:
    """The pages whose links are followed."""
    beside = [top / "bench/README.md", top / "tests/README.md"]
    return [*sorted(top.glob("*.md")), *sorted((top / "docs").glob("*.md")), *beside]


def anchors_of(page: str) -> set[str]:
    """The anchors of a page: each heading's words in small letters, and a number after one that comes again."""
    found: set[str] = set()
    for heading in HEADING.findall(BLOCK.sub("", page)):
        words = re.sub(r"\[([^\]]*)\]\([^)]*\)", r"\1", heading).lower()
        anchor = first = re.sub(r"[^\w -]", "", words).replace(" ", "-")
        count = 0
        while anchor in found:
            count += 1
            anchor = f"{first}-{count}"
        found.add(anchor)
    return found


def is_there(page: Path, link: str) -> bool:
    """Whether a link of the page leads to a file or a folder, and to a heading if it names one."""
    path, _, anchor = link.partition("#")
    target = page.parent / path if path else page
    if anchor:
        return target.is_file() and anchor in anchors_of(target.read_text())
    return target.exists()


def broken_links(top: Path) -> Iterator[str]:
    """Each link of the pages that leads nowhere."""
    for page in pages_of(top):
        text = INLINE.sub("``", BLOCK.sub("", page.read_text()))
        for link in LINK.findall(text):
            if not link.startswith(("http://", "https://")) and not is_there(page, link):
                yield f"{page.relative_to(top)}: the link {link} leads nowhere"
