"""Texts that are damaged by chance: bytes, words and lines are changed, cut, repeated, inserted and
stretched."""
import random
import re

PIECES = [
    b" ", b"  ", b"\n", b"\n\n", b"\r\n", b"\t", b"\0", b"#", b"# ", b"?", b"? ", b"-", b"=>",
    b" => ", b"0", b"00", b"65", b"4294967296", b"ok", b"granted 1", b"refused self", b"stale a",
    b"lock a", b"ifchange", b"done ", b"stamp T ", b" a.c", b" T", b"self", b"not-locked",
    b"exists T", b"6D", b"\xc3\xa9", b"targets\n",
]
# limits on lengths, and the lengths just over them
LENGTHS = [64, 65, 255, 256, 8192, 8193]
# how often something is repeated: a list has at most 64 names
TIMES = [1, 1, 2, 61, 62, 63, 64, 65]
LINE = re.compile(rb"[^\n]*\n|[^\n]+")


def spliced(text: bytes, start: int, end: int, new: bytes) -> bytes:
    """A text with something else in place of its bytes from one place up to another."""
    return text[:start] + new + text[end:]


def piece_at(text: bytes, place: int, gaps: bytes) -> tuple[int, int]:
    """Where what lies between gaps at this place begins, and where it ends."""
    start = max(text.rfind(gap, 0, place) for gap in gaps) + 1
    ends = [text.find(gap, place) for gap in gaps]
    return start, min((end for end in ends if end >= 0), default=len(text))


class Damage:
    """Damages texts, the same for the same seed."""

    def __init__(self, seed: int) -> None:
        self.random = random.Random(seed)

    def below(self, count: int) -> int:
        return int(self.random.random() * count)

    def place(self, text: bytes) -> int:
        return self.below(len(text) + 1)

    def piece(self) -> bytes:
        """A text to insert: a byte, or one of the pieces."""
        if self.below(3) == 0:
            return bytes([self.below(256)])
        return PIECES[self.below(len(PIECES))]

    def damaged(self, text: bytes) -> bytes:
        """A text with one damage: at a place, or to the word or the line there."""
        place = self.place(text)
        kind = self.below(12)
        match kind:
            case 0 | 1:
                return spliced(text, place, place + 1 - kind, self.piece())
            case 2:
                return text[:place]
            case 3:
                return spliced(text, place, place + self.below(9), b"")
        start, end = piece_at(text, place, (b" \n", b"\n")[self.below(2)])
        return self.damaged_piece(text, start, end, kind)

    def damaged_piece(self, text: bytes, start: int, end: int, kind: int) -> bytes:
        """A text with a damage of this kind to the word or the line between these places."""
        # with the gap before it
        whole = text[max(start - 1, 0):end]
        other = self.place(text)
        match kind:
            case 4:
                return spliced(text, start, end, self.piece())
            case 5:
                return spliced(text, start, start, self.piece())
            case 6:
                return spliced(text, end, end, self.piece())
            case 7:
                return spliced(text, start, end + 1, b"")
            case 8:
                return spliced(text, end, end, whole * TIMES[self.below(len(TIMES))])
            case 9:
                return spliced(text, other, other, whole)
            case 10:
                other = piece_at(text, other, b" \n")[1]
                return spliced(text, other, other, whole)
        more = LENGTHS[self.below(len(LENGTHS))] - (end - start)
        return spliced(text, end, end, (text[start:end][-1:] or b"#") * more)

    def badly_damaged(self, text: bytes) -> bytes:
        """A text with one to three damages."""
        for _ in range((1, 1, 2, 3)[self.below(4)]):
            text = self.damaged(text)
        return text

    def one_of(self, texts: list[bytes]) -> bytes:
        """One of these texts, damaged."""
        return self.badly_damaged(texts[self.below(len(texts))])

    def with_guards(self, text: bytes) -> bytes:
        """A text with a guard before some of its lines."""
        lines = LINE.findall(text)
        return b"".join(line if self.below(4) else b"? " + line for line in lines)


def with_header(text: bytes) -> bytes:
    """A text whose first line is a header instead, which counts the other lines."""
    _, *lines = text.split(b"\n")
    return b"\n".join([b"history %d" % max(len(lines) - 1, 0), *lines])


def as_history(file: bytes) -> bytes:
    """The lines of a session file, but for those that are skipped, as lines of a history with the
    reply `ok`."""
    lines = [line for line in file.split(b"\n") if line and not line.startswith(b"#")]
    return b"".join([b"history %d\n" % len(lines), *(b"1 %s => ok\n" % line for line in lines)])
