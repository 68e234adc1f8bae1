"""The lines of dumps, changed by chance."""
import random

# the bytes that take the place of others, or come between them
BYTES = b"0123456789abdfpsxZ-+= \n\0\xff"


def changed(choose: random.Random, body: bytes) -> bytes:
    """The lines of a dump, of which something is changed."""
    at = choose.randrange(len(body) + 1)
    byte = bytes([choose.choice(BYTES)])
    lines = body.splitlines(keepends=True)
    line = choose.randrange(len(lines))
    other = choose.randrange(len(lines))
    match choose.randrange(7):
        case 0 | 1:
            return body[:at] + byte + body[at + 1 :]
        case 2:
            return body[:at] + byte + body[at:]
        case 3:
            return body[:at] + body[at + 1 :]
        case 4:
            del lines[line]
        case 5:
            lines.insert(other, lines[line])
        case 6:
            lines[line], lines[other] = lines[other], lines[line]
    return b"".join(lines)
