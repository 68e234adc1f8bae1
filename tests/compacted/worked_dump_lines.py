"""Lines that are those of no dump, though their sum is right, and which line of the dump is wrong.
They were worked out by hand from "The log" of docs/RULES.md."""
import hashlib

# how many names there are to be, the lines, and which line of the dump is the first wrong one
LINES = [
    ("1", "", 2),
    ("1", "a 1\nb 2\n", 3),
    ("0", "a 1\n", 2),
    ("2", "a 1\n", 3),
    ("01", "a 1\n", 1),
    ("4294967296", "a 1\n", 1),
    ("4294967295", "a 1\n", 3),
    ("1", "a 1", 2),
    ("1", "a\n", 2),
    ("1", "a 1 \n", 2),
    ("1", "a  1\n", 2),
    ("1", "a =>\n", 2),
    ("1", "#a 1\n", 2),
    ("2", "a 1\na 2\n", 3),
    # all is said of a name of which only the file is known, or not all of another
    ("1", "a 1 idle 0 - - 0 -\n", 2),
    ("1", "a - idle 0 - - 0 -\n", 2),
    ("1", "a 1 idle\n", 2),
    ("1", "a 1 built 1 = - 1\n", 2),
    ("1", "a 1 built 1 = - 1 - -\n", 2),
    # words with another spelling
    ("1", "a 1 built 01 = - 1 -\n", 2),
    ("1", "a 1 built 1 s1 - 1 -\n", 2),
    ("1", "a 1 built 1 2 - 1 -\n", 2),
    ("1", "a - built 1 - - 1 -\n", 2),
    ("1", "a 1 done 1 = - 1 -\n", 2),
    ("1", "a 1 built 4294967296 = - 1 -\n", 2),
    ("1", "a 1 built 1 = - 4294967296 -\n", 2),
    ("1", "a 1 built 1 = 86F7E437FAA5A7FCE15D1DDCB9EAEAEA377667B8 1 -\n", 2),
    ("1", "a 1 built 1 = 86f7e437faa5a7fce15d1ddcb9eaeaea377667 1 -\n", 2),
    ("1", "a 1 built 1 = - 1 0\n", 2),
    ("1", "a 1 built 1 = - 1 65536\n", 2),
    # nobody builds it
    ("1", "a 1 building 1 = - 1 -\n", 2),
    # rows
    ("1", "a 1\n0 0\n", 3),
    ("1", "a 1\n0 2\n", 3),
    ("1", "a 1\n0 1 \n", 3),
    ("1", "a 1\n1 1\n", 3),
    ("1", "a 1\n0 1\n0 1\n", 4),
    ("1", "a 1\n4294967296 1\n", 3),
    ("1", "a 1\n0 1", 3),
    ("1", "a 1\n0 0 0\n", 3),
    ("1", "a 1\n0 0 1=\n", 3),
    ("1", "a 1\n0 0 0==\n", 3),
    ("1", "a 1\n0 0 0f1\n", 3),
    ("1", "a 1\n0 0 0f\n", 3),
    ("1", "a 1\n0 0 0d86\n", 3),
    ("1", "a 1\n0 0 0b4294967296\n", 3),
    ("1", "a 1\n0 0 0b01\n", 3),
    ("1", "a 1\n0 0 0px\n", 3),
    ("1", "a 1\n0 0 0x\n", 3),
    ("1", "a 1\n0 0 00=\n", 3),
    ("1", "a 1\n0 0 +\n", 3),
    ("1", "a 1\n0 0 =\n", 3),
    ("1", "a 1\n0 0 ++0\n", 3),
    ("2", "a 1\nb 1\n0 0 1= 0=\n", 4),
    ("2", "a 1\nb 1\n0 0 0= 0=\n", 4),
    ("2", "a 1\nb 1\n0 0 0= 0a\n", 4),
    ("2", "a 1\nb 1\n0 0 0= +0\n", 4),
    ("2", "a 1\nb 1\n1 1\n0 1\n", 5),
    ("2", "a 1\nb 1\n0 0 0=\n0 0 1=\n", 5),
    ("2", "a 1\nb 1\n0 1\n1 1\n0 1\n", 6),
]


def text_of(names: str, body: str) -> bytes:
    """The lines with a first line that says so many names, and has the right sum."""
    counts = f"state {names} {len(body)}"
    digest = hashlib.sha1(f"{counts}\n{body}".encode()).hexdigest()
    return f"{counts} {digest}\n{body}".encode()
