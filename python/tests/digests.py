"""The stamps of files, made by hashlib of what is in them."""
import hashlib


def digest(told: bytes) -> str:
    """The stamp with the digest of these bytes."""
    return "b2-" + hashlib.blake2b(told, digest_size=28).hexdigest()


def plain(content: bytes, execution: int = 0) -> str:
    """The stamp of a plain file with this content, and these bits of execution."""
    return digest(b"file %o\0%b" % (execution, content))


def link(text: bytes, end: str) -> str:
    """The stamp of a link with this text, to what has this stamp."""
    return digest(b"link\0%b\0%b" % (text, end.encode()))
