"""A build-dependency database for redo: names, stamps, the server of a tree, its clients,
and a database of one's own process.

What this module exports is imported when it is first used, so that a program that needs one part
starts fast.
"""
TYPE_CHECKING = False
if TYPE_CHECKING:
    from . import errors, replies
    from .aio import AsyncClient
    from ._native import Database
    from .client import Client

__version__ = "0.3.0"
__all__ = ["AsyncClient", "Client", "Database", "__version__", "errors", "replies"]

_HOMES = {"Client": "client", "AsyncClient": "aio", "Database": "_native"}
_MODULES = ("errors", "replies")


def __getattr__(name: str) -> object:
    if name not in _HOMES and name not in _MODULES:  # as the modules of `from redodb import names`
        raise AttributeError(f"module {__name__!r} has no attribute {name!r}")
    from importlib import import_module

    if name in _HOMES:
        return getattr(import_module("." + _HOMES[name], __name__), name)
    return import_module("." + name, __name__)
