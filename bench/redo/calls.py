#!/usr/bin/env -S python3 -B
"""Runs a program once for each name, one after the other, and prints what one call takes: the
seconds that pass, and those of the processor.

Usage: bench/redo/calls.py FILE-OF-NAMES PROGRAM.."""
import os
import resource
import sys
import time
from pathlib import Path


def main(names: list[str], words: list[str]) -> str:
    before, began = resource.getrusage(resource.RUSAGE_CHILDREN), time.perf_counter()
    for name in names:
        process = os.posix_spawnp(words[0], [*words, name], os.environ)
        _, status = os.waitpid(process, 0)
        if status:
            raise SystemExit(f"{words} {name}: status {os.waitstatus_to_exitcode(status)}")
    passed, after = time.perf_counter() - began, resource.getrusage(resource.RUSAGE_CHILDREN)
    used = after.ru_utime + after.ru_stime - before.ru_utime - before.ru_stime
    return f"{passed / len(names)} {used / len(names)}"


if __name__ == "__main__":
    print(main(Path(sys.argv[1]).read_text().split(), sys.argv[2:]))
