"""Lets the tests import the package beside them, from wherever they are called."""
import sys
from pathlib import Path

FOLDER = str(Path(__file__).resolve().parent.parent)

if FOLDER not in sys.path:
    sys.path.insert(0, FOLDER)
