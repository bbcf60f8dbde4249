"""Tests of the package in ../src. Run them with ``python3 -m unittest`` in the folder above."""

import sys
from pathlib import Path

sys.path.insert(0, str(Path(__file__).resolve().parent.parent / "src"))
