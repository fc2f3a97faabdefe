"""Tests of the importer of OpenDSS scripts."""

import sys
from pathlib import Path

COMPANION = Path(__file__).resolve().parents[2]
DATA = Path(__file__).resolve().parent / "data"
MODEL = COMPANION.parent / "tools" / "model"

for folder in (COMPANION, MODEL):
    if str(folder) not in sys.path:
        sys.path.insert(0, str(folder))
