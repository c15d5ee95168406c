"""What the tools use of the second implementation in tests/reference.py: readers, sides, the examiner and records."""

import os
import sys

sys.path.insert(0, os.path.join(os.path.dirname(os.path.abspath(__file__)), "..", "tests"))

from reference import (  # noqa: E402, F401
    EXISTENTIAL,
    PREMISE_FALSITY,
    PREMISE_TRUTH,
    RESOLVE,
    SETTLE,
    UNIVERSAL,
    Examiner,
    FalsitySide,
    Refusal,
    TruthSide,
    make_shelf,
    read_circuit,
    read_formula,
    write_record,
)
