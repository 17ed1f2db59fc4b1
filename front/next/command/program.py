"""What the built programs print. `tests/built.py` proves and builds them where they are not there yet or are older than the
sources.
"""

import sys
from pathlib import Path

sys.path.append(str(Path(__file__).resolve().parents[3] / "tests"))

from built import printed, program      # noqa: E402, F401
