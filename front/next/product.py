"""What the tests would take from the product, front/next: the bytes of jobs, the notation, and the built programs.

The evaluator under naive/ takes nothing from here.
"""

import sys
from pathlib import Path

sys.path.append(str(Path(__file__).resolve().parent))

from command.program import printed                 # noqa: E402
from text import format as fmt                      # noqa: E402
from text.lines import NotationError                # noqa: E402
from text.names import exact_job                    # noqa: E402
from text.parser import Parser                      # noqa: E402

__all__ = ["NotationError", "Parser", "exact_job", "fmt", "printed"]
