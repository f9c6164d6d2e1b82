"""Has a process load parts of python3-pyroute2 alone: whoever imports this first can import its modules then.
The package itself, once imported, imports all of them, which is 5 to 13 MB in each process that does so.
"""

from __future__ import annotations

import importlib.util
import sys

PACKAGE = "pyroute2"

if PACKAGE not in sys.modules and (found := importlib.util.find_spec(PACKAGE)):
    sys.modules[PACKAGE] = importlib.util.module_from_spec(found)
