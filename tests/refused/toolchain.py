"""The toolchain's modules, as tools/kit.py finds them."""

import os
import sys

sys.path.append(os.path.join(os.path.dirname(os.path.realpath(__file__)), "..", "..", "tools"))

from kit import bodies, rt  # noqa: E402

__all__ = ["bodies", "rt"]
