"""What the tests of forwarding have: a collector's folder with odd entries, and engines."""
import sys
from pathlib import Path

HERE = Path(__file__).resolve().parent
sys.path[:0] = [str(HERE), str(HERE.parent / "reading"), str(HERE.parent)]
from collecting import collector  # noqa: E402

__all__ = ["collector"]
