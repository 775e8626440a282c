"""What the tests of reading have: a collector's folder. They are skipped where systemd's programs aren't installed."""
import os
import shutil
import sys
from pathlib import Path

import pytest

sys.path[:0] = [str(Path(__file__).resolve().parent), str(Path(__file__).resolve().parents[1])]
from collecting import REMOTE, collector  # noqa: E402

__all__ = ["collector"]
IS_MISSING = not REMOTE.exists() or not shutil.which("journalctl") or "JOURNAL_COLLECT" not in os.environ


def pytest_collection_modifyitems(items: list[pytest.Item]) -> None:
    if IS_MISSING:
        for item in items:
            item.add_marker(pytest.mark.skip("systemd-journal-remote, journalctl or JOURNAL_COLLECT isn't there"))
