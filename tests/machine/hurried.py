"""journal-collect-send under a clock that sleeping moves on, so an hour passes in seconds, or HURRY of them.

What waits for other processes keeps the clock that it found when it was imported.
"""
import os
import sys
import time
from pathlib import Path

sys.path.insert(0, str(Path(__file__).resolve().parents[2] / "deploy"))
from journalcollect.machine.run import main  # noqa: E402

slept, hurry = 0.0, int(os.environ.get("HURRY", "1"))
monotonic, of_day, in_nanoseconds = time.monotonic, time.time, time.time_ns


def sleep(seconds: float) -> None:
    global slept
    slept += hurry * seconds


time.sleep = sleep
time.monotonic = lambda: monotonic() + slept
time.time = lambda: of_day() + slept
time.time_ns = lambda: in_nanoseconds() + int(slept * 1e9)
sys.exit(main())
