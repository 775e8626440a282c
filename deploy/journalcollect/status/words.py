"""Numbers, times and names as people read them."""
import re
import time

STEPS = ((86400.0, "days"), (3600.0, "h"), (60.0, "min"), (1.0, "s"))
# What a terminal does something else with than to show it.
UNPRINTED = re.compile(r"[\x00-\x09\x0b-\x1f\x7f-\x9f\u2028\u2029\u202a-\u202e\u2066-\u2069\ud800-\udfff]")


def size(count: float) -> str:
    for unit in ("bytes", "kB", "MB", "GB"):
        if count < 1000:
            return f"{count:.0f} {unit}" if unit == "bytes" or count >= 100 else f"{count:.1f} {unit}"
        count /= 1000
    return f"{count:.1f} TB"


def span(seconds: float) -> str:
    length, unit = next((step for step in STEPS if seconds >= 2 * step[0]), STEPS[-1])
    return f"{max(0.0, seconds) / length:.0f} {unit}"


def ago(at: float | None, now: float) -> str:
    """When that was; a time to come says that a clock was set."""
    if not at:
        return "never"
    return f"{span(now - at)} ago" if at <= now + 60 else f"in the future ({day(at)})"


def day(at: float) -> str:
    try:
        return time.strftime("%Y-%m-%d %H:%M UTC", time.gmtime(at))
    except (OverflowError, OSError, ValueError):
        return "at no time"
