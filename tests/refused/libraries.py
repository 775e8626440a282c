"""The built libraries that a crate uses."""

from __future__ import annotations

import os
import threading
from collections.abc import Container
from typing import Any

import toolchain

BUILDING = threading.Lock()


def libraries_stand(crate: Any, standing: Container[str] = ()) -> str | None:
    """Builds each library below the crate that isn't there or is older than its sources, and returns the name of the
    first that can't be built, if any. Those that are said to stand are taken at that word: an `rt ci` uses them."""
    with BUILDING:
        for library in crate.below():
            if not is_current(library, standing) and library.build_rlib(["--jobs", "1"], anew=False):
                return library.name
    return None


def is_current(library: Any, standing: Container[str] = ()) -> bool:
    """Whether a library is built from the sources as they are now. What an earlier `rt ci` left has no stamp, and is
    known by its age; but one that it kept from another checkout of the same text may be older than the files here, so
    of one that runs beside this, what it says stands does."""
    if library.name in standing or library.is_built():
        return True
    if os.path.exists(os.path.join(library.folder, "out/rlib/stamp")) or not os.path.isdir(library.rlib):
        return False
    files = [file for it in [*library.below(), library] for file in toolchain.rt().rtlib.files_of(it.folder)]
    built = os.path.getmtime(os.path.join(library.rlib, "format"))
    return all(os.path.getmtime(file) < built for file in files)
