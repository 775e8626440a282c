"""Small libraries that are preloaded into the program: compiled by the toolchain's compiler, and set by variables."""
from __future__ import annotations

import os
import shutil
import subprocess
import tempfile
from collections.abc import Mapping, Sequence
from typing import Any, NamedTuple


# What programs that are run have around them.
AROUND = dict(os.environ)


class Told(NamedTuple):
    """What a run printed, its status, and what the library noted."""
    output: bytes
    errors: str
    status: int
    noted: bytes


def built(source: str, folder: str) -> str:
    """The library of a source, compiled into a folder. No other compiler, linker or header is needed."""
    toolchain = os.path.join(os.path.dirname(os.path.realpath(shutil.which("rt") or "")), "..", "toolchain", "bin")
    library = os.path.join(folder, os.path.basename(source) + ".so")
    options = ["-fuse-ld=lld", "-O1", "-fPIC", "-shared", "-nostdlib", "-fno-builtin", "-Wall", "-Werror"]
    subprocess.run([os.path.join(toolchain, "clang"), *options, "-o", library, source], check=True)
    return library


def run(
    library: str, prefix: str, settings: Mapping[str, Any], words: Sequence[str], stdin: bytes = b"", **options: Any
) -> Told:
    """A run with the library, whose variables have a prefix; PREFIX_NOTE is the descriptor that it notes to."""
    with tempfile.TemporaryFile() as note:
        variables = {f"{prefix}_{name}": str(value) for name, value in {**settings, "NOTE": note.fileno()}.items()}
        environment = {**AROUND, "LD_PRELOAD": library, **variables}
        told = subprocess.run(words, input=stdin, stdout=subprocess.PIPE, stderr=subprocess.PIPE, check=False,
                              timeout=600, env=environment, pass_fds=[note.fileno()], **options)
        note.seek(0)
        return Told(told.stdout, told.stderr.decode(errors="replace"), told.returncode, note.read())
