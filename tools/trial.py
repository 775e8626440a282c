"""Says which program there is to try: the proved one, if it is built and no source is newer, and else one that it
builds of the sources before their proofs.

usage: python3 tools/trial.py PROGRAM

It prints the program's path. `rt try` makes a module of such a program, which it compiles with checks of its memory at
each step. That program is hundreds of times slower, so the module is taken as soon as it is whole, compiled here
without them, and linked to build/trial/PROGRAM. `make` builds the one that is installed.
"""

from __future__ import annotations

import os
import subprocess
import sys
import tempfile
import time
from collections.abc import Iterator

import kit

# How often it looks whether the module is whole, in seconds.
EVERY = 0.05
# rt try first compiles a module of some hundred bytes, which is none of a program.
LEAST_BYTES = 1 << 12


def main(name: str) -> int:
    folder = os.path.join("crates", name)
    if not os.path.isfile(os.path.join(folder, "src", "main.rt")):
        sys.exit(f"there is no program {name}: {folder}/src/main.rt isn't there")
    proved, trial = os.path.join(folder, "out", name), os.path.join("build", "trial", name)
    newest = max(map(os.path.getmtime, _sources()))
    for made in (proved, trial):
        if os.path.exists(made) and os.path.getmtime(made) > newest:
            print(made)
            return 0
    # it stops if rt isn't there, or isn't one that was tried
    kit.rt()
    print(f"{name} is built before its proofs, which takes some 5 minutes; make proves it", file=sys.stderr)
    os.makedirs(os.path.dirname(trial), exist_ok=True)
    if not _build(folder, trial):
        return 1
    print(trial)
    return 0


def _sources() -> Iterator[str]:
    """The files by which the Makefile knows that a program is old."""
    yield "crates.txt"
    for crate in os.listdir("crates"):
        for part in ("src", "specs", "proofs"):
            for at, _, names in os.walk(os.path.join("crates", crate, part)):
                yield from (os.path.join(at, it) for it in names)


def _build(folder: str, target: str) -> bool:
    """Has rt try make the program's module, and compiles that. The program is as old as the sources are."""
    with tempfile.TemporaryDirectory(prefix="trial-", dir=os.path.dirname(target)) as room:
        begun = time.time()
        module, log = os.path.join(room, "module.bc"), os.path.join(room, "log")
        if not _made(folder, room, module, log):
            with open(log, encoding="utf-8", errors="replace") as said:
                print(f"rt try made no program, and said:\n{said.read()}", file=sys.stderr)
            return False
        program = _linked(module)
        os.utime(program, (begun, begun))
        os.replace(program, target)
        return True


def _made(folder: str, room: str, module: str, log: str) -> bool:
    """Whether rt try has made the module. It is ended then."""
    # a folder of its own, in which rt writes what it makes
    os.mkdir(made := os.path.join(room, "made"))
    with open(log, "w", encoding="utf-8") as out:
        trying = subprocess.Popen(
            ["rt", "try", "--", "--version"], cwd=folder, stdin=subprocess.DEVNULL, stdout=out, stderr=out,
            env={**os.environ, "TMPDIR": os.path.realpath(made)},
        )
        try:
            while trying.poll() is None and not _kept(made, module):
                time.sleep(EVERY)
        finally:
            trying.terminate()
            trying.wait()
    return os.path.exists(module)


def _kept(made: str, module: str) -> bool:
    """Whether a module is whole, since an object is being made of it. It has the name `module` then."""
    for at, _, names in os.walk(made):
        found = os.path.join(at, "module.bc")
        try:
            if any(".o" in it for it in names) and os.path.getsize(found) > LEAST_BYTES:
                os.link(found, module)
                return True
        except FileNotFoundError:
            # it was taken away meanwhile
            continue
    return False


def _linked(module: str) -> str:
    """The program of a module."""
    folder = kit.rt().rtlib.KIT
    made, program = f"{module}.o", f"{module}.out"
    subprocess.run([f"{folder}/toolchain/bin/clang", "-O1", "-x", "ir", "-c", module, "-o", made], check=True)
    words = ["--target", "x86_64-unknown-linux-gnu", "--toolchain", f"{folder}/toolchain", "-o", program, made]
    libraries = [f"{folder}/c/{name}" for name in ("libos_c.a", "liblibc_c.a")]
    # it says on its standard error that all went well
    words = [f"{folder}/bin/rattle-link", *words, *libraries]
    linking = subprocess.run(words, capture_output=True, text=True, check=False)
    if linking.returncode:
        sys.exit(linking.stderr)
    return program


if __name__ == "__main__":
    if len(sys.argv) != 2 or sys.argv[1].startswith("-"):
        sys.exit(__doc__)
    sys.exit(main(sys.argv[1]))
