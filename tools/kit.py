"""The toolchain's own command `rt`, loaded as a module, and the reader of functions beside it.

Their parts are no public interface. So before one is loaded, the toolchain has to be one over which this was tried.
"""

import functools
import importlib.machinery
import importlib.util
import os
import shutil
import subprocess
import sys
from types import ModuleType

sys.dont_write_bytecode = True

# What `rt version` says of the toolchains over whose parts tools/ and tests/refused were tried.
TRIED = ("rattle-kit-13b logic dac8208d650f15bf", "rattle-kit-13f logic dac8208d650f15bf")


def _load(name: str, file: str) -> ModuleType:
    loader = importlib.machinery.SourceFileLoader(name, file)
    spec = importlib.util.spec_from_loader(name, loader)
    assert spec is not None
    module = importlib.util.module_from_spec(spec)
    loader.exec_module(module)
    return module


@functools.cache
def _command() -> str:
    """The path of `rt`, once it has named a toolchain that was tried."""
    found = shutil.which("rt")
    if found is None:
        sys.exit("there is no rt on the PATH: it is the toolchain's command, and all that is built is built by it")
    ran = subprocess.run([found, "version"], stdin=subprocess.DEVNULL, capture_output=True, text=True, check=False)
    lines = (ran.stdout + ran.stderr).splitlines() or [""]
    if ran.returncode or lines[0] not in TRIED:
        wanted = " or ".join(f"'{it}'" for it in TRIED)
        sys.exit(
            f"'{found} version' says '{lines[0]}', and wanted is {wanted}: tools/ and tests/refused use parts of the "
            "toolchain that another one may not have. Add it to TRIED in tools/kit.py, and keep it there if "
            "tests/test-refused.sh and tests/test-tools.sh pass"
        )
    return os.path.realpath(found)


@functools.cache
def rt() -> ModuleType:
    """`rt`, as the PATH finds it."""
    return _load("rt", _command())


@functools.cache
def bodies() -> ModuleType:
    """What `rt plant` reads a crate's functions with."""
    return _load("rt_plant_bodies", os.path.join(rt().HERE, "rt-plant-bodies"))
