"""A computer's settings and folders, of which journal-collect-status says how they stand."""
from __future__ import annotations

import json
import os
import subprocess
from pathlib import Path
from typing import Any

import pytest

STATUS = Path(__file__).resolve().parents[2] / "deploy/programs/journal-collect-status"


class Computer:
    def __init__(self, folder: Path) -> None:
        self.folder, self.etc = folder, folder / "etc"
        self.etc.mkdir()

    def write(self, name: str, text: str) -> None:
        path = self.folder / name
        path.parent.mkdir(parents=True, exist_ok=True)
        path.write_text(text)

    def call(self, *words: str) -> subprocess.CompletedProcess[str]:
        return subprocess.run([STATUS, *words], env={**os.environ, "JOURNAL_COLLECT_SETTINGS": str(self.etc)},
                              capture_output=True, text=True, check=False)

    def told(self) -> dict[str, Any]:
        """All that is known, whose status is that of the call."""
        ended = self.call("--json")
        value: dict[str, Any] = json.loads(ended.stdout)
        assert (value["status"], ended.stderr) == (ended.returncode, "")
        return value

    def found(self) -> set[tuple[str, str]]:
        return {(each["name"], each["about"]) for each in self.told()["findings"]}


@pytest.fixture
def computer(tmp_path: Path) -> Computer:
    return Computer(tmp_path)
