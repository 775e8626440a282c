"""The runs that are stopped, and that lose their power: uploads that are collected, and journals that go over."""
from __future__ import annotations

import samples
from collecting import Collecting, Listed
from make import Machine
from migrating import Migrating, migrations
from trial import Trial

MANY = "many entries"
OF_VERSION_3 = ("collect", "--tables", "3")


def scenarios(trial: Trial) -> list[Collecting | Migrating]:
    row, rest = samples.stream(samples.E1), samples.stream(samples.E2, samples.E3)
    machine = Machine(trial.dice, 60)
    return [
        Collecting(trial, "an upload without entries", [samples.head(1)]),
        Collecting(trial, "two uploads", [row, rest]),
        Listed(trial, "a list into tables of version 3", [row, samples.stream(samples.E3, b"=x"), rest], OF_VERSION_3),
        Collecting(trial, "two uploads into a journal", [rest, samples.head(2) + samples.FILE], [row]),
        Collecting(trial, MANY, [machine.stream(0, 40), machine.file(50), machine.stream(30, 60)]),
        *migrations(trial),
    ]
