"""What stands before an upload until it is stored, by a clock that only what is stored moves on."""
import heapq
import statistics
from dataclasses import dataclass, field

import pytest
from journalcollect.collector import turns
from journalcollect.collector.turns import Turns, Waiting

# An upload of 20 entries, as a healthy machine has one some tenths of a second after the last was answered.
HEALTHY, SIZE, LINES, PAUSE = 20, 2_700, 120, 0.3
HOSTILE, MACHINES, SECONDS = 8, 2, 120.0


@dataclass
class Kind:
    """What a hostile upload is like, and how many seconds the program takes for it."""
    size: int
    lines: int
    files: int
    seconds: float


KINDS = {
    "large entries": Kind(16_000_000, 6, 1, 0.8),
    "many fields": Kind(514_000, 64_080, 1, 0.3),
    "16 windows": Kind(2_100, 80, 16, 0.4),
    "many entries": Kind(950_000, 36_400, 1, 0.35),
    "slower than it looks": Kind(300_000, 300, 1, 1.0),
    "small": Kind(200, 6, 0, 0.005),
}


@dataclass
class Store:
    """What becomes of uploads in turns, and when: the clock, what is to come, and what was seen."""
    kind: Kind
    now: float = 0.0
    turns: Turns = field(default_factory=Turns)
    coming: list[tuple[float, int, str]] = field(default_factory=list)
    began: dict[int, float] = field(default_factory=dict)
    taken: list[float] = field(default_factory=list)
    before: list[int] = field(default_factory=list)
    stored: list[tuple[float, str]] = field(default_factory=list)

    def monotonic(self) -> float:
        return self.now

    def comes(self, machine: str, at: float) -> None:
        heapq.heappush(self.coming, (at, len(self.stored) + len(self.coming), machine))

    def seconds(self, upload: Waiting) -> float:
        return self.kind.seconds if upload.machine.startswith("hostile") else 0.01

    def arrive(self) -> None:
        while self.coming and self.coming[0][0] <= self.now:
            at, _, machine = heapq.heappop(self.coming)
            kind = self.kind if machine.startswith("hostile") else Kind(SIZE, LINES, 0, 0.0)
            upload = Waiting(machine, 0, kind.size, kind.lines, kind.files)
            self.began[id(upload)] = at
            self.turns.put(upload)

    def step(self) -> None:
        self.arrive()
        group = self.turns.group(0.0)
        if not group:
            soon = [at for at, _, _ in self.coming[:1]] + [self.turns.rests_until] * bool(self.turns.waiting)
            self.now = min(at for at in soon if at > self.now)
            return
        begun = self.now
        for each in group:
            self.now += self.seconds(each)
            self.stored.append((self.now, each.machine))
        self.turns.charge(group, self.now - begun)
        for each in group:
            self.answered(each)

    def answered(self, upload: Waiting) -> None:
        began = self.began.pop(id(upload))
        if upload.machine.startswith("hostile"):
            self.comes(upload.machine, self.now)
            return
        self.taken.append(self.now - began)
        self.before.append(sum(at > began and machine.startswith("hostile") for at, machine in self.stored[-200:]))
        self.comes(upload.machine, self.now + PAUSE)


def run(kind: Kind, monkeypatch: pytest.MonkeyPatch, healthy: int = HEALTHY) -> Store:
    store = Store(kind)
    monkeypatch.setattr(turns, "time", store)
    monkeypatch.setattr(store.turns.changed, "wait", lambda seconds: None)
    for number in range(healthy):
        store.comes(f"m{number}", 0.01 * number)
    for number in range(HOSTILE):
        store.comes(f"hostile{number % MACHINES}", 0.0)
    while store.now < SECONDS:
        store.step()
    return store


@pytest.mark.parametrize("kind", KINDS)
def test_one_hostile_upload_stands_before_an_answer(kind: str, monkeypatch: pytest.MonkeyPatch) -> None:
    """But for small ones, each machine has its turn before a second one of those; and half of all meet none."""
    store = run(KINDS[kind], monkeypatch)
    heavy, of_all = KINDS[kind].seconds, HEALTHY * 0.01
    later = len(store.taken) // 20                     # the first ones of a kind aren't known yet
    print(f"{kind}: {statistics.median(store.taken):.2f} s in the median, {max(store.taken[later:]):.2f} s at most")
    assert statistics.median(store.taken) < 0.3
    assert max(store.taken[later:]) < heavy + 2 * of_all
    assert max(store.before[later:]) <= 1 or heavy < turns.HEAVY
    assert sum(machine.startswith("hostile") for _, machine in store.stored) > SECONDS / (4 * heavy) * 0.5


def test_who_is_alone_has_no_rest(monkeypatch: pytest.MonkeyPatch) -> None:
    store = run(KINDS["large entries"], monkeypatch, healthy=0)
    assert len(store.stored) == pytest.approx(SECONDS / KINDS["large entries"].seconds, abs=2)


def test_machines_have_the_same_time(monkeypatch: pytest.MonkeyPatch) -> None:
    """Of two that always have something, one has no more of the store than the other, however many uploads wait."""
    store = Store(Kind(2_700, 120, 0, 0.01))
    monkeypatch.setattr(turns, "time", store)
    for _ in range(50):
        store.turns.put(Waiting("hostile0", 0, 2_700, 120))
    store.turns.put(Waiting("m0", 0, 2_700, 120))
    group = store.turns.group(0.0)
    assert sorted(each.machine for each in group) == ["hostile0", "m0"]
