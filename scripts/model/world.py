"""Random commands of a small world. They look at the book so far: so they are accepted, known and refused often."""
import json
import random
import typing

from . import book as records
from .commands import AddAircraft, AddComponent, Book, Defer, Item
from .texts import LAST_DAY, day_text, moment_text

TAILS = ["D-A", "D-B", "D-A1"]
SERIALS = ["S1", "S2", "S10", "S3"]
KINDS = ["K1", "K2"]
PARTS = ["P1", "P2"]
POSITIONS = ["X1", "X2", "X3"]
TASKS = ["T1", "T2", "T3", "T4", "T10"]
BASES = [19_800, 19_800, 19_782, 400, LAST_DAY - 40]  # days, of which the second are about a 29 February

Command = typing.Dict[str, typing.Any]


class World:
    """A source of commands: a seeded generator, the book that it looks at, and what was handed in."""

    def __init__(self, chance: random.Random, book: Book) -> None:
        self.chance, self.book = chance, book
        self.base = chance.choice(BASES)
        self.handed_in: typing.List[Command] = []
        self.docs = 0

    # ── choices ──

    def likely(self, percent: int) -> bool:
        return self.chance.randrange(100) < percent

    def one_of(self, likely: typing.Sequence[typing.Any], any_of: typing.Sequence[typing.Any]) -> typing.Any:
        return self.chance.choice(likely if likely and self.likely(92) else any_of)

    def added(self, kind: typing.Type[typing.Any]) -> typing.List[typing.Any]:
        return [entry.act for entry in self.book if isinstance(entry.act, kind)]

    def tails(self) -> typing.List[str]:
        return [act.tail for act in self.added(AddAircraft)]

    def tail(self) -> str:
        return self.one_of(self.tails(), TAILS)

    def serial(self) -> str:
        return self.one_of([act.serial for act in self.added(AddComponent)], SERIALS)

    def doc(self) -> str:
        self.docs += 1
        return f"W{self.chance.randint(1, self.docs)}" if self.likely(3) else f"W{self.docs}"

    def day(self) -> int:
        return min(LAST_DAY, self.base + self.chance.randint(0, 24))

    def moment_after(self, clock: int) -> int:
        """Mostly soon after a clock, at it, or a minute before it."""
        step = self.chance.choice([0, 0, 0, 1, 30, 60, 60, 600, 1440, -1])
        moment = clock + step if self.likely(90) else 1440 * self.day() + 30 * self.chance.randrange(48)
        return max(0, min(1440 * LAST_DAY + 1439, moment))

    def clock(self, item: Item) -> int:
        if item.tail is not None and item.tail in self.tails():
            return records.airframe_clock(self.book, item.tail)
        if records.component(self.book, item.serial) is not None:
            return records.component_clock(self.book, item.serial)
        return 1440 * self.base

    def task(self, kind: typing.Optional[str]) -> str:
        return self.one_of([task.name for task in records.tasks(self.book, kind)], TASKS)

    # ── commands ──

    def opening_use(self) -> Command:
        as_of = 1440 * self.base + self.chance.choice([0, 0, 0, 480])
        birth = max(0, self.base - self.chance.choice([0, 1, 10, 100, 390]))
        return {"birth": day_text(birth), "minutes": self.chance.choice([0, 59, 600, 1000]),
                "cycles": self.chance.choice([0, 5, 10]), "as_of": moment_text(as_of)}

    def add_aircraft(self) -> Command:
        names = self.chance.sample(POSITIONS, self.chance.randint(0, 3))
        positions = [{"position": name, "part": self.chance.choice(PARTS)} for name in names]
        new = [tail for tail in TAILS if tail not in self.tails()]
        return {"do": "add-aircraft", "doc": self.doc(), "tail": self.one_of(new, TAILS),
                "kind": self.chance.choice(KINDS), **self.opening_use(), "positions": positions}

    def add_component(self) -> Command:
        known = {act.serial for act in self.added(AddComponent)}
        return {"do": "add-component", "doc": self.doc(),
                "serial": self.one_of([serial for serial in SERIALS if serial not in known], SERIALS),
                "part": self.chance.choice(PARTS), **self.opening_use()}

    def opening(self) -> Command:
        item = {"tail": self.tail()} if self.likely(60) else {"serial": self.serial()}
        known = records.aircraft(self.book, item.get("tail"))
        kind = self.one_of([known.kind] if known else [], KINDS)
        return {"do": "opening", "doc": self.doc(), **item, "kind": kind, "task": self.task(kind),
                "minutes": self.chance.choice([0, 0, 30, 590, 2000]), "cycles": self.chance.choice([0, 0, 4, 20]),
                "day": day_text(max(0, self.base - self.chance.choice([0, 1, 5, 50, -1])))}

    def sector(self) -> Command:
        tail = self.tail()
        off = self.moment_after(self.clock(Item(tail=tail)))
        on = min(off + self.chance.choice([1, 30, 60, 125, 1440]), 1440 * LAST_DAY + 1439)
        return {"do": "sector", "tail": tail, "page": self.chance.randint(1, 4), "line": self.chance.randint(1, 5),
                "off": moment_text(min(off, on - 1)), "on": moment_text(on),
                "cycles": self.chance.choice([1, 1, 2, 50])}

    def fit(self) -> Command:
        tail, serial = self.tail(), self.serial()
        there, part = records.aircraft(self.book, tail), records.component(self.book, serial)
        taking = [name for name, taken in (there.positions if there else ()) if part and taken == part.part]
        clock = max(self.clock(Item(tail=tail)), self.clock(Item(serial=serial)))
        return {"do": "fit", "doc": self.doc(), "serial": serial, "tail": tail,
                "position": self.one_of(taking, POSITIONS), "moment": moment_text(self.moment_after(clock))}

    def remove(self) -> Command:
        spans = [span for span in records.spans(self.book) if span.end is None]
        span = self.chance.choice(spans) if spans and self.likely(90) else None
        clock = max(self.clock(Item(tail=span.tail)), self.clock(Item(serial=span.serial))) if span else 0
        return {"do": "remove", "doc": self.doc(), "serial": span.serial if span else self.serial(),
                "moment": moment_text(self.moment_after(clock))}

    def line(self, tail: typing.Optional[str], serial: typing.Optional[str], kind: typing.Optional[str]) -> Command:
        docs = [entry.doc for entry in self.book
                if isinstance(entry.act, Defer) and (entry.act.tail == tail or self.likely(20))]
        if self.likely(40 if docs else 2):
            return {"defect": self.one_of(docs, [f"W{n}" for n in range(1, 30)])}
        there = [span.serial for span in records.spans(self.book) if span.end is None and span.tail == tail]
        items = [Item(tail=tail)] if tail else [Item(serial=serial)]
        items += [Item(serial=own) for own in there if tail]
        others = [Item(serial=self.serial()), Item(tail=self.tail())]
        item = self.chance.choice(items if self.likely(85) else others)
        tasks = [task.name for task in records.tasks(self.book, kind) if records.applies(self.book, task, item)]
        named = {"tail": item.tail} if item.tail else {"serial": item.serial}
        return {"task": self.one_of(tasks, TASKS), **named}

    def release(self) -> Command:
        if self.likely(70):
            tail, serial = self.tail(), None
            known = records.aircraft(self.book, tail)
            kind = known.kind if known else None
            place: Command = {"tail": tail}
        else:
            tail, serial, kind = None, self.serial(), self.chance.choice(KINDS)
            place = {"serial": serial, "kind": kind}
        lines = [self.line(tail, serial, kind) for _ in range(self.chance.choice([1, 1, 2, 3]))]
        moment = self.moment_after(self.clock(Item(tail, serial)))
        return {"do": "release", "doc": self.doc(), **place, "moment": moment_text(moment), "lines": lines}

    def defer(self) -> Command:
        tail, category = self.tail(), self.chance.choice("ABBCCD")
        days = {"days": self.chance.choice([1, 2, 30])} if category == "A" else {}
        return {"do": "defer", "doc": self.doc(), "tail": tail,
                "moment": moment_text(self.moment_after(self.clock(Item(tail=tail)))),
                "reference": self.chance.choice(["21-31-01", "32-10-01"]), "category": category, **days}

    def extend(self) -> Command:
        found = [entry for entry in self.book if isinstance(entry.act, Defer)]
        chosen = self.chance.choice(found) if found and self.likely(96) else None
        day = chosen.act.moment // 1440 if chosen and isinstance(chosen.act, Defer) else self.day()
        day = max(0, min(LAST_DAY, day + self.chance.choice([0, 0, 1, 1, 2, 4, 11, -1])))
        return {"do": "extend", "doc": self.doc(), "defect": chosen.doc if chosen else self.doc(),
                "day": day_text(day), "days": self.chance.choice([1, 2, 3, 3, 4, 10, 120])}

    def again(self) -> Command:
        """A command once more, now and then with a change."""
        command = dict(self.chance.choice(self.handed_in))
        keys = [key for key in command if isinstance(command[key], int)]
        if keys and self.likely(40):
            key = self.chance.choice(keys)
            command[key] += 1 if command[key] < 50 else -1
        return command

    def command(self) -> Command:
        small = len(self.tails()) < 2 or not self.added(AddComponent)
        if self.handed_in and self.likely(6):
            return self.again()
        weights = {self.add_aircraft: 30 if small else 2, self.add_component: 25 if small else 4, self.opening: 14,
                   self.sector: 16, self.fit: 14, self.remove: 6, self.release: 18, self.defer: 10,
                   self.extend: 12 if self.added(Defer) else 1}
        command = self.chance.choices(list(weights), list(weights.values()))[0]()
        self.handed_in.append(command)
        return command

    # ── programmes and logs ──

    def limit(self) -> typing.Dict[str, int]:
        found = {"hours": self.chance.choice([1, 2, 12, 17, 20, 40]), "cycles": self.chance.choice([3, 10, 12, 60]),
                 "days": self.chance.choice([5, 10, 100, 395, 400, 500])}
        return {key: found[key] for key in self.chance.sample(list(found), self.chance.choice([1, 1, 2, 3]))}

    def programme(self) -> typing.Dict[str, typing.Any]:
        """The table of a programme."""
        kind = self.chance.choice(KINDS)
        before = records.programme(self.book, kind)
        revision = (before.revision + 1 if before else 1) if self.likely(90) else self.chance.randint(1, 4)
        tasks = []
        for name in self.chance.sample(TASKS, self.chance.randint(1, 5)):
            task: typing.Dict[str, typing.Any] = {"id": name, "first": self.limit()}
            task["applies"] = self.chance.choice(["airframe", "airframe", *(f"part:{part}" for part in PARTS)])
            if self.likely(12):
                task["retire"] = True
            elif self.likely(75):
                task["repeat"] = self.limit()
            if "retire" not in task and self.likely(50):
                task["tolerance"] = self.limit()
            tasks.append(task)
        return {"kind": kind, "revision": revision, "task": tasks}

    def log(self) -> bytes:
        rows = [self.sector() for _ in range(self.chance.randint(0, 4))]
        keys = ("tail", "page", "line", "off", "on", "cycles")
        lines = [",".join(keys), *(",".join(str(row[key]) for key in keys) for row in rows)]
        return "".join(f"{line}\n" for line in lines).encode()


def toml_of(value: typing.Any) -> str:
    if isinstance(value, dict):
        return "{ " + ", ".join(f"{key} = {toml_of(inner)}" for key, inner in value.items()) + " }" if value else "{}"
    return json.dumps(value)


def programme_text(table: typing.Dict[str, typing.Any]) -> bytes:
    lines = [f"{key} = {toml_of(value)}" for key, value in table.items() if key != "task"]
    for task in table["task"]:
        lines += ["[[task]]", *(f"{key} = {toml_of(value)}" for key, value in task.items())]
    return "".join(f"{line}\n" for line in lines).encode()
