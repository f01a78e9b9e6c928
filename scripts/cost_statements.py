"""The statements that the office makes for commands that it accepts, as SQLite's own program runs them beside it.

scripts/measure-cost has them run. They are asked of a copy in memory and written into it, so that each finds what the
ones before have left. A command is one transaction: what its verdict asks, what its rows ask, and then what it
writes, in the order of the office. What a row that is kept beside the entries becomes is counted here anew, so that
the files differ in the end where the office counts otherwise.
"""
import contextlib
import pathlib
import sqlite3
import typing

from cost_sql import copy_of
from model.commands import (
    Act, AddAircraft, AddComponent, Defer, Entry, Extend, Fit, Item, Line, Load, Opening, Release, Remove, Sector,
)
from model.rows import CATEGORIES, KINDS, task_row
from office_facts import COLUMNS

Row = typing.Any  # of sqlite3, by the names of its columns
OPEN = " AND remove_seq IS NULL"  # of spans


def names_of(columns: str) -> typing.List[str]:
    """The names of the columns of a table."""
    return [it.split()[0] for it in columns.split(", PRIMARY KEY (")[0].split(", ")]


def key_of(columns: str) -> typing.List[str]:
    """The names of the columns of its primary key."""
    _, _, several = columns.partition(", PRIMARY KEY (")
    return several.rstrip(")").split(", ") if several else names_of(columns)[:1]


NAMES = {table: names_of(columns) for table, columns in COLUMNS.items()}
KEYS = {table: key_of(columns) for table, columns in COLUMNS.items()}


def literal(value: object) -> str:
    if value is None:
        return "NULL"
    return str(value) if isinstance(value, int) else "'{}'".format(str(value).replace("'", "''"))


class Statements:
    """The statements of one command after the other, a line of text for each, behind the rows of a file."""

    def __init__(self, file: pathlib.Path) -> None:
        self.conn = sqlite3.connect(":memory:", isolation_level=None)
        with contextlib.closing(sqlite3.connect(copy_of(file, file.with_name("read.db")))) as source:
            source.backup(self.conn)
        self.conn.row_factory = sqlite3.Row
        self.said: typing.List[str] = []
        self.entry: Entry  # that the statements are of

    def run(self, text: str, *values: object) -> typing.List[Row]:
        self.said.append(text.replace("?", "{}").format(*map(literal, values)))
        return self.conn.execute(text, values).fetchall()

    # ── what is asked ──

    def chosen(self, table: str, more: str = "", **by: object) -> typing.List[Row]:
        """The rows with these values in these columns."""
        values = " AND ".join(f"{name} = ?" for name in by)
        names, key = ", ".join(NAMES[table]), ", ".join(KEYS[table])
        return self.run(f"SELECT {names} FROM {table} WHERE {values}{more} ORDER BY {key}", *by.values())

    def last(self) -> int:
        rows = self.run("SELECT seq, doc, kind FROM entry ORDER BY seq DESC LIMIT 1")
        return rows[0]["seq"] if rows else 0

    def aircraft(self, tail: str) -> Row:
        return self.chosen("aircraft", tail=tail)[0]

    def component(self, serial: str) -> Row:
        return self.chosen("component", serial=serial)[0]

    def item(self, item: Item) -> Row:
        """The row of an aircraft or a component."""
        return self.aircraft(item.tail) if item.tail is not None else self.component(str(item.serial))

    def total(self, number: int) -> Row:
        return self.chosen("total2", item=number)[0]

    def totals(self, *numbers: int) -> typing.List[Row]:
        return [self.total(number) for number in sorted(set(numbers))]

    def life(self, item: Item) -> Row:
        """Its total, which has its clock too."""
        return self.total(self.item(item)["seq"])

    def tasks(self, kind: str) -> typing.List[Row]:
        return self.chosen("task", seq=self.chosen("programme", kind=kind)[-1]["seq"])

    def base(self, item: Item, task: object) -> typing.List[Row]:
        return self.chosen("base2", item=self.item(item)["seq"], task=task)

    def fitted(self, serial: str) -> typing.List[Row]:
        """Where it is fitted: its open span."""
        return self.chosen("span2", OPEN, component=self.component(serial)["seq"])

    def tail_fitted(self, serial: str) -> str:
        return self.chosen("aircraft", seq=self.fitted(serial)[0]["aircraft"])[0]["tail"]

    def defect(self, doc: str) -> int:
        return self.chosen("entry", doc=doc)[0]["seq"]

    # ── what is written ──

    def insert(self, table: str, *values: object) -> None:
        places = ", ".join("?" * len(values))
        self.run(f"INSERT INTO {table} ({', '.join(NAMES[table])}) VALUES ({places})", *values)

    def replace(self, table: str, *values: object) -> None:
        """Deletes the row with the key of this one, and writes this one."""
        key = KEYS[table]
        self.run(f"DELETE FROM {table} WHERE {' AND '.join(f'{name} = ?' for name in key)}", *values[:len(key)])
        self.insert(table, *values)

    def clock(self, totals: typing.List[Row], moment: int) -> None:
        for it in totals:
            self.replace("total2", it["item"], it["minutes"], it["cycles"], moment)

    # ── commands: each asks for its verdict, then for its rows, and writes them behind that of its entry ──

    def of(self, entry: Entry) -> str:
        """The transaction of a command."""
        self.said, self.entry = [], entry
        self.run("BEGIN")
        self.last()
        self.chosen("entry", doc=entry.doc)
        self.last()
        COMMANDS[type(entry.act)](self, entry.act)
        self.run("COMMIT")
        return "; ".join([*self.said, ""])

    def of_all(self, entries: typing.Iterable[Entry]) -> str:
        """The transactions of these commands, each synced."""
        return "\n".join(["PRAGMA synchronous = FULL;", *map(self.of, entries), ""])

    def next(self) -> int:
        return self.last() + 1

    def begin(self, seq: int) -> None:
        """Writes the row of the entry."""
        self.insert("entry", seq, self.entry.doc, KINDS.index(type(self.entry.act)) + 1)

    def add_aircraft(self, act: AddAircraft) -> None:
        self.run("SELECT count(*) FROM aircraft")
        self.chosen("aircraft", tail=act.tail)
        seq = self.next()
        self.begin(seq)
        self.insert("aircraft", seq, act.tail, act.kind, act.birth, act.minutes, act.cycles, act.as_of)
        for line, place in enumerate(act.positions, 1):
            self.insert("place", seq, line, *place)
        self.insert("total2", seq, act.minutes, act.cycles, act.as_of)

    def add_component(self, act: AddComponent) -> None:
        self.run("SELECT count(*) FROM component")
        self.chosen("component", serial=act.serial)
        seq = self.next()
        self.begin(seq)
        self.insert("component", seq, act.serial, act.part, act.birth, act.minutes, act.cycles, act.as_of)
        self.insert("total2", seq, act.minutes, act.cycles, act.as_of)

    def programme(self, act: Load) -> None:
        self.chosen("programme", kind=act.kind)
        seq = self.next()
        self.begin(seq)
        self.insert("programme", seq, act.kind, act.revision)
        for line, task in enumerate(act.tasks, 1):
            self.insert("task", *task_row(seq, line, task))

    def opening(self, act: Opening) -> None:
        self.item(act.item)
        self.tasks(act.kind)
        self.item(act.item)
        self.base(act.item, act.task)
        seq, item = self.next(), self.item(act.item)["seq"]
        self.begin(seq)
        self.replace("base2", item, act.task, act.minutes, act.cycles, act.day)
        self.insert("opening", seq, item, act.kind, act.task, act.minutes, act.cycles, act.day)

    def sector(self, act: Sector) -> None:
        self.aircraft(act.tail)
        self.life(Item(tail=act.tail))
        seq, aircraft = self.next(), self.aircraft(act.tail)["seq"]
        throughout = [
            span["component"] for span in self.chosen("span2", aircraft=aircraft)
            if span["from_min"] <= act.off and (span["to_min"] is None or act.on <= span["to_min"])
        ]
        totals = self.totals(aircraft, *throughout)
        self.begin(seq)
        for had in totals:
            clock = act.on if had["item"] == aircraft else had["clock"]
            self.replace("total2", had["item"], had["minutes"] + act.on - act.off, had["cycles"] + act.cycles, clock)
        self.insert("sector2", seq, aircraft, act.page, act.line, act.off, act.on, act.cycles)

    def fit(self, act: Fit) -> None:
        airframe, item = Item(tail=act.tail), Item(serial=act.serial)
        kind = self.item(airframe)["kind"]
        self.item(item)
        self.chosen("place", seq=self.item(airframe)["seq"])
        self.chosen("span2", OPEN, aircraft=self.item(airframe)["seq"])
        self.fitted(act.serial)
        self.item(item)
        self.life(item)
        self.tasks(kind)
        self.life(airframe)
        self.life(item)
        seq, component, aircraft = self.next(), self.item(item)["seq"], self.item(airframe)["seq"]
        totals = self.totals(aircraft, component)
        self.begin(seq)
        self.clock(totals, act.moment)
        self.insert("span2", seq, component, aircraft, act.position, act.moment, None, None)

    def remove(self, act: Remove) -> None:
        self.component(act.serial)
        self.life(Item(tail=self.tail_fitted(act.serial)))
        self.life(Item(serial=act.serial))
        seq, component = self.next(), self.component(act.serial)["seq"]
        span = self.chosen("span2", OPEN, component=component)[0]
        totals = self.totals(component, span["aircraft"])
        self.begin(seq)
        self.replace("span2", *span[:5], seq, act.moment)
        self.clock(totals, act.moment)

    def release(self, act: Release) -> None:
        """Of work at an aircraft, none of which is done after it was due."""
        place = Item(tail=act.place.tail)
        self.item(place)
        kind = self.item(place)["kind"]
        self.life(place)
        for line in act.lines:
            self.judge_line(kind, line)
        seq, aircraft = self.next(), self.item(place)["seq"]
        self.item(place)
        known = [self.known_line(kind, line) for line in act.lines]
        totals = self.totals(aircraft)
        self.begin(seq)
        self.clock(totals, act.moment)
        for line, life, _ in known:
            if life:
                self.replace("base2", life["item"], line.task, life["minutes"], life["cycles"], act.moment // 1440)
        self.insert("crs", seq, aircraft, None, act.moment)
        for nth, (line, life, defect) in enumerate(known, 1):
            self.insert("crs_line", seq, nth, life and life["item"], line.task, defect)

    def judge_line(self, kind: str, line: Line) -> None:
        if line.defect is not None:
            defect = self.chosen("defect", seq=self.defect(line.defect))[0]
            self.chosen("aircraft", seq=defect["aircraft"])
            self.chosen("crs_line", defect=self.defect(line.defect))
            return
        assert line.item is not None
        self.item(line.item)
        self.tasks(kind)
        self.item(line.item)
        if line.item.serial is not None:
            self.tail_fitted(line.item.serial)
        self.base(line.item, line.task)

    def known_line(self, kind: str, line: Line) -> typing.Tuple[Line, typing.Optional[Row], typing.Optional[int]]:
        """The line with the life of the item on which a task was done, or with the number of its defect."""
        if line.defect is not None:
            return line, None, self.defect(line.defect)
        assert line.item is not None
        self.item(line.item)
        life = self.life(line.item)
        self.item(line.item)
        self.base(line.item, line.task)
        self.tasks(kind)
        return line, life, None

    def defer(self, act: Defer) -> None:
        self.aircraft(act.tail)
        self.life(Item(tail=act.tail))
        seq, aircraft = self.next(), self.aircraft(act.tail)["seq"]
        totals = self.totals(aircraft)
        self.begin(seq)
        self.clock(totals, act.moment)
        category = CATEGORIES.index(act.category) + 1
        self.insert("defect", seq, aircraft, act.moment, act.reference, category, act.days)

    def extend(self, act: Extend) -> None:
        deferred = self.chosen("defect", seq=self.defect(act.defect))[0]
        self.chosen("aircraft", seq=deferred["aircraft"])
        self.chosen("crs_line", defect=self.defect(act.defect))
        self.chosen("extension", defect=self.defect(act.defect))
        self.chosen("extension", defect=self.defect(act.defect))
        seq, defect = self.next(), self.defect(act.defect)
        self.begin(seq)
        self.insert("extension", seq, defect, act.day, act.days)


# A further command has its statements here.
COMMANDS: typing.Dict[typing.Type[Act], typing.Callable[[Statements, typing.Any], None]] = {
    AddAircraft: Statements.add_aircraft,
    AddComponent: Statements.add_component,
    Load: Statements.programme,
    Opening: Statements.opening,
    Sector: Statements.sector,
    Fit: Statements.fit,
    Remove: Statements.remove,
    Release: Statements.release,
    Defer: Statements.defer,
    Extend: Statements.extend,
}
