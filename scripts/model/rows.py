"""The rows that a file has of a list of entries, table by table, and a command in the words of a case."""
import typing

from . import book as records
from .commands import (
    Act, AddAircraft, AddComponent, Book, Defer, Entry, Extend, Fit, Item, Line, Load, Opening, Place, Release, Remove,
    Sector, Task, Three,
)
from .texts import day_text, moment_text

Cell = typing.Union[int, str, None]
Row = typing.Tuple[Cell, ...]
Tables = typing.Dict[str, typing.List[Row]]

# The tables of a file of layout 2 by their names, and the row of the one that no entry has rows in.
TABLES = [
    "aircraft", "base2", "component", "crs", "crs_line", "defect", "entry", "extension", "office", "opening", "place",
    "programme", "sector2", "span2", "task", "total2",
]
OWN_ROW: Row = (1, 2, 0, 0)

KINDS = [AddAircraft, AddComponent, Load, Opening, Sector, Fit, Remove, Release, Defer, Extend]
CATEGORIES = ["A", "B", "C", "D"]


# ── numbers ──


def number_of(book: Book, name: typing.Union[Item, str]) -> int:
    """The entry that added an item, or that deferred the defect with a document."""
    for number, entry in enumerate(book, 1):
        act = entry.act
        if isinstance(name, str):
            found = isinstance(act, Defer) and entry.doc == name
        elif name.tail is not None:
            found = isinstance(act, AddAircraft) and act.tail == name.tail
        else:
            found = isinstance(act, AddComponent) and act.serial == name.serial
        if found:
            return number
    raise KeyError(name)


def place_item(place: Place) -> Item:
    return Item(tail=place.tail) if place.tail is not None else Item(serial=place.serial)


# ── what each entry says ──


def task_row(number: int, line: int, task: Task) -> Row:
    nothing: Three = (None, None, None)
    return (number, line, task.name, task.part, int(task.retire), *task.first, *(task.repeat or nothing), *task.tolerance)


def line_row(book: Book, number: int, place: int, line: Line) -> Row:
    if line.defect is not None:
        return number, place, None, None, number_of(book, line.defect)
    assert line.item is not None
    return number, place, number_of(book, line.item), line.task, None


def rows_said(book: Book, number: int, act: Act) -> typing.List[typing.Tuple[str, Row]]:
    """The rows of the tables of an entry's kind, by their tables; spans aside."""
    if isinstance(act, AddAircraft):
        places = [("place", (number, line, *place)) for line, place in enumerate(act.positions, 1)]
        return [("aircraft", (number, act.tail, act.kind, act.birth, act.minutes, act.cycles, act.as_of)), *places]
    if isinstance(act, AddComponent):
        return [("component", (number, act.serial, act.part, act.birth, act.minutes, act.cycles, act.as_of))]
    if isinstance(act, Load):
        tasks = [("task", task_row(number, line, task)) for line, task in enumerate(act.tasks, 1)]
        return [("programme", (number, act.kind, act.revision)), *tasks]
    if isinstance(act, Opening):
        item = number_of(book, act.item)
        return [("opening", (number, item, act.kind, act.task, act.minutes, act.cycles, act.day))]
    if isinstance(act, Sector):
        aircraft = number_of(book, Item(tail=act.tail))
        return [("sector2", (number, aircraft, act.page, act.line, act.off, act.on, act.cycles))]
    if isinstance(act, Release):
        lines = [("crs_line", line_row(book, number, place, line)) for place, line in enumerate(act.lines, 1)]
        place = number_of(book, place_item(act.place))
        return [("crs", (number, place, act.place.kind, act.moment)), *lines]
    if isinstance(act, Defer):
        aircraft = number_of(book, Item(tail=act.tail))
        category = CATEGORIES.index(act.category) + 1
        return [("defect", (number, aircraft, act.moment, act.reference, category, act.days))]
    if isinstance(act, Extend):
        return [("extension", (number, number_of(book, act.defect), act.day, act.days))]
    return []


# ── what is kept beside them ──


def span_rows(book: Book) -> typing.List[Row]:
    found: typing.Dict[int, typing.List[Cell]] = {}
    for number, entry in enumerate(book, 1):
        act = entry.act
        if isinstance(act, Fit):
            component, aircraft = number_of(book, Item(serial=act.serial)), number_of(book, Item(tail=act.tail))
            found[number] = [number, component, aircraft, act.position, act.moment, None, None]
        elif isinstance(act, Remove):
            component = number_of(book, Item(serial=act.serial))
            [span] = [span for span in found.values() if span[1] == component and span[5] is None]
            span[5:] = [number, act.moment]
    return [tuple(span) for span in found.values()]


def items_of(book: Book) -> typing.List[typing.Tuple[int, Item]]:
    """The aircraft and components with the numbers of their entries."""
    found = []
    for number, entry in enumerate(book, 1):
        if isinstance(entry.act, AddAircraft):
            found.append((number, Item(tail=entry.act.tail)))
        elif isinstance(entry.act, AddComponent):
            found.append((number, Item(serial=entry.act.serial)))
    return found


def clock_of(book: Book, item: Item) -> int:
    return (records.airframe_clock(book, item.tail) if item.tail is not None
            else records.component_clock(book, item.serial))


def tasks_done(book: Book, item: Item) -> typing.List[str]:
    """The tasks of an item that were accomplished, each once."""
    found: typing.Dict[str, None] = {}
    for entry in book:
        if isinstance(entry.act, Opening) and entry.act.item == item:
            found[entry.act.task] = None
        for line in records.lines_of(entry):
            if line.item == item and line.task is not None:
                found[line.task] = None
    return list(found)


def rows_of(book: Book) -> Tables:
    """All rows but that of the table `office`."""
    tables: Tables = {"entry": [(number, entry.doc, KINDS.index(type(entry.act)) + 1)
                                for number, entry in enumerate(book, 1)]}
    for number, entry in enumerate(book, 1):
        for table, row in rows_said(book, number, entry.act):
            tables.setdefault(table, []).append(row)
    items = items_of(book)
    tables["span2"] = span_rows(book)
    tables["total2"] = [(number, *records.life(book, item), clock_of(book, item)) for number, item in items]
    tables["base2"] = [(number, task, *(records.base_of(book, item, task) or ()))
                       for number, item in items for task in tasks_done(book, item)]
    return tables


def old_rows_of(book: Book) -> Tables:
    """All rows that layout 1 has but that of the table `office`: none are kept, and flights and fittings have texts for
    moments."""
    tables = {name: rows for name, rows in rows_of(book).items() if not name.endswith("2")}
    for number, entry in enumerate(book, 1):
        act = entry.act
        if isinstance(act, Sector):
            aircraft, moments = number_of(book, Item(tail=act.tail)), (moment_text(act.off), moment_text(act.on))
            tables.setdefault("sector1", []).append((number, aircraft, act.page, act.line, *moments, act.cycles))
        elif isinstance(act, Fit):
            component, aircraft = number_of(book, Item(serial=act.serial)), number_of(book, Item(tail=act.tail))
            tables.setdefault("fit1", []).append((number, component, aircraft, act.position, moment_text(act.moment)))
        elif isinstance(act, Remove):
            component = number_of(book, Item(serial=act.serial))
            tables.setdefault("removal1", []).append((number, component, moment_text(act.moment)))
    return tables


def shown_row(row: Row) -> str:
    return " ".join("null" if cell is None else str(cell) for cell in row)


def shown(book: Book) -> str:
    """All rows of all tables, each table's in the order of its first two columns, as the player of an office shows them."""
    tables = {**rows_of(book), "office": [OWN_ROW]}
    texts = {name: " / ".join(map(shown_row, sorted(tables.get(name, []), key=lambda row: row[:2]))) for name in TABLES}
    return " // ".join(f"{name}: {text or 'none'}" for name, text in texts.items())


# ── the words of a case ──


def three_words(limit: typing.Optional[Three]) -> str:
    return "-" if limit is None else "/".join("-" if number is None else str(number) for number in limit)


def task_words(task: Task) -> str:
    applies = "airframe" if task.part is None else f"part:{task.part}"
    tolerance = "/".join(map(str, task.tolerance))
    retire = ",retire" if task.retire else ""
    return f"{task.name}={applies},{three_words(task.first)},{three_words(task.repeat)},{tolerance}{retire}"


def item_words(item: Item) -> typing.Tuple[str, str]:
    return ("airframe", item.tail) if item.tail is not None else ("component", str(item.serial))


def line_words(line: Line) -> str:
    if line.defect is not None:
        return f"defect:{line.defect}"
    assert line.item is not None
    return f"{':'.join(item_words(line.item))}={line.task}"


def words_of(entry: Entry) -> str:
    """The command of an entry, as the players read it."""
    doc, act = entry.doc, entry.act
    words: typing.List[typing.Any] = []
    if isinstance(act, (AddAircraft, AddComponent)):
        own = ["aircraft", doc, act.tail, act.kind] if isinstance(act, AddAircraft) else ["component", doc, act.serial, act.part]
        places = [f"{name}={part}" for name, part in act.positions] if isinstance(act, AddAircraft) else []
        words = [*own, day_text(act.birth), act.minutes, act.cycles, moment_text(act.as_of), *places]
    elif isinstance(act, Load):
        words = ["programme", doc, act.kind, act.revision, *map(task_words, act.tasks)]
    elif isinstance(act, Opening):
        words = ["opening", doc, *item_words(act.item), act.kind, act.task, act.minutes, act.cycles, day_text(act.day)]
    elif isinstance(act, Sector):
        words = ["sector", act.tail, act.page, act.line, moment_text(act.off), moment_text(act.on), act.cycles]
    elif isinstance(act, Fit):
        words = ["fit", doc, act.serial, act.tail, act.position, moment_text(act.moment)]
    elif isinstance(act, Remove):
        words = ["remove", doc, act.serial, moment_text(act.moment)]
    elif isinstance(act, Release):
        at = (["aircraft", act.place.tail] if act.place.tail is not None
              else ["shop", act.place.serial, act.place.kind])
        words = ["release", doc, *at, moment_text(act.moment), *map(line_words, act.lines)]
    elif isinstance(act, Defer):
        stated = [] if act.days is None else [act.days]
        words = ["defer", doc, act.tail, moment_text(act.moment), act.reference, act.category, *stated]
    elif isinstance(act, Extend):
        words = ["extend", doc, act.defect, day_text(act.day), act.days]
    return " ".join(map(str, words))
