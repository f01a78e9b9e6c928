"""What a list of entries says: lives, clocks, fittings, programmes, accomplishments and dues, defects."""
import typing

from .commands import (
    AddAircraft, AddComponent, Amounts, Book, Defer, Entry, Extend, Fit, Item, Line, Load, Opening, Place, Release,
    Remove, Sector, Task, Three,
)

INTERVALS = {"B": 3, "C": 10, "D": 120}


class Span(typing.NamedTuple):
    """A component in a position of an aircraft, from its fitting to its removal; open while it is not removed."""

    serial: str
    tail: str
    position: str
    start: int
    end: typing.Optional[int]


# ── the registers ──


def aircraft(book: Book, tail: typing.Optional[str]) -> typing.Optional[AddAircraft]:
    found = (entry.act for entry in book if isinstance(entry.act, AddAircraft) and entry.act.tail == tail)
    return next(found, None)


def component(book: Book, serial: typing.Optional[str]) -> typing.Optional[AddComponent]:
    found = (entry.act for entry in book if isinstance(entry.act, AddComponent) and entry.act.serial == serial)
    return next(found, None)


def brought(book: Book, item: Item) -> typing.Union[AddAircraft, AddComponent]:
    """What is known of an item that there is."""
    found = aircraft(book, item.tail) if item.tail is not None else component(book, item.serial)
    assert found is not None
    return found


# ── fittings ──


def spans(book: Book) -> typing.List[Span]:
    found = []
    for place, entry in enumerate(book):
        act = entry.act
        if isinstance(act, Fit):
            later = (e.act.moment for e in book[place:] if isinstance(e.act, Remove) and e.act.serial == act.serial)
            found.append(Span(act.serial, act.tail, act.position, act.moment, next(later, None)))
    return found


def fitted(book: Book, serial: typing.Optional[str]) -> typing.Optional[Span]:
    """Where a component is fitted."""
    return next((span for span in spans(book) if span.serial == serial and span.end is None), None)


# ── lives and clocks ──


def is_within(sector: Sector, span: Span) -> bool:
    return sector.tail == span.tail and sector.off >= span.start and (span.end is None or sector.on <= span.end)


def credited(book: Book, item: Item) -> typing.List[Sector]:
    sectors = [entry.act for entry in book if isinstance(entry.act, Sector)]
    if item.tail is not None:
        return [sector for sector in sectors if sector.tail == item.tail]
    own = [span for span in spans(book) if span.serial == item.serial]
    return [sector for sector in sectors if any(is_within(sector, span) for span in own)]


def life(book: Book, item: Item, until: typing.Optional[int] = None) -> typing.Tuple[int, int]:
    """The minutes and cycles of an item: what it brought, and the credited sectors that had landed by then."""
    opening = brought(book, item)
    flown = [sector for sector in credited(book, item) if until is None or sector.on <= until]
    return (opening.minutes + sum(sector.on - sector.off for sector in flown),
            opening.cycles + sum(sector.cycles for sector in flown))


def airframe_clock(book: Book, tail: typing.Optional[str]) -> int:
    moments = [span.end for span in spans(book) if span.tail == tail and span.end is not None]
    for entry in book:
        act = entry.act
        if isinstance(act, AddAircraft) and act.tail == tail:
            moments.append(act.as_of)
        elif isinstance(act, Sector) and act.tail == tail:
            moments.append(act.on)
        elif isinstance(act, (Fit, Defer)) and act.tail == tail:
            moments.append(act.moment)
        elif isinstance(act, Release) and act.place.tail == tail:
            moments.append(act.moment)
    return max(moments)


def component_clock(book: Book, serial: typing.Optional[str]) -> int:
    moments = []
    for entry in book:
        act = entry.act
        if isinstance(act, AddComponent) and act.serial == serial:
            moments.append(act.as_of)
        elif isinstance(act, (Fit, Remove)) and act.serial == serial:
            moments.append(act.moment)
        elif isinstance(act, Release) and act.place.serial == serial:
            moments.append(act.moment)
    return max(moments)


# ── programmes ──


def programme(book: Book, kind: typing.Optional[str]) -> typing.Optional[Load]:
    """The programme in force of a kind: the last that was loaded."""
    loaded = [entry.act for entry in book if isinstance(entry.act, Load) and entry.act.kind == kind]
    return loaded[-1] if loaded else None


def tasks(book: Book, kind: typing.Optional[str]) -> typing.List[Task]:
    found = programme(book, kind)
    return [] if found is None else list(found.tasks)


def task_in_force(book: Book, kind: typing.Optional[str], name: typing.Optional[str]) -> typing.Optional[Task]:
    return next((task for task in tasks(book, kind) if task.name == name), None)


def applies(book: Book, task: Task, item: Item) -> bool:
    if item.tail is not None:
        return task.part is None
    known = component(book, item.serial)
    return known is not None and task.part == known.part


def kind_at(book: Book, place: Place) -> typing.Optional[str]:
    """The kind by whose programme work at a place is done."""
    if place.tail is None:
        return place.kind
    there = aircraft(book, place.tail)
    return None if there is None else there.kind


# ── accomplishments and dues ──


def lines_of(entry: Entry) -> typing.Tuple[Line, ...]:
    return entry.act.lines if isinstance(entry.act, Release) else ()


def certifies(line: Line, item: Item, name: str) -> bool:
    return line.task == name and line.item == item


def is_accomplished(book: Book, item: Item, name: str) -> bool:
    for entry in book:
        act = entry.act
        if isinstance(act, Opening) and act.item == item and act.task == name:
            return True
        if any(certifies(line, item, name) for line in lines_of(entry)):
            return True
    return False


def counted(limit: Three, base: Amounts) -> Three:
    """A limit counted from a base, in the dimensions that it has."""
    return tuple(None if number is None else number + start for number, start in zip(limit, base))  # type: ignore


def first_due(task: Task, birth: int) -> Three:
    return counted(task.first, (0, 0, birth))


def due_after(task: Task, birth: int, base: typing.Optional[Amounts]) -> typing.Optional[Three]:
    if base is None or task.retire:
        return first_due(task, birth)
    return None if task.repeat is None else counted(task.repeat, base)


def base_of(book: Book, item: Item, name: str) -> typing.Optional[Amounts]:
    """What the next due of a task is counted from, by its accomplishments one after the other."""
    base: typing.Optional[Amounts] = None
    birth = brought(book, item).birth
    for place, entry in enumerate(book):
        act = entry.act
        if isinstance(act, Opening) and act.item == item and act.task == name:
            base = act.minutes, act.cycles, act.day
        for line in lines_of(entry):
            if certifies(line, item, name) and isinstance(act, Release):
                then = task_in_force(book[:place], kind_at(book, act.place), name)
                due = None if then is None else due_after(then, birth, base)
                reached = (*life(book, item, act.moment), act.moment // 1440)
                base = reached if due is None else tuple(map(lesser, reached, due))  # type: ignore
    return base


def lesser(number: int, due: typing.Optional[int]) -> int:
    return number if due is None else min(number, due)


def due_of(book: Book, item: Item, task: Task) -> typing.Optional[Three]:
    """When a task that applies to an item is due, where it is."""
    return due_after(task, brought(book, item).birth, base_of(book, item, task.name))


def left_until(due: Three, reached: Amounts) -> Three:
    return tuple(None if end is None else end - number for end, number in zip(due, reached))  # type: ignore


def is_at_end(book: Book, item: Item, task: Task, day: int) -> bool:
    """The task retires the item, and by its life now and this day nothing is left in some dimension."""
    if not task.retire or not applies(book, task, item):
        return False
    left = left_until(first_due(task, brought(book, item).birth), (*life(book, item), day))
    return any(number is not None and number <= 0 for number in left)


# ── deferred defects ──


def defect(book: Book, doc: typing.Optional[str]) -> typing.Optional[Defer]:
    return next((entry.act for entry in book if isinstance(entry.act, Defer) and entry.doc == doc), None)


def is_rectified(book: Book, doc: str) -> bool:
    return any(line.defect == doc for entry in book for line in lines_of(entry))


def extended(book: Book, doc: str) -> int:
    """The days by which the interval of a defect was extended."""
    found = (entry.act.days for entry in book if isinstance(entry.act, Extend) and entry.act.defect == doc)
    return next(found, 0)


def interval(found: Defer) -> int:
    return found.days if found.days is not None else INTERVALS[found.category]


def last_permitted(book: Book, doc: str) -> int:
    found = defect(book, doc)
    assert found is not None
    return found.moment // 1440 + interval(found) + extended(book, doc)


def open_defects(book: Book, tail: str) -> typing.List[typing.Tuple[str, Defer]]:
    """The open defects of an aircraft by their documents, in the order of their entries."""
    return [(entry.doc, entry.act) for entry in book
            if isinstance(entry.act, Defer) and entry.act.tail == tail and not is_rectified(book, entry.doc)]
