"""The verdict on a command: what it is answered, by the entries before it."""
import typing

from . import book as records
from .commands import (
    Act, AddAircraft, AddComponent, Book, Defer, Entry, Extend, Fit, Item, Line, Load, Opening, Release, Remove, Sector,
)
from .texts import day_text, moment_text

# A refusal that applies gives what it carries beside its number, as text.
Carried = typing.Optional[str]
PLAIN = ""


def when(applies: bool) -> Carried:
    return PLAIN if applies else None


def work(act: Act) -> typing.List[Line]:
    """The lines of a release that certify a task."""
    return [line for line in act.lines if line.defect is None] if isinstance(act, Release) else []


def named_defects(act: Act) -> typing.List[str]:
    if isinstance(act, Extend):
        return [act.defect]
    return [line.defect for line in act.lines if line.defect is not None] if isinstance(act, Release) else []


def named_items(act: Act) -> typing.List[Item]:
    """The airframes and components that a command names."""
    if isinstance(act, Opening):
        return [act.item]
    if isinstance(act, (Sector, Defer)):
        return [Item(tail=act.tail)]
    if isinstance(act, Fit):
        return [Item(tail=act.tail), Item(serial=act.serial)]
    if isinstance(act, Remove):
        return [Item(serial=act.serial)]
    if isinstance(act, Release):
        place = Item(act.place.tail, act.place.serial)
        return [place, *(line.item for line in work(act) if line.item is not None)]
    return []


def full(book: Book, act: Act) -> Carried:
    of_kind = [entry for entry in book if isinstance(entry.act, type(act))]
    return when(len(book) >= 1_000_000 or (isinstance(act, AddAircraft) and len(of_kind) >= 50)
                or (isinstance(act, AddComponent) and len(of_kind) >= 5000))


def unknown_aircraft(book: Book, act: Act) -> Carried:
    return when(any(item.tail is not None and records.aircraft(book, item.tail) is None for item in named_items(act)))


def unknown_component(book: Book, act: Act) -> Carried:
    return when(any(item.serial is not None and records.component(book, item.serial) is None
                    for item in named_items(act)))


def part_at(book: Book, act: Fit) -> typing.Optional[str]:
    """The part that the position takes, where the aircraft has it."""
    there = records.aircraft(book, act.tail)
    return None if there is None else dict(there.positions).get(act.position)


def unknown_position(book: Book, act: Act) -> Carried:
    return when(isinstance(act, Fit) and part_at(book, act) is None)


def unknown_programme(book: Book, act: Act) -> Carried:
    if isinstance(act, Opening):
        return when(records.programme(book, act.kind) is None)
    return when(isinstance(act, Release) and bool(work(act))
                and records.programme(book, records.kind_at(book, act.place)) is None)


def unknown_task(book: Book, act: Act) -> Carried:
    named: typing.List[typing.Tuple[typing.Optional[str], typing.Optional[str], typing.Optional[Item]]] = []
    if isinstance(act, Opening):
        named = [(act.kind, act.task, act.item)]
    if isinstance(act, Release):
        named = [(records.kind_at(book, act.place), line.task, line.item) for line in work(act)]
    for kind, name, item in named:
        task = records.task_in_force(book, kind, name)
        if task is None or item is None or not records.applies(book, task, item):
            return PLAIN
    return None


def unknown_defect(book: Book, act: Act) -> Carried:
    return when(any(records.defect(book, doc) is None for doc in named_defects(act)))


def aircraft_exists(book: Book, act: Act) -> Carried:
    return when(isinstance(act, AddAircraft) and records.aircraft(book, act.tail) is not None)


def component_exists(book: Book, act: Act) -> Carried:
    return when(isinstance(act, AddComponent) and records.component(book, act.serial) is not None)


def position_taken(book: Book, act: Act) -> Carried:
    return when(isinstance(act, Fit) and any(
        span.end is None and span.tail == act.tail and span.position == act.position for span in records.spans(book)))


def already_fitted(book: Book, act: Act) -> Carried:
    serial = act.serial if isinstance(act, Fit) else act.place.serial if isinstance(act, Release) else None
    return when(serial is not None and records.fitted(book, serial) is not None)


def not_fitted(book: Book, act: Act) -> Carried:
    return when(isinstance(act, Remove) and records.fitted(book, act.serial) is None)


def wrong_part(book: Book, act: Act) -> Carried:
    if not isinstance(act, Fit):
        return None
    known = records.component(book, act.serial)
    return when(known is None or known.part != part_at(book, act))


def item_elsewhere(book: Book, act: Act) -> Carried:
    if not isinstance(act, Release):
        return None
    for item in (line.item for line in work(act)):
        assert item is not None
        if act.place.tail is None or item.tail is not None:
            there = item == Item(act.place.tail, act.place.serial)
        else:
            span = records.fitted(book, item.serial)
            there = span is not None and span.tail == act.place.tail
        if not there:
            return PLAIN
    return None


def task_closed(book: Book, act: Act) -> Carried:
    if isinstance(act, Opening):
        return when(records.is_accomplished(book, act.item, act.task))
    for line in work(act):
        assert isinstance(act, Release) and line.item is not None and line.task is not None
        task = records.task_in_force(book, records.kind_at(book, act.place), line.task)
        if task is not None and task.repeat is None and records.is_accomplished(book, line.item, line.task):
            return PLAIN
    return None


def life_limit(book: Book, act: Act) -> Carried:
    if isinstance(act, Fit):
        there = records.aircraft(book, act.tail)
        tasks = [] if there is None else records.tasks(book, there.kind)
        item, day = Item(serial=act.serial), act.moment // 1440
        return when(any(records.is_at_end(book, item, task, day) for task in tasks))
    named: typing.List[typing.Tuple[typing.Optional[str], typing.Optional[str]]] = []
    if isinstance(act, Opening):
        named = [(act.kind, act.task)]
    if isinstance(act, Release):
        named = [(records.kind_at(book, act.place), line.task) for line in work(act)]
    found = [records.task_in_force(book, kind, name) for kind, name in named]
    return when(any(task is not None and task.retire for task in found))


def defect_closed(book: Book, act: Act) -> Carried:
    return when(any(records.is_rectified(book, doc) for doc in named_defects(act)))


def out_of_order(book: Book, act: Act) -> Carried:
    if isinstance(act, Extend):
        found = records.defect(book, act.defect)
        assert found is not None
        return moment_text(found.moment) if act.day < found.moment // 1440 else None
    if isinstance(act, (Sector, Defer)):
        clock = records.airframe_clock(book, act.tail)
    elif isinstance(act, Fit):
        clock = max(records.airframe_clock(book, act.tail), records.component_clock(book, act.serial))
    elif isinstance(act, Remove):
        span = records.fitted(book, act.serial)
        assert span is not None
        clock = max(records.airframe_clock(book, span.tail), records.component_clock(book, act.serial))
    elif isinstance(act, Release):
        of_airframe = act.place.tail is not None
        clock = (records.airframe_clock(book, act.place.tail) if of_airframe
                 else records.component_clock(book, act.place.serial))
    else:
        return None
    moment = act.off if isinstance(act, Sector) else act.moment
    return moment_text(clock) if moment < clock else None


def not_extendable(book: Book, act: Act) -> Carried:
    found = records.defect(book, act.defect) if isinstance(act, Extend) else None
    return when(found is not None and found.category == "A")


def already_extended(book: Book, act: Act) -> Carried:
    return when(isinstance(act, Extend) and records.extended(book, act.defect) > 0)


def extension_too_long(book: Book, act: Act) -> Carried:
    if not isinstance(act, Extend):
        return None
    found = records.defect(book, act.defect)
    assert found is not None
    most = records.interval(found)
    return str(most) if act.days > most else None


def interval_ended(book: Book, act: Act) -> Carried:
    if not isinstance(act, Extend):
        return None
    last = records.last_permitted(book, act.defect)
    return day_text(last) if act.day > last else None


def wrong_revision(book: Book, act: Act) -> Carried:
    if not isinstance(act, Load):
        return None
    before = records.programme(book, act.kind)
    expected = 1 if before is None else before.revision + 1
    return str(expected) if act.revision != expected else None


def other_aircraft(book: Book, act: Act) -> Carried:
    if isinstance(act, Opening):
        known = records.aircraft(book, act.item.tail) if act.item.tail is not None else None
        return when(known is not None and known.kind != act.kind)
    if not isinstance(act, Release):
        return None
    for doc in named_defects(act):
        found = records.defect(book, doc)
        if found is None or found.tail != act.place.tail:
            return PLAIN
    return None


def opening_too_late(book: Book, act: Act) -> Carried:
    return when(isinstance(act, Opening) and act.day > records.brought(book, act.item).as_of // 1440)


def opening_too_large(book: Book, act: Act) -> Carried:
    if not isinstance(act, Opening):
        return None
    known = records.brought(book, act.item)
    return when(act.minutes > known.minutes or act.cycles > known.cycles)


def repeated_line(book: Book, act: Act) -> Carried:
    return when(isinstance(act, Release) and len(set(act.lines)) < len(act.lines))


REFUSALS: typing.List[typing.Tuple[int, typing.Callable[[Book, Act], Carried]]] = [
    (11, full), (20, unknown_aircraft), (21, unknown_component), (22, unknown_position), (23, unknown_programme),
    (24, unknown_task), (25, unknown_defect), (30, aircraft_exists), (31, component_exists), (33, position_taken),
    (34, already_fitted), (35, not_fitted), (36, wrong_part), (37, item_elsewhere), (38, task_closed),
    (39, life_limit), (40, defect_closed), (41, out_of_order), (42, not_extendable), (43, already_extended),
    (44, extension_too_long), (45, interval_ended), (46, wrong_revision), (47, other_aircraft),
    (48, opening_too_late), (49, opening_too_large), (52, repeated_line),
]


def reply_to(book: Book, entry: Entry) -> str:
    """accepted N, already N, or refused NUMBER and what that carries."""
    for number, known in enumerate(book, 1):
        if known.doc == entry.doc:
            return f"already {number}" if known.act == entry.act else f"refused 10 {number}"
    for number, applies in REFUSALS:
        carried = applies(book, entry.act)
        if carried is not None:
            return f"refused {number} {carried}".rstrip()
    return f"accepted {len(book) + 1}"


def enter(book: Book, entry: Entry) -> str:
    """The reply; an accepted command is appended to the book."""
    reply = reply_to(book, entry)
    if reply.startswith("accepted"):
        book.append(entry)
    return reply
