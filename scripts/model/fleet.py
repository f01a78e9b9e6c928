"""The lists of all aircraft as text: what is due, an outlook, the aircraft, the components, the deferred defects."""
import typing

from . import book as records
from . import lists
from .commands import AddAircraft, AddComponent, Book, Item
from .http_text import Asked
from .texts import day_of, day_text, moment_text

LISTS = ("fleet", "outlook", "aircraft", "components", "deferred")  # words of the program, which the desk has not


def all_aircraft(book: Book) -> typing.List[AddAircraft]:
    """By registration."""
    return sorted((entry.act for entry in book if isinstance(entry.act, AddAircraft)), key=lambda known: known.tail)


def all_components(book: Book) -> typing.List[AddComponent]:
    """By serial number."""
    return sorted((entry.act for entry in book if isinstance(entry.act, AddComponent)), key=lambda known: known.serial)


def fleet_text(book: Book, day: int) -> str:
    due = [(known.tail, lists.due_rows(book, known.tail, known.kind, day)) for known in all_aircraft(book)]
    lines = [f"{status} {tail} {row.words} {row.tail}"
             for status in lists.RANKS for tail, rows in due for row in rows if row.status() == status]
    return lists.whole(f"fleet {day_text(day)}", lines)


def outlook_text(book: Book, day: int, days: int, rate: lists.Rate) -> str:
    found = [(n, known.tail, reached) for known in all_aircraft(book)
             for n, reached in lists.forecast_rows(book, known.tail, known.kind, day, days, rate)]
    lines = [f"{n} {day_text(day + n)} {tail} {reached}" for n, tail, reached in sorted(found, key=lambda row: row[0])]
    return lists.whole(f"outlook {day_text(day)} {days} {rate[0]} {rate[1]}", lines)


def aircraft_text(book: Book) -> str:
    lines = []
    for tail, kind in ((known.tail, known.kind) for known in all_aircraft(book)):
        use = lists.use_words(records.life(book, Item(tail=tail)))
        clock = moment_text(records.airframe_clock(book, tail))
        counts = f"fitted={len(lists.parts(book, tail))} open={len(records.open_defects(book, tail))}"
        lines.append(f"{tail} {kind} {use} {clock} {counts}")
    return lists.whole("aircraft", lines)


def components_text(book: Book) -> str:
    lines = []
    for serial, part in ((known.serial, known.part) for known in all_components(book)):
        use = lists.use_words(records.life(book, Item(serial=serial)))
        clock = moment_text(records.component_clock(book, serial))
        span = records.fitted(book, serial)
        place = "- -" if span is None else f"{span.tail} {span.position}"
        lines.append(f"{serial} {part} {use} {clock} {place}")
    return lists.whole("components", lines)


def deferred_text(book: Book, day: int) -> str:
    """By their last days, those of one last day in the order of their entries, whose aircraft they are."""
    numbers = {entry.doc: number for number, entry in enumerate(book)}
    found = [(limit.last, numbers[limit.doc], f"{limit.status} {known.tail} {limit.words}")
             for known in all_aircraft(book) for limit in lists.limit_rows(book, known.tail, day)]
    return lists.whole(f"deferred {day_text(day)}", [line for _, _, line in sorted(found)])


def asked_of(word: str, behind: typing.Sequence[str]) -> Asked:
    """A question, by what is typed behind the file."""
    return Asked(word, (*map(day_of, behind[:1]), *map(int, behind[1:])), b"")


def listed(book: Book, word: str, words: typing.Tuple[typing.Any, ...]) -> str:
    """What a word prints, by what stands behind the file."""
    if word == "outlook":
        day, days, minutes, cycles = words
        return outlook_text(book, day, days, (minutes, cycles))
    texts: typing.Dict[str, typing.Callable[..., str]] = {
        "fleet": fleet_text, "aircraft": aircraft_text, "components": components_text, "deferred": deferred_text,
    }
    return texts[word](book, *words)
