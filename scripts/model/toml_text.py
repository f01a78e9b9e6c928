"""A maintenance programme as TOML: the command that loads it, or the fault of its text.

Python's `tomllib` reads TOML 1.0 and the office TOML 1.1, which takes more. Where only that more, or a limit of a
reader, decides whether a text is one, the text is Undecided here. On a Python without `tomllib` only the texts that
were written from a table are decided.
"""
import re
import typing

try:
    import tomllib
except ImportError:  # before Python 3.11
    tomllib = None  # type: ignore

from .commands import Entry, Load, Task, Three, distinct, task_shape
from .json_text import NAME
from .reading import Fault, Form, text_by, text_of
from .texts import name_of

MOST_TASKS = 500
DEEPEST = 80  # brackets in brackets; a tree of tables is a little deeper than the brackets of its values
LITTLE = 6
NEWER = re.compile("|".join([
    r"\\[ex]",  # escapes
    r"[=\[,\s][0-9]{4}-[0-9]{2}", r"[=\[,\s][0-9]{2}:[0-9]{2}",  # dates and times, which may lack their seconds
    r",\s*\}", r"[{,][ \t\r]*\n", r"\n\s*[,}]", r"\{[^{}\n]*#",  # in an inline table: ends of lines, a comma at its end
]))
TOLD: typing.Dict[str, typing.Any] = {}  # the tables of texts that were written from them


class Undecided(Exception):
    """Whether the text is TOML 1.1 can't be said here."""


# ── the table of a text ──


def number(written: str) -> float:
    if float(written) in (float("inf"), float("-inf")) and "inf" not in written:
        raise Undecided
    return float(written)


def depth_of(value: typing.Any) -> int:
    """How deep a value is, whose whole numbers have 64 bits."""
    if type(value) is int and not -2 ** 63 <= value < 2 ** 63:
        raise Fault(61)
    if not isinstance(value, (dict, list)):
        return 0
    return 1 + max(map(depth_of, value.values() if isinstance(value, dict) else value), default=0)


def table_of(text: str) -> typing.Dict[str, typing.Any]:
    """A byte order mark in front is skipped."""
    text = text[1:] if text.startswith("\ufeff") else text
    if tomllib is None:
        if text not in TOLD:
            raise Undecided
        return TOLD[text]
    try:
        table = tomllib.loads(text, parse_float=number)
    except RecursionError:
        raise Undecided from None
    except ValueError:
        raise Undecided if NEWER.search(text) else Fault(61) from None
    depth = depth_of(table)
    if depth > DEEPEST + LITTLE:
        raise Fault(61)
    if depth > DEEPEST - LITTLE:
        raise Undecided
    return table


# ── the values at keys ──


def small_number(value: typing.Any) -> typing.Optional[int]:
    return value if type(value) is int and 0 <= value < 2 ** 32 else None


def minutes_of(value: typing.Any) -> typing.Optional[int]:
    hours = small_number(value)
    return 60 * hours if hours is not None and 60 * hours < 2 ** 32 else None


def limit_at(form: Form, key: str) -> typing.Optional[Three]:
    inner = form.optional(key, lambda value: Form(value) if isinstance(value, dict) else None)
    if inner is None:
        return None
    limit = (inner.optional("hours", minutes_of), inner.optional("cycles", small_number),
             inner.optional("days", small_number))
    form.faults += inner.all_faults()
    return limit


def part_of(text: str) -> typing.Optional[typing.List[typing.Optional[str]]]:
    """What a task is done on: in a list, since None is an airframe there."""
    if text == "airframe":
        return [None]
    part = name_of(text[len("part:"):]) if text.startswith("part:") else None
    return None if part is None else [part]


def task_of(value: typing.Any, place: int) -> Task:
    if not isinstance(value, dict):
        raise Fault(63, place)
    form = Form(value)
    name, part = form.needed("id", NAME), form.needed("applies", text_by(part_of))
    form.faults += [] if "first" in value else [62]
    first, repeat, tolerance = (limit_at(form, key) for key in ("first", "repeat", "tolerance"))
    retire = form.optional("retire", lambda flag: [flag] if isinstance(flag, bool) else None)
    faults = form.all_faults()
    if faults:
        raise Fault(min(faults), place)
    assert first is not None and part is not None
    tolerated = tuple(amount or 0 for amount in tolerance or ())
    task = Task(name, part[0], first, repeat, tolerated or (0, 0, 0), bool(retire and retire[0]))  # type: ignore
    if not task_shape(task):
        raise Fault(65, place)
    return task


def entry_of(raw: bytes, doc: str) -> Entry:
    """The command that loads the programme of a text by a document."""
    form = Form(table_of(text_of(raw)))
    kind, revision = form.needed("kind", NAME), form.needed("revision", small_number)
    listed = form.needed("task", lambda value: [value] if isinstance(value, list) else None)
    faults = form.all_faults()
    if faults:
        raise Fault(min(faults))
    values = listed[0]
    if not (1 <= revision <= 1_000_000 and 1 <= len(values) <= MOST_TASKS) or doc.startswith("TL/"):
        raise Fault(65)
    tasks = [task_of(value, place) for place, value in enumerate(values, 1)]
    if not distinct([task.name for task in tasks]):
        raise Fault(65)
    return Entry(doc, Load(kind, revision, tuple(tasks)))
