"""Commands as JSON: the entries of a text, or its fault."""
import json
import typing

from .commands import (
    Act, AddAircraft, AddComponent, Defer, Entry, Extend, Fit, Item, Line, Opening, Place, Release, Remove, Sector,
    has_shape, sector_doc,
)
from .reading import Fault, Form, text_by, text_of
from .texts import day_of, doc_of, moment_of, name_of, tail_of

MOST_ENTRIES = 10_000
DEEPEST = 127


class Number(str):
    """A number as it is written."""


# ── the value of a text ──


def no_constant(name: str) -> typing.Any:
    raise ValueError(name)


def number(written: str) -> Number:
    """Past the greatest binary64 a number has no reading."""
    if float(written) in (float("inf"), float("-inf")):
        raise ValueError(written)
    return Number(written)


def has_reading(value: typing.Any, room: int = DEEPEST) -> bool:
    """No lone surrogate, and no more levels of brackets than are read."""
    if isinstance(value, str):
        return not any("\ud800" <= character <= "\udfff" for character in value)
    if isinstance(value, dict):
        return room > 0 and all(has_reading(k) and has_reading(v, room - 1) for k, v in value.items())
    return not isinstance(value, list) or (room > 0 and all(has_reading(v, room - 1) for v in value))


def pairs(members: typing.List[typing.Tuple[str, typing.Any]]) -> typing.Dict[str, typing.Any]:
    """Of a key that is written twice the last value counts; each has to be one."""
    if not all(has_reading(key) and has_reading(value, 1000) for key, value in members):
        raise ValueError("surrogate")
    return dict(members)


def value_of(text: str) -> typing.Any:
    try:
        value = json.loads(text, object_pairs_hook=pairs, parse_int=number, parse_float=number,
                           parse_constant=no_constant)
    except (ValueError, RecursionError):
        raise Fault(61) from None
    if not has_reading(value):
        raise Fault(61)
    return value


# ── the values at keys ──


def small_number(value: typing.Any) -> typing.Optional[int]:
    """A whole number below 2^32, written in digits alone."""
    digits = isinstance(value, Number) and value.isdigit() and len(value) <= 10
    return int(value) if digits and int(value) < 2 ** 32 else None


NAME, TAIL, DOC, DAY, MOMENT = (text_by(read) for read in (name_of, tail_of, doc_of, day_of, moment_of))
ANY_TEXT = text_by(lambda text: text)


def item_of(form: Form) -> Item:
    """At `tail` or at `serial`: one of the two."""
    item = Item(form.optional("tail", TAIL), form.optional("serial", NAME))
    here = [key for key in ("tail", "serial") if key in form.members]
    form.faults += [62] if not here else [65] if len(here) == 2 else []
    return item


def place_of(form: Form) -> Place:
    place = Place(form.optional("tail", TAIL), form.optional("serial", NAME), form.optional("kind", NAME))
    shop = [key for key in ("serial", "kind") if key in form.members]
    if "tail" not in form.members and len(shop) < 2:
        form.faults.append(62)
    if "tail" in form.members and shop:
        form.faults.append(65)
    return place


def line_of(form: Form) -> Line:
    if "defect" not in form.members:
        task = form.needed("task", NAME)
        return Line(task, item_of(form))
    excluded = [key for key in ("task", "tail", "serial") if key in form.members]
    for key, read in (("task", NAME), ("tail", TAIL), ("serial", NAME)):
        form.optional(key, read)
    form.faults += [65] if excluded else []
    return Line(defect=form.needed("defect", DOC))


def category_of(form: Form) -> typing.Tuple[str, typing.Optional[int]]:
    letter = form.needed("category", text_by(lambda text: text if text in ("A", "B", "C", "D") else None))
    days = form.optional("days", small_number)
    if letter == "A" and "days" not in form.members:
        form.faults.append(62)
    if letter in ("B", "C", "D") and "days" in form.members:
        form.faults.append(65)
    return letter, days


# ── the commands ──


def aircraft(form: Form) -> Act:
    positions = form.listed("positions", lambda one: (one.needed("position", NAME), one.needed("part", NAME)))
    return AddAircraft(form.needed("tail", TAIL), form.needed("kind", NAME), *opening_use(form), tuple(positions))


def opening_use(form: Form) -> typing.Tuple[int, int, int, int]:
    return (form.needed("birth", DAY), form.needed("minutes", small_number), form.needed("cycles", small_number),
            form.needed("as_of", MOMENT))


def component(form: Form) -> Act:
    return AddComponent(form.needed("serial", NAME), form.needed("part", NAME), *opening_use(form))


def opening(form: Form) -> Act:
    return Opening(item_of(form), form.needed("kind", NAME), form.needed("task", NAME),
                   form.needed("minutes", small_number), form.needed("cycles", small_number), form.needed("day", DAY))


def sector(form: Form) -> Act:
    return Sector(form.needed("tail", TAIL), form.needed("page", small_number), form.needed("line", small_number),
                  form.needed("off", MOMENT), form.needed("on", MOMENT), form.needed("cycles", small_number))


def fit(form: Form) -> Act:
    return Fit(form.needed("serial", NAME), form.needed("tail", TAIL), form.needed("position", NAME),
               form.needed("moment", MOMENT))


def remove(form: Form) -> Act:
    return Remove(form.needed("serial", NAME), form.needed("moment", MOMENT))


def release(form: Form) -> Act:
    return Release(place_of(form), form.needed("moment", MOMENT), tuple(form.listed("lines", line_of)))


def defer(form: Form) -> Act:
    return Defer(form.needed("tail", TAIL), form.needed("moment", MOMENT), form.needed("reference", NAME),
                 *category_of(form))


def extend(form: Form) -> Act:
    return Extend(form.needed("defect", DOC), form.needed("day", DAY), form.needed("days", small_number))


FORMS: typing.Dict[str, typing.Callable[[Form], Act]] = {
    "add-aircraft": aircraft, "add-component": component, "opening": opening, "sector": sector, "fit": fit,
    "remove": remove, "release": release, "defer": defer, "extend": extend,
}


def entry_of(value: typing.Any, place: int) -> Entry:
    if not isinstance(value, dict):
        raise Fault(63, place)
    if "do" not in value:
        raise Fault(62, place)
    word = ANY_TEXT(value["do"])
    if word not in FORMS:
        raise Fault(63, place)
    form = Form(value, "do")
    doc = None if word == "sector" else form.needed("doc", DOC)
    act = FORMS[word](form)
    faults = form.all_faults()
    if faults:
        raise Fault(min(faults), place)
    entry = Entry(sector_doc(act) if isinstance(act, Sector) else str(doc), act)
    if not has_shape(entry):
        raise Fault(65, place)
    return entry


def entries_of(raw: bytes) -> typing.List[Entry]:
    value = value_of(text_of(raw))
    if not isinstance(value, list):
        raise Fault(63)
    if len(value) > MOST_ENTRIES:
        raise Fault(67)
    return [entry_of(one, place) for place, one in enumerate(value, 1)]
