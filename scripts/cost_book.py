"""What scripts/measure-cost hands to the program: books of any size, a further command of each kind, long texts.

A book has three aircraft, each with an engine and a propeller, and a programme. Behind these first entries each twenty
are two days of one aircraft in its turn: sixteen sectors, a deferred defect, its extension, the release of a task, and
the release that rectifies the defect of the turn before. In each twenty-fifth turn the propeller is removed and fitted
again in the place of two sectors. No task is done after it was due.
"""
import typing
from datetime import datetime, timedelta

import office_facts
from office_facts import Command

TAILS = ["D-EAAA", "D-EBBB", "D-ECCC"]
TAIL = TAILS[0]
FIRST = datetime(2024, 1, 1)
KIND = "C172"
Parts = typing.Dict[str, str]  # by the positions that take them
PARTS: Parts = {"ENG": "IO360", "PROP": "HC2", "PUMP": "VP1"}
TURN = 20  # entries
SECTORS = 16  # of each turn
FITTED_EACH = 25  # turns

Task = typing.Tuple[str, str, str, str]  # its name, to what it applies, its first limit and the one after
TASKS: typing.List[Task] = [
    ("100H", "airframe", "hours = 1000", "hours = 100"),
    ("ANNUAL", "airframe", "days = 365", "days = 365"),
    ("OVERHAUL", "part:IO360", "hours = 2000, days = 4380", "hours = 2000, days = 4380"),
    ("PROPELLER", "part:HC2", "hours = 2400, cycles = 9000", "hours = 2400, cycles = 9000"),
]
HEADER = office_facts.HEADER.decode().strip()


def text_of(moment: datetime) -> str:
    return f"{moment:%Y-%m-%dT%H:%M}"


def made(do: str, doc: str, **keys: object) -> Command:
    return {"do": do, "doc": doc, **keys}


def aircraft(doc: str, tail: str, parts: Parts = PARTS) -> Command:
    positions = [{"position": position, "part": part} for position, part in parts.items()]
    return made("add-aircraft", doc, tail=tail, kind=KIND, birth="2000-01-01", minutes=60000, cycles=800,
                as_of=text_of(FIRST), positions=positions)


def component(doc: str, serial: str, position: str, parts: Parts = PARTS) -> Command:
    return made("add-component", doc, serial=serial, part=parts[position], birth="2015-01-01", minutes=30000,
                cycles=400, as_of=text_of(FIRST))


def fitting(doc: str, serial: str, tail: str, position: str, moment: datetime) -> Command:
    return made("fit", doc, serial=serial, tail=tail, position=position, moment=text_of(moment))


def opening(doc: str, task: str, minutes: int, **item: str) -> Command:
    return made("opening", doc, kind=KIND, task=task, minutes=minutes, cycles=300, day="2023-06-01", **item)


def sector(tail: str, page: int, line: int, off: datetime) -> Command:
    """An hour and a half."""
    moments = {"off": text_of(off), "on": text_of(off + timedelta(minutes=90))}
    return {"do": "sector", "tail": tail, "page": page, "line": line, **moments, "cycles": 1}


def release(doc: str, tail: str, moment: datetime, line: typing.Dict[str, str]) -> Command:
    return made("release", doc, tail=tail, moment=text_of(moment), lines=[line])


def deferral(doc: str, tail: str, moment: datetime, category: str) -> Command:
    return made("defer", doc, tail=tail, moment=text_of(moment), reference="21-31-01", category=category)


def extension(doc: str, defect: str, day: datetime) -> Command:
    return made("extend", doc, defect=defect, day=f"{day:%Y-%m-%d}", days=5)


def first_entries() -> typing.List[Command]:
    """The fleet, a pump that is fitted nowhere, and a defect."""
    found = [aircraft(f"A{nth}", tail) for nth, tail in enumerate(TAILS)]
    for nth, tail in enumerate(TAILS):
        for position in ("ENG", "PROP"):
            serial = f"{position}-{nth}"
            found.append(component(f"C-{serial}", serial, position))
            found.append(fitting(f"F-{serial}", serial, tail, position, FIRST))
    return [*found, component("C-PUMP", "PUMP-0", "PUMP"), deferral("X-0", TAIL, FIRST, "D")]


def openings(tails: typing.Sequence[str] = TAILS) -> typing.List[Command]:
    return [
        *(opening(f"O1-{nth}", "100H", 59000, tail=tail) for nth, tail in enumerate(tails)),
        *(opening(f"O2-{nth}", "ANNUAL", 55000, tail=tail) for nth, tail in enumerate(tails)),
    ]


def turn(nth: int, first: int = 0, tails: typing.Sequence[str] = TAILS) -> typing.List[Command]:
    """Two days of an aircraft; the defects of turns before the first are let alone."""
    one, tail = nth % len(tails), tails[nth % len(tails)]
    begun = FIRST + timedelta(days=2 * nth + 1)
    evening = begun + timedelta(hours=2 * SECTORS)
    flights = {"tail": tail, "task": "100H" if first else "ANNUAL"}
    before = {"defect": f"X{nth - len(tails)}"} if nth >= first + len(tails) else flights
    flown = [sector(tail, nth + 1, line + 1, begun + timedelta(hours=2 * line)) for line in range(SECTORS)]
    done = [
        deferral(f"X{nth}", tail, evening, "C"),
        extension(f"Y{nth}", f"X{nth}", evening),
        release(f"R{nth}", tail, evening + timedelta(hours=1), {"tail": tail, "task": "100H"}),
        release(f"S{nth}", tail, evening + timedelta(hours=2), before),
    ]
    if nth % FITTED_EACH:
        return [*flown, *done]
    removal = made("remove", f"M{nth}", serial=f"PROP-{one}", moment=text_of(evening + timedelta(hours=3)))
    return [*flown[2:], *done, removal, fitting(f"F{nth}", f"PROP-{one}", tail, "PROP", evening + timedelta(hours=4))]


def later_entries(count: int, tails: typing.Sequence[str] = TAILS) -> typing.List[Command]:
    """So many entries behind the first ones and the programme."""
    found = openings(tails)
    nth = 0
    while len(found) < count:
        found += turn(nth, tails=tails)
        nth += 1
    return found[:count]


def day_after(entries: int) -> datetime:
    """A day behind all that a book of so many entries holds."""
    return FIRST + timedelta(days=2 * (entries // TURN + 2))


def programme(revision: int, tasks: int = len(TASKS)) -> str:
    """A programme in TOML: its four tasks, and as many inspections of the airframe as make it so many."""
    return programme_of(revision, [*TASKS, *inspections(tasks - len(TASKS))])


def inspections(count: int) -> typing.List[Task]:
    return [(f"INSP-{nth}", "airframe", f"hours = {2000 + nth}", "hours = 500") for nth in range(count)]


def programme_of(revision: int, stated: typing.List[Task]) -> str:
    tables = [
        f'[[task]]\nid = "{task}"\napplies = "{item}"\nfirst = {{ {first} }}\nrepeat = {{ {repeat} }}\n'
        for task, item, first, repeat in stated
    ]
    return f'kind = "{KIND}"\nrevision = {revision}\n' + "\n".join(tables)


def faulty_programme(tasks: int) -> str:
    """A programme whose last task does not say what it applies to."""
    whole, _, last = programme(1, tasks).rpartition('applies = "airframe"\n')
    return whole + last


def further(entries: int) -> typing.Dict[str, Command]:
    """A command of each kind that a book of so many entries accepts, but for the programme."""
    then = day_after(entries)
    return {
        "add-aircraft": aircraft("N1", "D-NEW"),
        "add-component": component("N1", "NEW", "ENG"),
        "opening": opening("N1", "PROPELLER", 20000, serial="PROP-0"),
        "sector": sector(TAIL, 900000, 1, then),
        "fit": fitting("N1", "PUMP-0", TAIL, "PUMP", then),
        "remove": made("remove", "N1", serial="PROP-0", moment=text_of(then)),
        "release": release("N1", TAIL, then, {"tail": TAIL, "task": "100H"}),
        "defer": deferral("N1", TAIL, then, "C"),
        "extend": extension("N1", "X-0", FIRST),
    }


def further_sectors(entries: int, count: int) -> typing.List[Command]:
    """So many sectors behind a book of so many entries, one each two hours, twelve a page."""
    begun = day_after(entries)
    return [sector(TAIL, 900000 + nth // 12, 1 + nth % 12, begun + timedelta(hours=2 * nth)) for nth in range(count)]


def further_turns(entries: int, count: int) -> typing.List[Command]:
    """So many entries of all kinds that come each two days, behind a book of so many."""
    found: typing.List[Command] = []
    nth = first = entries // TURN + 2
    while len(found) < count:
        found += turn(nth, first)
        nth += 1
    return found[:count]


def log_of(sectors: typing.List[Command]) -> str:
    """The sector log of these."""
    return "\n".join([HEADER, *(",".join(str(it[key]) for key in HEADER.split(",")) for it in sectors), ""])


def faulty_list(count: int) -> typing.List[Command]:
    """A list of so many sectors, of which the last does not say its cycles."""
    found = further_sectors(0, count)
    del found[-1]["cycles"]
    return found
