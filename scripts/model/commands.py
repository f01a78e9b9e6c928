"""The commands, and the shape of each."""
import dataclasses
import typing

Three = typing.Tuple[typing.Optional[int], typing.Optional[int], typing.Optional[int]]  # minutes, cycles, days
Amounts = typing.Tuple[int, int, int]
MOST: Amounts = (6_000_000, 1_000_000, 36_500)
NOTHING: Amounts = (0, 0, 0)


@dataclasses.dataclass(frozen=True)
class Item:
    """An airframe by its registration, or a component by its serial number."""

    tail: typing.Optional[str] = None
    serial: typing.Optional[str] = None


@dataclasses.dataclass(frozen=True)
class Place:
    """An aircraft; or a shop, which has a component by the programme of a kind."""

    tail: typing.Optional[str] = None
    serial: typing.Optional[str] = None
    kind: typing.Optional[str] = None


@dataclasses.dataclass(frozen=True)
class Line:
    """A task that was done on an item, or a defect that was rectified."""

    task: typing.Optional[str] = None
    item: typing.Optional[Item] = None
    defect: typing.Optional[str] = None


@dataclasses.dataclass(frozen=True)
class Task:
    """It is done on airframes, or on components of a part."""

    name: str
    part: typing.Optional[str]
    first: Three
    repeat: typing.Optional[Three]
    tolerance: Amounts
    retire: bool


@dataclasses.dataclass(frozen=True)
class AddAircraft:
    tail: str
    kind: str
    birth: int
    minutes: int
    cycles: int
    as_of: int
    positions: typing.Tuple[typing.Tuple[str, str], ...]


@dataclasses.dataclass(frozen=True)
class AddComponent:
    serial: str
    part: str
    birth: int
    minutes: int
    cycles: int
    as_of: int


@dataclasses.dataclass(frozen=True)
class Load:
    kind: str
    revision: int
    tasks: typing.Tuple[Task, ...]


@dataclasses.dataclass(frozen=True)
class Opening:
    item: Item
    kind: str
    task: str
    minutes: int
    cycles: int
    day: int


@dataclasses.dataclass(frozen=True)
class Sector:
    tail: str
    page: int
    line: int
    off: int
    on: int
    cycles: int


@dataclasses.dataclass(frozen=True)
class Fit:
    serial: str
    tail: str
    position: str
    moment: int


@dataclasses.dataclass(frozen=True)
class Remove:
    serial: str
    moment: int


@dataclasses.dataclass(frozen=True)
class Release:
    place: Place
    moment: int
    lines: typing.Tuple[Line, ...]


@dataclasses.dataclass(frozen=True)
class Defer:
    """The days are those that the item states, of category A alone."""

    tail: str
    moment: int
    reference: str
    category: str
    days: typing.Optional[int]


@dataclasses.dataclass(frozen=True)
class Extend:
    defect: str
    day: int
    days: int


Act = typing.Union[AddAircraft, AddComponent, Load, Opening, Sector, Fit, Remove, Release, Defer, Extend]


@dataclasses.dataclass(frozen=True)
class Entry:
    doc: str
    act: Act


Book = typing.List[Entry]


def sector_doc(sector: Sector) -> str:
    return f"TL/{sector.tail}/{sector.page}/{sector.line}"


# ── shapes ──


def distinct(names: typing.List[str]) -> bool:
    return len(set(names)) == len(names)


def limit_shape(limit: Three) -> bool:
    stated = [(number, most) for number, most in zip(limit, MOST) if number is not None]
    return bool(stated) and all(1 <= number <= most for number, most in stated)


def task_shape(task: Task) -> bool:
    limits = task.first, *([] if task.repeat is None else [task.repeat])
    tolerated = all(number <= most for number, most in zip(task.tolerance, MOST))
    done_once = task.repeat is None and task.tolerance == NOTHING
    return all(map(limit_shape, limits)) and tolerated and (done_once or not task.retire)


def use_shape(minutes: int, cycles: int) -> bool:
    return minutes <= 100_000_000 and cycles <= 1_000_000


def act_shape(act: Act) -> bool:
    """The shape of what is said, programmes aside: those have it by task and top."""
    if isinstance(act, (AddAircraft, AddComponent)):
        if not use_shape(act.minutes, act.cycles) or act.birth > act.as_of // 1440:
            return False
        return isinstance(act, AddComponent) or (
            len(act.positions) <= 40 and distinct([name for name, _ in act.positions]))
    if isinstance(act, Opening):
        return use_shape(act.minutes, act.cycles)
    if isinstance(act, Sector):
        return (1 <= act.page <= 999_999 and 1 <= act.line <= 99 and 1 <= act.on - act.off <= 1440
                and 1 <= act.cycles <= 50)
    if isinstance(act, Release):
        return 1 <= len(act.lines) <= 20
    if isinstance(act, Defer):
        return act.days is None or 1 <= act.days <= 365
    if isinstance(act, Extend):
        return 1 <= act.days <= 120
    return True


def has_shape(entry: Entry) -> bool:
    own = isinstance(entry.act, Sector)
    return act_shape(entry.act) and (own or not entry.doc.startswith("TL/"))
