"""What chance doesn't find: numbers and lists at their ends, texts of the largest size."""
import json
import typing

from .http_text import Asked
from .reading import MOST_BYTES

HEADER = b"tail,page,line,off,on,cycles\n"
DAY, MOMENT = "2024-01-01", "2024-01-01T00:00"
Command = typing.Dict[str, typing.Any]


class Case(typing.Protocol):
    """What takes the texts."""

    def asked(self, asked: Asked, by_words: bool) -> None:
        ...


# ── commands ──


def aircraft(number: int, positions: int = 0, **other: typing.Any) -> Command:
    named = [{"position": f"X{n}", "part": "P"} for n in range(positions)]
    return {"do": "add-aircraft", "doc": f"A{number}", "tail": f"D-{number}", "kind": "K", "birth": DAY, "minutes": 0,
            "cycles": 0, "as_of": MOMENT, "positions": named, **other}


def component(**other: typing.Any) -> Command:
    return {"do": "add-component", "doc": "C1", "serial": "S", "part": "P", "birth": DAY, "minutes": 0, "cycles": 0,
            "as_of": MOMENT, **other}


def opening(**other: typing.Any) -> Command:
    return {"do": "opening", "doc": "O1", "serial": "S", "kind": "K", "task": "T", "minutes": 0, "cycles": 0,
            "day": DAY, **other}


def sector(**other: typing.Any) -> Command:
    return {"do": "sector", "tail": "D-1", "page": 1, "line": 1, "off": MOMENT, "on": "2024-01-01T01:00", "cycles": 1,
            **other}


def release(lines: int) -> Command:
    return {"do": "release", "doc": "R1", "tail": "D-1", "moment": MOMENT,
            "lines": [{"defect": f"X{n}"} for n in range(lines)]}


def defer(days: int) -> Command:
    return {"do": "defer", "doc": "X1", "tail": "D-NONE", "moment": MOMENT, "reference": "R", "category": "A",
            "days": days}


def extend(days: int) -> Command:
    return {"do": "extend", "doc": "E1", "defect": "X", "day": DAY, "days": days}


def commands() -> typing.List[Command]:
    """Each at an end of a shape, or past it."""
    late, next_day = "2024-01-02", "2024-01-02T00:00"
    return [
        aircraft(1, 41), component(birth=late), component(minutes=100_000_001), component(cycles=1_000_001),
        opening(minutes=100_000_001), opening(minutes=100_000_000), opening(cycles=1_000_001),
        opening(cycles=1_000_000), sector(page=1_000_000), sector(page=999_999), sector(page=0), sector(line=100),
        sector(line=99), sector(line=0), sector(cycles=51), sector(cycles=50), sector(cycles=0), sector(on=MOMENT),
        sector(on=next_day), sector(on="2024-01-02T00:01"), sector(on="2024-01-01T00:01"), release(0), release(20),
        release(21), defer(0), defer(1), defer(365), defer(366), extend(0), extend(1), extend(120), extend(121),
        aircraft(1, 40), component(minutes=100_000_000, cycles=1_000_000), {**aircraft(2), "doc": "TL/2"},
        {**aircraft(2), "doc": "tl/2"}, aircraft(3, birth="1970-01-01", as_of="2199-12-31T23:59"),
    ]


# ── programmes ──


def programme(tasks: int = 1, revision: int = 1, first: str = "days = 1", more: str = "") -> bytes:
    head = f'kind = "K"\nrevision = {revision}\n'
    task = f'applies = "airframe"\nfirst = {{ {first} }}\n{more}'
    return (head + "".join(f'[[task]]\nid = "T{n}"\n{task}' for n in range(tasks))).encode()


def programmes() -> typing.List[bytes]:
    limits = [f"hours = {n}" for n in (0, 1, 100_000, 100_001, 71_582_788, 71_582_789)]
    limits += [f"cycles = {n}" for n in (0, 1_000_000, 1_000_001)] + [f"days = {n}" for n in (0, 36_500, 36_501)]
    tolerances = [f"tolerance = {{ {limit} }}\n" for limit in limits]
    return [
        programme(501), programme(revision=0), programme(revision=1_000_001), programme(revision=1_000_000),
        *(programme(first=limit, revision=2) for limit in limits),
        *(programme(more=more, revision=2) for more in tolerances),
        *(programme(more=f"retire = true\n{more}", revision=2) for more in tolerances),
        programme(more="repeat = { days = 1 }\nretire = true\n"),
        programme(more="repeat = { days = 1 }\nretire = false\n", revision=2), programme(500),
    ]


# ── the largest texts ──

LARGE: typing.List[typing.Tuple[str, typing.Callable[[], bytes]]] = [
    ("enter", lambda: b"[" + 9_999 * b"7," + b"7]"), ("enter", lambda: b"[" + 10_000 * b"7," + b"7]"),
    ("enter", lambda: b"[]" + (MOST_BYTES - 2) * b" "), ("enter", lambda: b"[]" + (MOST_BYTES - 1) * b" "),
    ("enter", lambda: b"\xff" + MOST_BYTES * b" "), ("programme", lambda: MOST_BYTES * b"\n"),
    ("programme", lambda: (MOST_BYTES + 1) * b"\n"), ("import", lambda: HEADER + 100_000 * b"a\n"),
    ("import", lambda: HEADER + 100_001 * b"a\n"), ("import", lambda: b"x\n" + 100_001 * b"a\n"),
    ("import", lambda: HEADER + (MOST_BYTES - len(HEADER)) * b"\n"),
    ("import", lambda: HEADER + (MOST_BYTES + 1 - len(HEADER)) * b"\n"),
]
COUNT = 2 + len(LARGE)

CaseType = typing.TypeVar("CaseType", bound=Case)


def edge(case: CaseType, number: int, by_words: bool) -> CaseType:
    """52 aircraft, of which the last two are too many, and the list of all; the ends of shapes; a text of the largest size, by a word."""
    if number == 0:
        case.asked(Asked("enter", (), json.dumps([aircraft(n) for n in range(52)]).encode()), by_words)
        for tail in ("D-49", "D-50"):
            case.asked(Asked("due", (tail, 20_000), b""), by_words)
        for word, words in (("aircraft", ()), ("fleet", (20_000,))):
            case.asked(Asked(word, words, b""), True)
    elif number == 1:
        for command in commands():
            case.asked(Asked("enter", (), json.dumps([command]).encode()), False)
        for nth, text in enumerate(programmes()):
            case.asked(Asked("programme", (f"P{nth}",), text), False)
    else:
        word, text = LARGE[number - 2]
        case.asked(Asked(word, ("P",) if word == "programme" else (), text()), True)
    return case
