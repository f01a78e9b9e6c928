"""Texts of the largest size with a number, a name, a row or brackets that fill them, by the words and by the desk.

What has to come stands beside each text; it is that of docs/DEFINITIONS.md. Nothing of any of them is entered.
"""
import json
import pathlib
import tempfile
import typing

import trials
from desk_answers import Case, answer, served
from desk_client import lines, post
from hostile_runs import Kept, Kind, in_turn, sector_rows
from model import office
from model.http_text import Asked
from model.office import Printed
from office_facts import HEADER, PROGRAMME, dated, sector

MOST = 8_388_608  # bytes of a text for a word
MOST_BODY = 65_536  # and of one for the desk
QUICK = 30  # seconds that a word may take
MOST_PARTS = 80  # of a key in TOML
PATHS = {"enter": "/entries", "programme": "/programmes/P9", "import": "/sectors"}

Made = typing.Callable[[int], bytes]  # the text of so many bytes


class Text(typing.NamedTuple):
    """A text for a word, with the number of its fault and the entry that has it."""

    name: str
    word: str
    made: Made
    number: int
    entry: int


def filled(front: bytes, behind: bytes, piece: bytes = b"1") -> Made:
    """As often a piece as there is room for, between these two; blanks fill the rest."""
    def made(size: int) -> bytes:
        room = size - len(front) - len(behind)
        return front + room // len(piece) * piece + behind + room % len(piece) * b" "
    return made


def numbered(front: bytes, form: bytes, behind: bytes) -> Made:
    """Pieces with numbers, in place of one piece."""
    def made(size: int) -> bytes:
        found, nth = [front], 0
        room = size - len(front) - len(behind) - len(form) - 8
        while room > 0:
            found.append(form % nth)
            room, nth = room - len(found[-1]), nth + 1
        return b"".join([*found, behind])
    return made


# ── JSON ──


def around(command: typing.Dict[str, object], key: str, mark: str = '"?"') -> typing.Tuple[bytes, bytes]:
    """What stands in a list of this command before and behind the value at a key, or before and behind a part of a text."""
    front, _, behind = json.dumps([{**command, key: "?"}]).partition(mark)
    return front.encode(), behind.encode()


SECTOR = sector(901, 1, "2024-06-02T08:00", "2024-06-02T09:00")
REMOVAL = dated("remove", "M9", "2024-06-02", serial="E1")
PAGE, DOC, DO = around(SECTOR, "page"), around(REMOVAL, "doc", "?"), around(SECTOR, "do", "?")
KEY = json.dumps([REMOVAL]).encode()[:-2] + b', "', b'": 1}]'

JSON = [
    # A number past those of binary64 has no reading, wherever it stands.
    Text("a number of digits", "enter", filled(b"", b""), 61, 0),
    Text("a page of digits", "enter", filled(*PAGE), 61, 0),
    Text("a page of digits behind a sign", "enter", filled(PAGE[0] + b"-", PAGE[1]), 61, 0),
    Text("an exponent of digits", "enter", filled(PAGE[0] + b"1e", PAGE[1]), 61, 0),
    Text("zeros in front of a number", "enter", filled(b"0", b"", b"0"), 61, 0),
    # These have one, and are no list, or no digits alone.
    Text("a fraction of digits", "enter", filled(b"0.", b""), 63, 0),
    Text("a page with a fraction of digits", "enter", filled(PAGE[0] + b"0.", PAGE[1]), 63, 1),
    Text("a page of next to nothing", "enter", filled(PAGE[0] + b"1e-", PAGE[1]), 63, 1),
    Text("a document of digits", "enter", filled(*DOC), 63, 1),
    Text("a document of escapes", "enter", filled(*DOC, b"\\u0041"), 63, 1),
    Text("a command of digits", "enter", filled(*DO), 63, 1),
    Text("a key of digits", "enter", filled(*KEY), 64, 1),
    Text("one key again and again", "enter", filled(b'[{"do": "remove"', b"}]", b', "a": 1'), 62, 1),
    Text("keys that are all others", "enter", numbered(b'[{"do": "remove"', b', "%d": 1', b"}]"), 62, 1),
    Text("lists in lists", "enter", filled(b"", b"", b"["), 61, 0),
    Text("objects in objects", "enter", filled(b"", b"", b'{"a":'), 61, 0),
    Text("nothing but blanks", "enter", filled(b"", b"", b" "), 61, 0),
    Text("nothing but zero bytes", "enter", filled(b"", b"", b"\0"), 61, 0),
    Text("a list of numbers", "enter", filled(b"[1", b"]", b",1"), 67, 0),
    Text("a text that doesn't end", "enter", filled(b'["', b""), 61, 0),
]


# ── TOML ──


def dotted(front: bytes, behind: bytes, most: int) -> Made:
    """A name of so many parts, or as many as there is room for."""
    def made(size: int) -> bytes:
        return front + b".".join(min(most, (size - len(front) - len(behind)) // 2) * [b"a"]) + behind
    return made


TASK = PROGRAMME + b'[[task]]\nid = "Z"\napplies = "airframe"\nfirst = { days = 1 }\n'
TOP, LAST = b" = 1\n" + PROGRAMME, b" = 1\n"
KIND, REVISION = PROGRAMME.split(b"C172"), PROGRAMME.split(b"revision = 1")

TOML = [
    # Keys have a most of parts, up to which they are read, and are none of ours.
    *(Text(f"{what}, {most:,} parts at most", "programme", dotted(front, behind, most),
           *((number, entry) if most == MOST_PARTS else (61, 0)))
      for most in (MOST_PARTS, MOST_PARTS + 1, 100_000, MOST)
      for what, front, behind, number, entry in (
          ("a dotted key alone", b"", LAST, 62, 0),
          ("a dotted key", b"", TOP, 64, 0),
          ("a dotted key of a task", TASK, LAST, 64, 4),
          ("a dotted key in an inline table", b"a = { ", b" = 1 }\n" + PROGRAMME, 64, 0),
          ("a dotted table", PROGRAMME + b"[", b"]\n", 64, 0),
          ("a dotted list of tables", PROGRAMME + b"[[", b"]]\n", 64, 0),
      )),
    Text("arrays in arrays", "programme", filled(b"a = ", b"\n", b"["), 61, 0),
    Text("arrays in arrays, with their ends", "programme",
         lambda size: b"a = " + (size - 200) // 2 * b"[" + (size - 200) // 2 * b"]" + b"\n", 61, 0),
    Text("inline tables in inline tables", "programme", filled(b"a = ", b"\n", b"{a="), 61, 0),
    Text("a kind of digits", "programme", filled(*KIND), 63, 0),
    Text("a revision of digits", "programme", filled(REVISION[0] + b"revision = 1", REVISION[1]), 61, 0),
    Text("a revision with a fraction of digits", "programme", filled(REVISION[0] + b"revision = 1.", REVISION[1]), 63, 0),
    Text("a key of digits", "programme", filled(b"", TOP), 64, 0),
    Text("keys that are all others", "programme", numbered(b"", b"k%d = 1\n", PROGRAMME), 64, 0),
    Text("tables that are all others", "programme", numbered(PROGRAMME, b"[k%d]\n", b""), 64, 0),
    Text("one key again and again", "programme", filled(b"", PROGRAMME, b"a = 1\n"), 61, 0),
    Text("tasks without a key", "programme", filled(b'kind = "C172"\nrevision = 2\n', b"", b"[[task]]\n"), 65, 0),
    Text("a text that doesn't end", "programme", filled(PROGRAMME + b'a = """', b""), 61, 0),
]


# ── CSV ──


class Log(typing.NamedTuple):
    """A log, and the faults of its rows; behind them one that is known, where it has one."""

    name: str
    made: Made
    faults: typing.List[int]
    known: bool = True


ROW = sector_rows(0, 1)
FIELDS = ROW.split(b",")


def field(nth: int, piece: bytes) -> Made:
    """A row whose field is filled, and the known one behind it."""
    front, behind = b",".join([*FIELDS[:nth], b""]), b",".join([b"", *FIELDS[nth + 1:]])
    return filled(HEADER + front, behind + ROW, piece) if nth < 5 else filled(HEADER + front, b"\n" + ROW, piece)


LOGS = [
    Log("a row of one field", filled(HEADER, b"\n" + ROW, b"x"), [68]),
    *(Log(f"a row with a long field {nth + 1}", field(nth, piece), [63]) for nth, piece in enumerate(
        [b"D", b"1", b"0", b"2", b"9", b"1"])),
    Log("a row of a million fields", lambda size: HEADER + min(1_000_000, size - 200) * b"," + b"\n" + ROW, [68]),
    Log("a row of as many fields as there is room for", filled(HEADER, b"\n" + ROW, b","), [68]),
    Log("a row of zero bytes", filled(HEADER, b"\n" + ROW, b"\0"), [68]),
    Log("a quote that doesn't end", lambda size: HEADER + b'"' + (size - 200) * b"x" + b"\n" + ROW, [68], False),
    Log("quotes", lambda size: HEADER + (size - 200) // 2 * b'""' + b"\n" + ROW, [68]),
    Log("blank lines", filled(HEADER, ROW, b"\n"), []),
    Log("rows of one byte", lambda size: HEADER + min(99_999, (size - 200) // 2) * b"x\n" + ROW, [68]),
]
HEADERS = [
    Text("a header of one field", "import", filled(b"", b"\n" + ROW, b"x"), 66, 0),
    Text("a header of a million fields", "import", lambda size: min(1_000_000, size - 200) * b"," + b"\n" + ROW, 66, 0),
    Text("a header with a long last field", "import", filled(HEADER[:-1], b"\n" + ROW, b"s"), 66, 0),
    Text("a header and more fields", "import", filled(HEADER[:-1], b"\n" + ROW, b",x"), 66, 0),
    Text("rows of one byte, and one more", "import", lambda _: HEADER + 100_001 * b"x\n", 67, 0),
]


def rows_told(log: Log, text: bytes, known: int) -> str:
    """A line for each row."""
    faults = log.faults * (text.count(b"\nx") if log.name == "rows of one byte" else 1)
    told = [f"fault {number}" for number in faults] + ([f"already {known}"] if log.known else [])
    return "".join(f"row {nth} {line}\n" for nth, line in enumerate(told, 1))


# ── the trials ──


def known_row(settled: Kept) -> int:
    """The entry of the row that is known."""
    _, told, _ = office.printed([*settled.book], Asked("import", (), HEADER + ROW))
    return int(told.split()[-1])


class Handed(typing.NamedTuple):
    """A text as it is handed in: how its bytes are made, and what its word prints of them."""

    word: str
    name: str
    made: Made
    wanted: typing.Callable[[bytes], Printed]


def all_handed(settled: Kept) -> typing.List[Handed]:
    """Each text with what has to come."""
    found = []
    for it in [*JSON, *TOML, *HEADERS, *(Text("a byte too many", word, lambda size: (size + 1) * b"1", 67, 0) for word in PATHS)]:
        wanted: Printed = (3, b"", b"fault %d entry %d\n" % (it.number, it.entry))
        found.append(Handed(it.word, it.name, it.made, lambda _, wanted=wanted: wanted))
    known = known_row(settled)
    for log in LOGS:
        found.append(Handed("import", log.name, log.made, lambda text, log=log: (
            3 * bool(log.faults), rows_told(log, text, known).encode(), b"")))
    return found


def by_word(kind: Kind, settled: Kept, it: Handed) -> None:
    """The text by its word, at the largest size that is read: it is told in time, and the file keeps its bytes."""
    with tempfile.TemporaryDirectory(prefix="office-hostile-") as folder:
        file, read = pathlib.Path(folder) / "book.db", pathlib.Path(folder) / "read"
        settled.put(file)
        text = it.made(MOST)
        read.write_bytes(text)
        came = kind.run(it.word, file, *(["P9"] if it.word == "programme" else []), read)
        kind.want(f"{it.word}, {it.name}", it.wanted(text), came)
        kind.want(f"{it.word}, {it.name}: the file", True, settled.db == file.read_bytes())
    kind.count(f"by {it.word}")


def by_desk(kind: Kind, settled: Kept, folder: pathlib.Path) -> None:
    """Each text as a body of the desk, at the largest size that it takes; and what is larger."""
    file = folder / "served.db"
    settled.put(file)
    cases = []
    for it in [*JSON, *TOML, *HEADERS[:-1]]:
        cases.append(Case(f"{it.word}, {it.name}", post(PATHS[it.word], it.made(MOST_BODY)),
                          answer(400, f"fault {it.number} entry {it.entry}\n")))
    for log in LOGS:
        text = log.made(MOST_BODY)
        cases.append(Case(f"import, {log.name}", post(PATHS["import"], text),
                          answer(409 if log.faults else 200, rows_told(log, text, known_row(settled)))))
    for path in PATHS.values():
        head = lines(f"POST {path} HTTP/1.1", f"Content-Length: {MOST}")
        cases.append(Case(f"{MOST} bytes for {path}", head, answer(413, "too large\n")))
    kind.want("answers of the desk that differ", 0, served(kind.program, file, cases))
    kind.want("the file that was served", True, settled.db == file.read_bytes())
    kind.met["by the desk"] += len(cases)
    kind.all += len(cases)


def texts(program: str, seed: int, settled: Kept, limit: trials.Time) -> Kind:
    kind = Kind("largest texts", program)
    handed = all_handed(settled)
    in_turn(kind, seed, lambda *it: by_word(kind, settled, Handed(*it)), handed, limit)
    with tempfile.TemporaryDirectory(prefix="office-hostile-") as folder:
        by_desk(kind, settled, pathlib.Path(folder))
    kind.want(f"each word within {QUICK} s", True, kind.seconds <= QUICK)
    return kind
