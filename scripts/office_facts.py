"""What the scripts know of the office: the tables of its file, the commands that it takes, and what it is asked.

A further table has its line here, a further command one that follows the others, a further question its words: the
scripts that look at tables, enter commands or ask for lists take them from here.
"""
import typing

Command = typing.Dict[str, typing.Any]

# ── tables ──

# The columns of each table of a new file.
COLUMNS = {
    "office": (
        "id INTEGER PRIMARY KEY CHECK (id = 1), layout INTEGER NOT NULL, step INTEGER NOT NULL, mark INTEGER NOT NULL"
    ),
    "entry": "seq INTEGER PRIMARY KEY, doc TEXT NOT NULL UNIQUE, kind INTEGER NOT NULL",
    "aircraft": (
        "seq INTEGER PRIMARY KEY, tail TEXT NOT NULL UNIQUE, kind TEXT NOT NULL, birth INTEGER NOT NULL, "
        "minutes INTEGER NOT NULL, cycles INTEGER NOT NULL, as_of INTEGER NOT NULL"
    ),
    "place": (
        "seq INTEGER NOT NULL, line INTEGER NOT NULL, position TEXT NOT NULL, part TEXT NOT NULL, "
        "PRIMARY KEY (seq, line)"
    ),
    "component": (
        "seq INTEGER PRIMARY KEY, serial TEXT NOT NULL UNIQUE, part TEXT NOT NULL, birth INTEGER NOT NULL, "
        "minutes INTEGER NOT NULL, cycles INTEGER NOT NULL, as_of INTEGER NOT NULL"
    ),
    "programme": "seq INTEGER PRIMARY KEY, kind TEXT NOT NULL, revision INTEGER NOT NULL",
    "task": (
        "seq INTEGER NOT NULL, line INTEGER NOT NULL, id TEXT NOT NULL, part TEXT, retire INTEGER NOT NULL, "
        "first_m INTEGER, first_c INTEGER, first_d INTEGER, rep_m INTEGER, rep_c INTEGER, rep_d INTEGER, "
        "tol_m INTEGER NOT NULL, tol_c INTEGER NOT NULL, tol_d INTEGER NOT NULL, PRIMARY KEY (seq, line)"
    ),
    "opening": (
        "seq INTEGER PRIMARY KEY, item INTEGER NOT NULL, kind TEXT NOT NULL, task TEXT NOT NULL, "
        "minutes INTEGER NOT NULL, cycles INTEGER NOT NULL, day INTEGER NOT NULL"
    ),
    "crs": "seq INTEGER PRIMARY KEY, item INTEGER NOT NULL, kind TEXT, moment INTEGER NOT NULL",
    "crs_line": (
        "seq INTEGER NOT NULL, line INTEGER NOT NULL, item INTEGER, task TEXT, defect INTEGER, "
        "PRIMARY KEY (seq, line)"
    ),
    "extension": "seq INTEGER PRIMARY KEY, defect INTEGER NOT NULL, day INTEGER NOT NULL, days INTEGER NOT NULL",
    "defect": (
        "seq INTEGER PRIMARY KEY, aircraft INTEGER NOT NULL, moment INTEGER NOT NULL, reference TEXT NOT NULL, "
        "category INTEGER NOT NULL, days INTEGER"
    ),
    "sector2": (
        "seq INTEGER PRIMARY KEY, aircraft INTEGER NOT NULL, page INTEGER NOT NULL, line INTEGER NOT NULL, "
        "took_off INTEGER NOT NULL, landed INTEGER NOT NULL, cycles INTEGER NOT NULL"
    ),
    "span2": (
        "fit_seq INTEGER PRIMARY KEY, component INTEGER NOT NULL, aircraft INTEGER NOT NULL, position TEXT NOT NULL, "
        "from_min INTEGER NOT NULL, remove_seq INTEGER, to_min INTEGER"
    ),
    "total2": (
        "item INTEGER PRIMARY KEY, minutes INTEGER NOT NULL, cycles INTEGER NOT NULL, clock INTEGER NOT NULL"
    ),
    "base2": (
        "item INTEGER NOT NULL, task TEXT NOT NULL, minutes INTEGER NOT NULL, cycles INTEGER NOT NULL, "
        "day INTEGER NOT NULL, PRIMARY KEY (item, task)"
    ),
}
# Each table with its text, as SQLite keeps it.
TABLES = {name: f"CREATE TABLE {name} ({columns}) STRICT" for name, columns in COLUMNS.items()}
FIRST_POINT = (1, 2, 0, 0)  # the row of the table `office` in a new file
OWN_TABLE = "office"  # the one table that no entry has rows in

# ── a book of one aircraft ──

TAIL, DAY = "D-ABCD", "2024-03-10"
AIRCRAFT: Command = {
    "do": "add-aircraft", "doc": "A1", "tail": TAIL, "kind": "C172", "birth": "2000-01-01", "minutes": 60000,
    "cycles": 800, "as_of": "2024-01-01T00:00",
    "positions": [{"position": "ENG", "part": "IO360"}, {"position": "PROP", "part": "HC2"}],
}
ANNUAL: Command = {
    "do": "opening", "doc": "O1", "tail": TAIL, "kind": "C172", "task": "ANNUAL", "minutes": 59000, "cycles": 780,
    "day": "2023-06-01",
}
PROGRAMME = b"""kind = "C172"
revision = 1
[[task]]
id = "100H"
applies = "airframe"
first = { hours = 1050 }
repeat = { hours = 100 }
tolerance = { hours = 10 }
[[task]]
id = "ANNUAL"
applies = "airframe"
first = { days = 365 }
repeat = { days = 365 }
tolerance = { days = 30 }
[[task]]
id = "OVH"
applies = "part:IO360"
first = { hours = 2000 }
repeat = { hours = 2000 }
"""
HEADER = b"tail,page,line,off,on,cycles\n"
FIRST_ROW = b"D-ABCD,12,1,2024-03-01T08:00,2024-03-01T09:30,1\n"
SECOND_ROW = b"D-ABCD,13,1,2024-03-02T08:00,2024-03-02T08:45,2\n"


def sector(page: int, line: int, off: str, on: str, cycles: int = 1) -> Command:
    return {"do": "sector", "tail": TAIL, "page": page, "line": line, "off": off, "on": on, "cycles": cycles}


# The commands of the two rows.
FIRST_SECTOR = sector(12, 1, "2024-03-01T08:00", "2024-03-01T09:30")
SECOND_SECTOR = sector(13, 1, "2024-03-02T08:00", "2024-03-02T08:45", 2)


def dated(do: str, doc: str, day: str, **more: object) -> Command:
    """A command at eight o'clock on this day."""
    return {"do": do, "doc": doc, "moment": f"{day}T08:00", **more}


# A list of commands of all kinds, each of which is accepted behind the others and the programme.
COMMANDS: typing.List[Command] = [
    AIRCRAFT, ANNUAL, sector(11, 1, "2024-02-01T08:00", "2024-02-01T09:30"),
    dated("defer", "X1", "2024-02-03", tail=TAIL, reference="33-40-01", category="A", days=60),
    sector(11, 2, "2024-03-02T08:00", "2024-03-02T08:45"),
    dated("defer", "X2", "2024-03-03", tail=TAIL, reference="21-31-01", category="B"),
    {"do": "extend", "doc": "Y1", "defect": "X2", "day": "2024-03-04", "days": 2},
    {"do": "add-component", "doc": "C1", "serial": "E1", "part": "IO360", "birth": "2014-03-11", "minutes": 92010,
     "cycles": 1600, "as_of": "2024-01-01T00:00"},
    dated("fit", "F1", "2024-03-04", serial="E1", tail=TAIL, position="ENG"),
    sector(11, 3, "2024-03-04T09:00", "2024-03-04T10:00"),
    dated("release", "R1", "2024-03-05", tail=TAIL, lines=[
        {"defect": "X1"}, {"tail": TAIL, "task": "ANNUAL"}, {"serial": "E1", "task": "OVH"}]),
    dated("remove", "M1", "2024-03-06", serial="E1"),
    {**AIRCRAFT, "doc": "A2", "tail": "D-EFGH"},
]
FIRST_COMMANDS = 4  # those with which the book of the aircraft begins: it has flown, and a defect is open
KINDS = list(dict.fromkeys(it["do"] for it in COMMANDS))  # the words at `do`

# ── questions ──

# The words that ask for a list of the aircraft, each with what stands behind the registration.
QUESTIONS: typing.Dict[str, typing.List[str]] = {
    "life": [], "due": [DAY], "limits": [DAY], "forecast": [DAY, "365", "120", "2"],
}

# The words that ask for a list of all aircraft, each with what stands behind the file. The desk has none of them.
FLEET_QUESTIONS: typing.Dict[str, typing.List[str]] = {
    "fleet": [DAY], "outlook": [DAY, "365", "120", "2"], "aircraft": [], "components": [], "deferred": [DAY],
}


def path_of(question: str, tail: str = TAIL) -> str:
    """Where the desk answers a question."""
    return "/".join(["/aircraft", tail, question, *QUESTIONS[question]])


DUE_PATH, LIFE_PATH, LIMITS_PATH = path_of("due"), path_of("life"), path_of("limits")
