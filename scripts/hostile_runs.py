"""What the trials of hostile input share: a run with its time and memory, a file with its book, and what differs."""
import collections
import datetime
import pathlib
import threading
import time
import typing

from desk_answers import MOST_DIFFERENCES, differs
from desk_client import get, run
from model import office
from model.commands import Book
from model.http_text import Asked, asked_of
from model.office import Printed
from model.playing import words_of
from office_facts import COMMANDS, DUE_PATH, HEADER, PROGRAMME, TAIL, dated
from stopped_words import made
from trials import Time, mixed, side_by_side

JOBS = 2  # runs side by side
MOST_KILOBYTES = 256 * 1024  # of memory for a run, whatever comes in

NOT_OURS: Printed = (5, b"", b"fault not-ours\n")
STORE: Printed = (5, b"", b"fault store\n")
VERIFIED: Printed = (0, b"verified\n", b"")
ARRIVED: Printed = (0, b"point 2 0 0\n", b"")

DUE = asked_of(get(DUE_PATH))
NEW = Asked("enter", (), made(dated("defer", "X9", "2024-06-01", tail=TAIL, reference="25-10-01", category="D")))
WORDS = ("verify", "due", "enter", "migrate")  # that are tried on a file


# ── the trials of a kind ──


class Kind:
    """A kind of input: how many were tried, how they were met, what differed, and the most time of a run."""

    def __init__(self, name: str, program: str) -> None:
        self.name, self.program = name, program
        self.all = self.runs = self.differing = 0
        self.seconds = 0.0
        self.note = ""
        self.met: typing.Counter[str] = collections.Counter()
        self.lock = threading.Lock()

    def run(self, *words: object) -> Printed:
        """What the program prints within a bound of memory. One that does not end in time is ended, and its status says so."""
        began = time.monotonic()
        came = run("sh", "-c", 'ulimit -v "$0" && exec "$@"', MOST_KILOBYTES, self.program, *words)
        with self.lock:
            self.runs += 1
            self.seconds = max(self.seconds, time.monotonic() - began)
        return came

    def want(self, what: str, wanted: object, came: object) -> bool:
        """Whether it came as wanted; the first differences are told."""
        with self.lock:
            if wanted != came:
                self.differing += 1
                if self.differing <= MOST_DIFFERENCES:
                    differs(f"{self.name}: {what}", wanted, came)
        return wanted == came

    def want_one(self, what: str, wanted: typing.Collection[object], came: object) -> bool:
        return self.want(what, came if came in wanted else wanted, came)

    def count(self, how: str) -> None:
        """An input was met so."""
        with self.lock:
            self.met[how] += 1

    def tried(self) -> int:
        return sum(self.met.values())

    def least(self, how: str, number: int) -> None:
        """At least so many have to be met so, where the time allowed all inputs."""
        if self.tried() >= self.all:
            self.want(f"{number} that are {how}", True, self.met[how] >= number)

    def line(self) -> str:
        met = ", ".join(f"{number} {how}" for how, number in sorted(self.met.items()))
        return (f"{self.name}: {self.tried()} inputs, {self.differing} differ: {met}; "
                f"{self.runs} runs, each within {self.seconds:.2f} s{self.note}")


def in_turn(
    kind: Kind, seed: int, work: typing.Callable[..., None], cases: typing.List[typing.Any], limit: Time,
) -> None:
    """Works on as many of the cases as there is time for, in an order of chance."""
    kind.all = len(cases)
    side_by_side(lambda it: work(*it), mixed(cases, seed, kind.name), JOBS, limit)


# ── a file and its book ──


class Kept(typing.NamedTuple):
    """The bytes of a database and of its log, if it has one, and the book that they stand for."""

    db: bytes
    log: typing.Optional[bytes]
    book: Book

    def put(self, file: pathlib.Path) -> None:
        """These two files alone."""
        log = log_of(file)
        file.write_bytes(self.db)
        if self.log is None:
            log.unlink(missing_ok=True)
        else:
            log.write_bytes(self.log)


def log_of(file: pathlib.Path) -> pathlib.Path:
    return file.with_name(f"{file.name}-wal")


def kept(file: pathlib.Path, book: Book) -> Kept:
    return Kept(file.read_bytes(), log_of(file).read_bytes(), book)


def sector_rows(first: int, count: int) -> bytes:
    """Rows of a log, one sector behind the other, twelve a day."""
    begin = datetime.datetime(2024, 3, 7)
    found = b""
    for nth in range(first, first + count):
        off = begin + datetime.timedelta(hours=2 * nth)
        on = off + datetime.timedelta(minutes=45)
        found += b"%s,%d,%d,%s,%s,1\n" % (TAIL.encode(), 100 + nth // 10, 1 + nth % 10, *(
            it.strftime("%Y-%m-%dT%H:%M").encode() for it in (off, on)))
    return found


STEPS = [
    Asked("programme", ("P1",), PROGRAMME),
    Asked("enter", (), made(*COMMANDS)),
    Asked("import", (), HEADER + sector_rows(0, 230)),
]


def words_for(asked: Asked, file: pathlib.Path) -> typing.List[object]:
    """The words of the program for this; what they read is written beside the file."""
    if asked.word in office.LISTS:
        return [asked.word, file, *words_of(asked)]
    read = file.with_name(f"{file.name}.read")
    read.write_bytes(asked.body)
    return [asked.word, file, *words_of(asked), read]


def tried(kind: Kind, word: str, file: pathlib.Path) -> Printed:
    """What one of WORDS answers of a file."""
    if word in ("verify", "migrate"):
        return kind.run(word, file, *([2_000_000] if word == "migrate" else []))
    return kind.run(*words_for(DUE if word == "due" else NEW, file))


def answers(book: Book) -> typing.Dict[str, Printed]:
    """What each of WORDS has to answer where the file stands for this book."""
    return {"verify": VERIFIED, "due": office.printed(book, DUE), "enter": office.printed([*book], NEW), "migrate": ARRIVED}


def whole_book(kind: Kind, file: pathlib.Path) -> Kept:
    """A file with a book of some tens of pages, which the program makes."""
    kind.want("init", (0, b"created\n", b""), kind.run("init", file))
    book: Book = []
    for step in STEPS:
        kind.want(step.word, office.printed(book, step), kind.run(*words_for(step, file)))
    return kept(file, book)
