"""The words that write, as they are stopped: what each is run on, and what it may leave by the model in model/."""
import pathlib
import shutil
import sqlite3
import subprocess
import threading
import typing

import desk_client
from desk_client import Desk, entries, get, whole
from model import csv_text, fleet, json_text, office, toml_text
from model.commands import Book, Entry
from model.http_text import Asked, asked_of
from model.judge import enter
from model.playing import words_of
from office_facts import (
    AIRCRAFT, COMMANDS, FIRST_ROW, FLEET_QUESTIONS, HEADER, PROGRAMME, QUESTIONS, SECOND_ROW, TABLES, TAIL, Command, path_of,
)

ALL_TABLES = set(TABLES)
# What is asked of the file that a stop leaves, and then of the one to which the word that was stopped is handed in again.
LISTS = [asked_of(get(path)) for path in [*map(path_of, QUESTIONS), path_of("life", "D-EFGH")]]
FLEET_LISTS = [fleet.asked_of(word, behind) for word, behind in FLEET_QUESTIONS.items()]
Program = typing.List[str]  # the program, behind what is to be loaded in front of it
# How a call of the disk is stopped (stop_disk.c), and what a program that goes on behind it tells, with which status.
HOW = ["before", "within", "fail", "once"]
TOLD = [("", 0), ("fault store\n", 4), ("fault store\n", 5), ("fault not-ours\n", 5)]


class Bad(Exception):
    """What a stop left that it may not leave."""


class Ended(typing.NamedTuple):
    """How a stopped run ended: its status, what it acknowledged, and what it told on standard error."""

    status: int
    acknowledged: str
    told: str


def want(what: str, wanted: object, found: object) -> None:
    if wanted != found:
        raise Bad(f"{what}: wanted {wanted!r}, found {found!r}")


def want_end(how: str, status: int, ended: Ended) -> None:
    """The run ended as one that is stopped so has to, or as one that nothing stops, with this status."""
    if how in ("before", "within"):
        want("the status", (-9, ""), (ended.status, ended.told))
    elif (ended.told, ended.status) not in [*TOLD, ("", status)]:
        raise Bad(f"it told {ended.told!r} with status {ended.status}")


def is_half_made(file: pathlib.Path) -> bool:
    """Whether the file is the first page of a database whose first letter is still to be written. The program makes
    such a file anew; SQLite itself refuses it, since it does not know the mark in the log beside it."""
    content = file.read_bytes()
    return 0 < len(content) <= 4096 and content[0] == 0


def tables_by_sqlite(file: pathlib.Path) -> typing.Set[str]:
    """The tables that SQLite finds in a sound copy of the file and its log."""
    copy = file.with_name("copy.db")
    log, log_copy = pathlib.Path(f"{file}-wal"), pathlib.Path(f"{copy}-wal")
    shutil.copyfile(file, copy)
    if log.exists():
        shutil.copyfile(log, log_copy)
    conn = sqlite3.connect(copy)
    try:
        want("integrity_check", [("ok",)], conn.execute("PRAGMA integrity_check").fetchall())
        return {name for (name,) in conn.execute("SELECT name FROM sqlite_schema WHERE type = 'table'")}
    except sqlite3.Error as error:
        raise Bad(f"SQLite: {error}") from error
    finally:
        conn.close()
        for left in (copy, log_copy, pathlib.Path(f"{copy}-shm")):
            left.unlink(missing_ok=True)


def commands_of(asked: Asked) -> typing.List[Entry]:
    """The commands that a word states."""
    if asked.word == "programme":
        return [toml_text.entry_of(asked.body, asked.words[0])]
    if asked.word == "import":
        return [row for row in csv_text.rows_of(asked.body) if isinstance(row, Entry)]
    return json_text.entries_of(asked.body)


def acknowledged(text: str) -> int:
    """How many commands were acknowledged in what was printed or answered."""
    return sum("accepted " in line or "already " in line for line in text.splitlines())


class Started:
    """A run of a word."""

    def __init__(self, program: Program, words: typing.Sequence[object]) -> None:
        pipes = {"stdin": subprocess.DEVNULL, "stdout": subprocess.PIPE, "stderr": subprocess.PIPE}
        self.process = subprocess.Popen([*program, *map(str, words)], **pipes)

    def end(self) -> Ended:
        printed, told = self.process.communicate(timeout=desk_client.PATIENCE)
        return Ended(self.process.returncode, printed.decode(), told.decode())


class Posting:
    """A run of `serve`: a client posts commands, each once the one before is answered, and keeps the answers."""

    def __init__(self, program: Program, file: pathlib.Path, commands: typing.List[Command]) -> None:
        self.desk = Desk([*program, "serve"], file, len(commands))
        self.process = self.desk.process
        self.answers = ""
        self.client = threading.Thread(target=self.post, args=[commands])
        self.client.start()

    def post(self, commands: typing.List[Command]) -> None:
        for command in commands:
            try:
                came = whole(self.desk, entries(command)).decode()
            except OSError:  # it has ended
                return
            head, _, answer = came.partition("\r\n\r\n")
            if not answer or f"Content-Length: {len(answer)}\r\n" not in f"{head}\r\n":
                return
            self.answers += answer

    def end(self) -> Ended:
        """Once the process and the client have ended."""
        status, _, told = self.desk.end()
        self.client.join()
        return Ended(status, self.answers, told.decode())


class Word:
    """A word that is stopped, over the file of an office in a folder of its own."""

    name = ""
    status = 0  # what it ends with where nothing stops it

    def __init__(self, office_path: str) -> None:
        self.program = [office_path]

    def run(self, file: pathlib.Path, *words: object) -> office.Printed:
        """What the program does on these words, the file behind the first."""
        return desk_client.run(self.program[0], words[0], file, *words[1:])

    def listed(self, file: pathlib.Path, lists: typing.List[Asked]) -> typing.List[office.Printed]:
        return [self.run(file, asked.word, *words_of(asked)) for asked in lists]

    def before(self, file: pathlib.Path) -> None:
        """Makes what the file holds before the word, and what the word reads: here nothing."""

    def start(self, program: Program, file: pathlib.Path) -> typing.Union[Started, Posting]:
        return Started(program, [self.name, file])

    def after(self, file: pathlib.Path, ended: Ended) -> str:
        """Looks at the file that a stop left. Answers what it is."""
        raise NotImplementedError


class Init(Word):
    """`init FILE`: the file is without our tables, or has those of the empty book."""

    name = "init"

    def after(self, file: pathlib.Path, ended: Ended) -> str:
        if not file.exists():
            found, tables = "no file", set()
        elif is_half_made(file):
            found, tables = "a first page without its first letter", set()
        else:
            tables = tables_by_sqlite(file)
            found = "the whole book" if tables else "a file without tables"
        if tables not in (set(), ALL_TABLES):
            raise Bad(f"half of the tables: {sorted(tables)}")
        if ended.acknowledged == "created\n" and not tables:
            raise Bad("an acknowledged book is lost")
        again = (5, b"", b"fault exists\n") if tables else (0, b"created\n", b"")
        want("init once more", again, self.run(file, "init"))
        want("the tables then", ALL_TABLES, tables_by_sqlite(file))
        want("life", (1, b"refused 20\n", b""), self.run(file, "life", TAIL))
        return found


class Entering(Word):
    """A word that enters commands: the file has the book of a prefix of them, with each that was acknowledged."""

    earlier: typing.List[Asked] = []  # the steps that make the book before
    asked: Asked  # the word that is stopped

    def __init__(self, office_path: str) -> None:
        super().__init__(office_path)
        book: Book = []
        for step in self.earlier:
            office.printed(book, step)
        self.books = [book]
        for entry in commands_of(self.asked):
            book = [*book]
            enter(book, entry)
            self.books.append(book)
        self.lists = [[office.printed(book, asked) for asked in LISTS] for book in self.books]
        self.last_lists = [office.printed(self.books[-1], asked) for asked in FLEET_LISTS]
        self.again = [office.printed([*book], self.asked) for book in self.books]

    def before(self, file: pathlib.Path) -> None:
        want("init", (0, b"created\n", b""), self.run(file, "init"))
        book: Book = []
        for step in self.earlier:
            want(step.word, office.printed(book, step), self.run(file, *self.words(file, step)))
        self.words(file, self.asked)

    def words(self, file: pathlib.Path, asked: Asked) -> typing.List[object]:
        """The words for this, but the file; what they read is written beside that."""
        read = file.with_name("read")
        read.write_bytes(asked.body)
        return [asked.word, *words_of(asked), read]

    def start(self, program: Program, file: pathlib.Path) -> typing.Union[Started, Posting]:
        word, *rest = self.words(file, self.asked)
        return Started(program, [word, file, *rest])

    def kept(self, file: pathlib.Path, ended: Ended) -> int:
        """How many of the commands are kept, by the lists and by the replies where they are handed in again."""
        found = self.listed(file, LISTS)
        again = self.run(file, *self.words(file, self.asked))
        kept = next((n for n in range(len(self.books)) if found == self.lists[n] and again == self.again[n]), None)
        if kept is None:
            raise Bad(f"the book of no prefix of the commands: {found!r}, and handed in again {again!r}")
        least = acknowledged(ended.acknowledged)
        if kept < least:
            raise Bad(f"{kept} of the commands are kept, and these were acknowledged: {ended.acknowledged!r}")
        if ended.status >= 0 and kept > least + ("store" in ended.told):
            raise Bad(f"{kept} of the commands are kept, {least} were acknowledged, and it told {ended.told!r}")
        want("the lists then", self.last_lists, self.listed(file, FLEET_LISTS))
        return kept

    def after(self, file: pathlib.Path, ended: Ended) -> str:
        want("the tables", ALL_TABLES, tables_by_sqlite(file))
        return f"{self.kept(file, ended)} of {len(self.books) - 1}"


def made(*commands: object) -> bytes:
    return entries(*commands).partition(b"\r\n\r\n")[2]


class Enter(Entering):
    """`enter FILE ENTRIES`, with commands of all kinds that it takes, behind a programme."""

    name = "enter"
    earlier = [Asked("programme", ("P1",), PROGRAMME)]
    asked = Asked("enter", (), made(*COMMANDS))


class Serve(Enter):
    """`serve FILE PORT COUNT`, where each of these commands is posted once the one before is answered."""

    name = "serve"

    def start(self, program: Program, file: pathlib.Path) -> typing.Union[Started, Posting]:
        return Posting(program, file, COMMANDS)


class Programme(Entering):
    """`programme FILE DOC TOML`, with a hundred tasks."""

    name = "programme"
    asked = Asked("programme", ("P1",), b'kind = "C172"\nrevision = 1\n' + b"".join(
        b'[[task]]\nid = "T%d"\napplies = "airframe"\nfirst = { hours = %d }\n' % (number, number)
        for number in range(1, 101)))


def row(line: int) -> bytes:
    """A row of a log, four a day; the first of them is cut."""
    if line == 0:
        return b"D-ABCD,14,1\n"
    day, hour = 3 + line // 4, 6 + 3 * (line % 4)
    return b"D-ABCD,14,%d,2024-03-%02dT%02d:00,2024-03-%02dT%02d:30,1\n" % (line + 1, day, hour, day, hour)


class Import(Entering):
    """`import FILE CSV`, with twenty rows, of which the second lands before it takes off, and the fourth is cut."""

    name = "import"
    status = 3
    earlier = [Asked("enter", (), made(AIRCRAFT))]
    asked = Asked("import", (), HEADER + FIRST_ROW + b"D-ABCD,12,2,2024-03-01T10:00,2024-03-01T09:50,1\n" + SECOND_ROW
                  + b"".join(map(row, range(17))))


# Commands that a file of layout 1 takes, which has no programme, and how many of them it has where a word enters the
# others.
OLD = [it for it in COMMANDS if it["do"] not in ("opening", "release")]
OLD_BEFORE = 1 + [it["do"] for it in OLD].index("fit")


class Old(Word):
    """A word over a file of layout 1, with a book that takes no programme."""

    asked = Asked("enter", (), made(*OLD))

    def __init__(self, office_path: str) -> None:
        super().__init__(office_path)
        book: Book = []
        self.replies = office.printed(book, self.asked)
        self.lists = [office.printed(book, asked) for asked in [*LISTS, *FLEET_LISTS]]
        self.again = office.printed(book, self.asked)

    def read(self, file: pathlib.Path) -> pathlib.Path:
        """The commands, beside the file."""
        read = file.with_name("read")
        read.write_bytes(self.asked.body)
        return read

    def look(self, file: pathlib.Path) -> None:
        """Looks at the whole book, in a file that any of the lists moves to the newest layout."""
        want("the lists", self.lists, self.listed(file, [*LISTS, *FLEET_LISTS]))
        is_verified(self, file)
        want("enter", self.again, self.run(file, "enter", self.read(file)))


def is_verified(word: Word, file: pathlib.Path) -> None:
    want("verify", (0, b"verified\n", b""), word.run(file, "verify"))


def point_of(word: Word, file: pathlib.Path) -> str:
    """The point of a file, as the program tells it."""
    status, point, told = word.run(file, "migrate", 0)
    want("the point", (0, b""), (status, told))
    return point.decode()


def place_of(point: str) -> str:
    _, layout, step, _ = point.split()
    return f"layout {layout}, step {step}"


def has_arrived(word: Word, file: pathlib.Path) -> None:
    want("the point then", "point 2 0 0\n", point_of(word, file))


class InitOld(Old):
    """`init-old FILE ENTRIES`: the file is without our tables, or has the whole book."""

    name = "init-old"

    def start(self, program: Program, file: pathlib.Path) -> typing.Union[Started, Posting]:
        return Started(program, [self.name, file, self.read(file)])

    def after(self, file: pathlib.Path, ended: Ended) -> str:
        if not file.exists():
            found = "no file"
        elif is_half_made(file):
            found = "a first page without its first letter"
        else:
            found = "the whole book" if tables_by_sqlite(file) else "a file without tables"
        is_whole = found == "the whole book"
        if ended.acknowledged and not is_whole:
            raise Bad("an acknowledged book is lost")
        again = (5, b"", b"fault exists\n") if is_whole else self.replies
        want("init-old once more", again, self.run(file, "init-old", self.read(file)))
        self.look(file)
        return found


class Moving(Old):
    """A word over such a file that enters nothing: the file has the book, at some point of the move."""

    def before(self, file: pathlib.Path) -> None:
        want("init-old", self.replies, self.run(file, "init-old", self.read(file)))

    def is_told(self, point: str, ended: Ended) -> None:
        """Looks at what was printed, where the file is at this point behind it."""
        raise NotImplementedError

    def after(self, file: pathlib.Path, ended: Ended) -> str:
        point = point_of(self, file)
        self.is_told(point, ended)
        self.look(file)
        has_arrived(self, file)
        return place_of(point)


class Migrate(Moving):
    """`migrate FILE STEPS`, to the end of the move."""

    name = "migrate"

    def start(self, program: Program, file: pathlib.Path) -> typing.Union[Started, Posting]:
        return Started(program, [self.name, file, 2_000_000])

    def is_told(self, point: str, ended: Ended) -> None:
        if ended.acknowledged not in ("", point):
            raise Bad(f"{ended.acknowledged!r} was acknowledged, and it is {point!r}")


class OldDue(Moving):
    """`due FILE TAIL DAY`, which moves the file and prints the list."""

    name = "old-due"
    question = asked_of(get(path_of("due")))

    def start(self, program: Program, file: pathlib.Path) -> typing.Union[Started, Posting]:
        return Started(program, [self.question.word, file, *words_of(self.question)])

    def is_told(self, point: str, ended: Ended) -> None:
        if ended.acknowledged:
            want("the list", self.lists[LISTS.index(self.question)][1].decode(), ended.acknowledged)
            want("the point of a file that was read", "point 2 0 0\n", point)


class OldEnter(Entering):
    """`enter FILE ENTRIES`, which moves the file: it is at some point of the move, and at the last where a command is
    kept."""

    name = "old-enter"
    earlier = [Asked("enter", (), made(*OLD[:OLD_BEFORE]))]
    asked = Asked("enter", (), made(*OLD[OLD_BEFORE:]))

    def before(self, file: pathlib.Path) -> None:
        [earlier] = self.earlier
        _, *read = self.words(file, earlier)
        want("init-old", office.printed([], earlier), self.run(file, "init-old", *read))

    def after(self, file: pathlib.Path, ended: Ended) -> str:
        point = point_of(self, file)
        is_verified(self, file)
        kept = self.kept(file, ended)
        if kept and point != "point 2 0 0\n":
            raise Bad(f"{kept} of the commands are kept at {point!r}")
        has_arrived(self, file)
        return f"{place_of(point)}, {kept} of {len(self.books) - 1}"


# A further word that writes has a class beside these.
WORDS: typing.List[typing.Type[Word]] = [
    Init, Enter, Programme, Import, Serve, InitOld, Migrate, OldDue, OldEnter,
]
