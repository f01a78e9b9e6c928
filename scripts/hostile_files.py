"""Files that are cut or changed: what the program has to say of each, by SQLite's format and by what SQLite reads."""
import functools
import pathlib
import random
import re
import sqlite3
import tempfile
import typing

import trials
from desk_client import Desk, entries, whole
from hostile_runs import (
    NOT_OURS, STORE, VERIFIED, WORDS, Kept, Kind, answers, in_turn, kept, log_of, tried,
)
from model import office
from model.commands import Book
from model.office import Printed
from office_facts import TAIL, Command, dated

PAGE = 4096  # bytes of a page of a new file
COUNTS = 0xFF000000  # from this number on a frame of the log has no page: it counts zeros
UNUSED = re.compile(rb"(\*\*\* in database main \*\*\*\n)?(Page \d+(: never| is never) used\n?)+")  # as integrity_check tells it
OTHER_PART = b"HC2"  # the part of a position that nothing is fitted to: with another name it is that of another book
OWN = ("total2", "base2")  # the tables that follow from the others
Tables = typing.Dict[str, typing.List[typing.Tuple[object, ...]]]
Wanted = typing.Dict[str, typing.Container[Printed]]  # of each word
Read = typing.Optional[typing.Tuple[typing.List[object], Tables]]  # the schema and the rows of a sound file

# What is entered by the desk that is killed, a commit for each.
LATER: typing.List[Command] = [
    dated("defer", "X10", "2024-05-01", tail=TAIL, reference="21-31-01", category="C"),
    dated("fit", "F2", "2024-05-02", serial="E1", tail=TAIL, position="ENG"),
    dated("release", "R2", "2024-05-03", tail=TAIL, lines=[{"tail": TAIL, "task": "ANNUAL"}, {"serial": "E1", "task": "OVH"}]),
    {"do": "extend", "doc": "Y2", "defect": "X10", "day": "2024-05-04", "days": 3},
    {"do": "sector", "tail": TAIL, "page": 900, "line": 1, "off": "2024-05-05T08:00", "on": "2024-05-05T09:30", "cycles": 2},
    dated("release", "R3", "2024-05-06", tail=TAIL, lines=[{"defect": "X10"}, {"tail": TAIL, "task": "100H"}]),
    dated("remove", "M2", "2024-05-07", serial="E1"),
    {"do": "sector", "tail": TAIL, "page": 900, "line": 2, "off": "2024-05-08T08:00", "on": "2024-05-08T10:10", "cycles": 1},
]


# ── the log, by SQLite's format ──


class Commit(typing.NamedTuple):
    """Where a commit of the log ends, and the pages that it has."""

    end: int
    pages: typing.FrozenSet[int]


def commits_of(log: bytes) -> typing.List[Commit]:
    """The commits of a sound log: frames with the salts of its header, up to one that has the size of the database."""
    found, pages, place = [], set(), 32
    while place + 24 + PAGE <= len(log) and log[place + 8:place + 16] == log[16:24]:
        number, size = (int.from_bytes(log[place + at:place + at + 4], "big") for at in (0, 4))
        place += 24 + PAGE
        if number < COUNTS:
            pages.add(number)
        if size:
            found.append(Commit(place, frozenset(pages)))
            pages = set()
    return found


# ── the files ──


def killed_book(
    kind: Kind, file: pathlib.Path, book: Book, commands: typing.Sequence[Command] = tuple(LATER),
) -> typing.Tuple[Kept, typing.List[Book]]:
    """The pair that a desk left which was killed behind these commands, of a file that had this book; and the book behind each
    commit of its log."""
    desk = Desk([kind.program, "serve"], file, len(commands) + 1)
    books = [book]
    try:
        for command in commands:
            book = [*book]
            wanted = office.answered(book, entries(command))
            kind.want(f"the answer to {command}", wanted, whole(desk, entries(command)))
            books.append(book)
    finally:
        desk.stop()
    pair = kept(file, book)
    kind.want("the commits of the log", len(commands), len(commits_of(pair.log or b"")))
    return pair, books


def words_on(kind: Kind, pair: Kept, wanted: Wanted, what: str) -> typing.Dict[str, Printed]:
    """What each word answers of these two files. Where it is refused the database stays as it is, and so does what the log
    has committed."""
    came = {}
    for word in WORDS:
        with tempfile.TemporaryDirectory(prefix="office-hostile-") as folder:
            file = pathlib.Path(folder) / "book.db"
            pair.put(file)
            came[word] = tried(kind, word, file)
            kind.want_one(f"{what}: {word}", wanted[word], came[word])
            if came[word] in (STORE, NOT_OURS):
                kind.want(f"{what}: the file behind {word}", pair.db, file.read_bytes())
                done = commits_of(pair.log or b"")
                log = log_of(file).read_bytes() if log_of(file).exists() else b""
                if done:
                    kind.want(f"{what}: the log behind {word}", pair.log[:done[-1].end], log[:done[-1].end])
    return came


def all_same(one: Printed) -> Wanted:
    return {word: [one] for word in WORDS}


def right(book: Book) -> Wanted:
    return {word: [answer] for word, answer in answers(book).items()}


# ── cut ──


def cut_db(kind: Kind, settled: Kept, killed: Kept, at: int, log: typing.Optional[bytes]) -> None:
    """The database cut behind so many bytes, beside this log. What is cut away has to be in the log, else it is no database:
    its header has the number of its pages, and so has each commit."""
    is_killed = log == killed.log and log is not None
    of = killed if is_killed else settled
    logged = frozenset().union(*(it.pages for it in commits_of(log or b"")))
    size = len(of.db) // PAGE
    lost = {page for page in range(1, size + 1) if page * PAGE > at} - logged
    pair = Kept(of.db[:at], log, of.book)
    beside = "without a log" if log is None else "beside a full log" if is_killed else "beside an empty log"
    if at <= 1:
        how, wanted = "refused", all_same(NOT_OURS)
    elif lost:
        how, wanted = "refused", all_same(STORE)
    else:
        how, wanted = "answered whole", right(of.book)
    words_on(kind, pair, wanted, f"cut behind byte {at} of {len(of.db)}, {beside}")
    kind.count(how)


def places(size: int, chance: random.Random, count: int, step: int, first: int = 0) -> typing.List[int]:
    """Each boundary, and so many other places."""
    return [*range(first, size + 1, step), *(chance.randrange(size) for _ in range(count))]


def cut_files(program: str, seed: int, settled: Kept, killed: Kept, limit: trials.Time) -> Kind:
    kind, chance = Kind("cut databases", program), random.Random(f"{seed} cuts")
    cases = []
    for log, of in ((None, settled), (settled.log, settled), (killed.log, killed)):
        cases += [(at, log) for at in [1, 2, *places(len(of.db), chance, 34, PAGE)]]
    in_turn(kind, seed, functools.partial(cut_db, kind, settled, killed), cases, limit)
    kind.least("refused", 100)
    kind.least("answered whole", 5)
    return kind


# ── the log cut, or bytes of it changed ──


def damaged_log(kind: Kind, books: typing.List[Book], pair: Kept, log: bytes, first: int, what: str) -> None:
    """The log without what stands from this byte on, or with that byte changed: the commits before it count, and no other."""
    found = commits_of(pair.log or b"")
    last = sum(it.end <= first for it in found) if first >= 32 else 0
    words_on(kind, Kept(pair.db, log, books[last]), right(books[last]), what)
    kind.count("with the whole book" if last == len(found) else "with a part of the commands" if last else "with the book before")


def changed(content: bytes, at: int, value: int) -> bytes:
    return content[:at] + bytes([value]) + content[at + 1:]


def other(chance: random.Random, old: int) -> int:
    return (old + chance.randrange(1, 256)) % 256


def damaged_logs(program: str, seed: int, killed: Kept, books: typing.List[Book], limit: trials.Time) -> Kind:
    kind, chance = Kind("cut and changed logs", program), random.Random(f"{seed} logs")
    log = killed.log or b""
    end = commits_of(log)[-1].end
    cases = [(log[:at], at, f"a log cut behind byte {at} of {len(log)}") for at in places(end, chance, 20, 24 + PAGE, 32)]
    behind = [chance.randrange(end, len(log)) for _ in range(6)]
    cases += [(log[:at], at, f"a log cut behind byte {at} of {len(log)}") for at in (0, 1, 31, 33, 55, 56, *behind, len(log))]
    for at in [*range(0, 56, 3), *(chance.randrange(end) for _ in range(50)), *behind]:
        cases.append((changed(log, at, other(chance, log[at])), at, f"a log with another byte {at}"))
    in_turn(kind, seed, functools.partial(damaged_log, kind, books, killed), cases, limit)
    for how in ("with the whole book", "with a part of the commands", "with the book before"):
        kind.least(how, 3)
    return kind


# ── changed bytes of the database ──


def read_by_sqlite(pair: Kept) -> Read:
    """The schema and the rows that SQLite reads of sound files, in which pages may be lost; None where it finds them unsound."""
    with tempfile.TemporaryDirectory(prefix="office-hostile-") as folder:
        file = pathlib.Path(folder) / "book.db"
        pair.put(file)
        conn = sqlite3.connect(file)
        conn.text_factory = bytes
        try:
            found = b"\n".join(line for line, in conn.execute("PRAGMA integrity_check"))
            if found != b"ok" and not UNUSED.fullmatch(found):
                return None
            schema = [(kind, name, b" ".join((sql or b"").lower().split())) for kind, name, sql in conn.execute(
                "SELECT type, name, sql FROM sqlite_schema ORDER BY name")]  # blanks and capitals mean nothing in it
            names = [name.decode() for kind, name, _ in schema if kind == b"table" and not name.startswith(b"sqlite_")]
            return schema, {name: sorted(conn.execute(f'SELECT * FROM "{name}"'), key=repr) for name in names}
        except (sqlite3.Error, UnicodeDecodeError, OverflowError):
            return None
        finally:
            conn.close()


def roots_by_sqlite(pair: Kept) -> typing.Dict[str, int]:
    """The first page of each table."""
    with tempfile.TemporaryDirectory(prefix="office-hostile-") as folder:
        file = pathlib.Path(folder) / "book.db"
        pair.put(file)
        conn = sqlite3.connect(file)
        found = dict(conn.execute("SELECT name, rootpage FROM sqlite_schema WHERE type = 'table'"))
        conn.close()
        return found


def same_rows(kind: Kind, empty: Kept, rows: Tables) -> typing.Optional[typing.Dict[str, Printed]]:
    """What each word answers of a sound file with these rows; None where SQLite does not take them."""
    with tempfile.TemporaryDirectory(prefix="office-hostile-") as folder:
        file = pathlib.Path(folder) / "rows.db"
        empty.put(file)
        conn = sqlite3.connect(file, isolation_level=None)
        try:
            conn.execute("BEGIN")
            conn.execute("DELETE FROM office")
            for name, of in rows.items():
                for row in of:
                    cells = [it.decode() if isinstance(it, bytes) else it for it in row]
                    conn.execute(f"INSERT INTO {name} VALUES ({', '.join('?' * len(cells))})", cells)
            conn.execute("COMMIT")
            conn.execute("PRAGMA wal_checkpoint(TRUNCATE)")
        except (sqlite3.Error, UnicodeDecodeError):
            return None
        finally:
            conn.close()
        return words_on(kind, Kept(file.read_bytes(), None, []), {word: Anything() for word in WORDS}, "the same rows")


class Anything:
    """Whatever the program answers of a sound file is compared with the other file."""

    def __contains__(self, _: object) -> bool:
        return True


def changed_db(
    kind: Kind, settled: Kept, empty: Kept, before: typing.Any, changes: typing.List[typing.Tuple[int, int]],
) -> None:
    """Bytes of the database are others. Where SQLite finds the file sound, each word has to answer as of a sound file with
    the rows that SQLite reads, or to refuse it; where it does not, the file is not `verified`."""
    db = settled.db
    for at, value in changes:
        db = changed(db, at, value)
    what = f"bytes changed, {changes}"
    pair = Kept(db, None, settled.book)
    found = read_by_sqlite(pair)
    if found is not None and found == before:
        wanted = {word: [answer, STORE] for word, answer in answers(settled.book).items()}
        came = words_on(kind, pair, wanted, what)
        kind.count("with the same rows, refused" if came["verify"] == STORE else "with the same rows, answered as before")
        return
    alike = None if found is None or found[0] != before[0] else same_rows(kind, empty, found[1])
    if alike is None:
        came = words_on(kind, pair, {word: Anything() for word in WORDS}, what)
        kind.want(f"{what}: it is verified", False, came["verify"] == VERIFIED)
        for word in WORDS:
            kind.want(f"{what}: the status of {word}", True, came[word][0] in (0, 1, 4, 5))
        kind.count("unsound, and not verified")
        return
    came = words_on(kind, pair, {word: [alike[word], STORE] for word in WORDS}, what)
    if all(before[1][name] == found[1][name] for name in before[1] if name not in OWN):
        kind.want(f"{what}: it is verified", False, came["verify"] == VERIFIED)
        kind.count("with other rows of what follows from the others, told")
        return
    kind.count("with other rows, of another book" if came["verify"] == VERIFIED else "with other rows, told")


def used_bytes(db: bytes) -> typing.List[int]:
    """The bytes of the heads and rows of pages: between them nothing is read."""
    found: typing.List[int] = []
    for page in range(0, len(db), PAGE):
        head = page + 100 * (page == 0)
        cells, begin = (int.from_bytes(db[head + at:head + at + 2], "big") for at in (3, 5))
        found += [*range(page, head + 12 + 2 * cells), *range(page + begin, page + PAGE)]
    return found


def changed_files(program: str, seed: int, settled: Kept, empty: Kept, limit: trials.Time) -> Kind:
    kind, chance = Kind("changed databases", program), random.Random(f"{seed} changes")
    before = read_by_sqlite(settled)
    used = used_bytes(settled.db)
    cases = []
    for nth in range(150):
        many = chance.choice([1, 1, 1, 2, 8])
        drawn = [chance.choice(used) if nth % 8 else chance.randrange(len(settled.db)) for _ in range(many)]
        cases.append([(at, other(chance, settled.db[at])) for at in drawn])
    cases += [[(at, other(chance, settled.db[at]))] for at in range(0, 100, 4)]
    roots = roots_by_sqlite(settled)
    with_own = [roots[name] for name in OWN]
    own = [at for at in used if at // PAGE + 1 in with_own]
    cases += [[(at, other(chance, settled.db[at]))] for at in chance.sample(own, 16)]
    cases += [[(it.end() - 1, ord("3"))] for it in re.finditer(OTHER_PART, settled.db) if it.start() in used]
    in_turn(kind, seed, lambda *it: changed_db(kind, settled, empty, before, list(it)), cases, limit)
    kind.least("unsound, and not verified", 20)
    kind.least("with other rows, told", 3)
    kind.least("with other rows of what follows from the others, told", 3)
    kind.least("with other rows, of another book", 1)
    kind.least("with the same rows, answered as before", 10)
    return kind


# ── free pages ──


def free_pages(program: str, settled: Kept, megabytes: int) -> Kind:
    """A table of another program was filled in a file and dropped again, so that most pages of it are free."""
    kind = Kind(f"{megabytes} MB of free pages", program)
    with tempfile.TemporaryDirectory(prefix="office-hostile-") as folder:
        file = pathlib.Path(folder) / "book.db"
        settled.put(file)
        conn = sqlite3.connect(file, isolation_level=None)
        conn.execute("PRAGMA journal_mode = DELETE")
        conn.execute("PRAGMA synchronous = OFF")
        conn.execute("CREATE TABLE large (content BLOB)")
        conn.execute("WITH RECURSIVE n (i) AS (SELECT 1 UNION ALL SELECT i + 1 FROM n WHERE i < ?) "
                     "INSERT INTO large SELECT zeroblob(1000000) FROM n", [megabytes])
        conn.execute("PRAGMA secure_delete = OFF")
        conn.execute("DROP TABLE large")
        conn.execute("PRAGMA journal_mode = WAL")
        free = conn.execute("PRAGMA freelist_count").fetchone()[0]
        conn.close()
        log_of(file).unlink(missing_ok=True)
        kind.want("the free pages", True, free * PAGE >= megabytes * 1_000_000)
        for word in ("verify", "due", "migrate", "enter"):
            kind.want(word, answers(settled.book)[word], tried(kind, word, file))
        kind.want("the size behind the words", True, file.stat().st_size >= free * PAGE)
        kind.count("answered as the small file")
    return kind
