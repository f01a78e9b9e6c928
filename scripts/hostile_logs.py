"""The log of another file, an older log and bytes that are no log beside a database, and databases of other programs.

Nothing in a database says which log is its own: a log counts by its own header and sums, as SQLite's format has it. So SQLite
itself, on a copy of the pair, says which tables the program has to find.
"""
import pathlib
import random
import sqlite3
import tempfile
import typing

from hostile_files import Read, Wanted, all_same, killed_book, read_by_sqlite, right, same_rows
from hostile_runs import NOT_OURS, STORE, WORDS, Kept, Kind, kept, log_of, tried
from model import office
from model.commands import Book
from model.http_text import Asked
from office_facts import TAIL, dated
from stopped_words import made


# ── logs ──


def by_others(folder: pathlib.Path, page: int, more: typing.Sequence[str] = ()) -> typing.Tuple[bytes, bytes]:
    """The database and the log of another program, still open, with pages of this size, behind these texts too."""
    file = folder / f"others{page}{len(more)}.db"
    conn = sqlite3.connect(file, isolation_level=None)
    for text in (f"PRAGMA page_size = {page}", "PRAGMA journal_mode = WAL", "PRAGMA wal_autocheckpoint = 0",
                 "CREATE TABLE note (id INTEGER PRIMARY KEY, text TEXT)", "INSERT INTO note VALUES (1, 'a')",
                 "WITH RECURSIVE n (i) AS (SELECT 2 UNION ALL SELECT i + 1 FROM n WHERE i < 900) "
                 "INSERT INTO note SELECT i, 'note' FROM n", *more):
        conn.execute(text)
    pair = file.read_bytes(), log_of(file).read_bytes()
    conn.close()
    return pair


class Beside:
    """Pairs of a database and a log that is not its own, tried one after the other."""

    def __init__(self, kind: Kind, empty: Kept, settled: Kept) -> None:
        self.kind, self.empty, self.settled = kind, empty, settled
        [self.schema, _] = read_by_sqlite(settled) or [None, None]

    def wanted(self, found: Read, book: typing.Optional[Book]) -> Wanted:
        """What each word has to answer: of this book; or as of a sound file with the rows that SQLite reads, unless it refuses
        the pair. Where SQLite finds the pair unsound, or of other tables, it is no book."""
        if book is not None:
            return right(book)
        if found is None:
            return all_same(STORE)
        if "office" not in found[1]:
            return {word: [NOT_OURS, STORE] for word in WORDS}
        alike = same_rows(self.kind, self.empty, found[1]) if found[0] == self.schema else None
        return {word: [STORE, *([alike[word]] if alike else [])] for word in WORDS}

    def look(self, what: str, pair: Kept, book: typing.Optional[Book] = None) -> None:
        """Each word answers as wanted, and the tables behind it are those that SQLite found in front of it."""
        found = read_by_sqlite(pair)
        wanted = self.wanted(found, book)
        for word in WORDS:
            with tempfile.TemporaryDirectory(prefix="office-hostile-") as folder:
                file = pathlib.Path(folder) / "book.db"
                pair.put(file)
                came = tried(self.kind, word, file)
                self.kind.want_one(f"{what}: {word}", wanted[word], came)
                log = log_of(file).read_bytes() if log_of(file).exists() else None
                if found is not None and not (word == "enter" and came[0] == 0):
                    self.kind.want(f"{what}: the tables behind {word}", found, read_by_sqlite(Kept(file.read_bytes(), log, [])))
                if came in (STORE, NOT_OURS):
                    self.kind.want(f"{what}: the database behind {word}", pair.db, file.read_bytes())
        self.kind.count("the book of the file alone" if book is self.settled.book else "unsound, and refused" if found is None
                        else "with the tables that SQLite finds")


def logs(program: str, seed: int, settled: Kept, empty: Kept) -> Kind:
    kind, chance = Kind("logs of others", program), random.Random(f"{seed} others")
    beside = Beside(kind, empty, settled)
    with tempfile.TemporaryDirectory(prefix="office-hostile-") as name:
        folder = pathlib.Path(name)
        file = folder / "book.db"
        settled.put(file)
        killed, _ = killed_book(kind, file, settled.book)
        beside.look("its own log", killed, killed.book)
        # The file goes on, and then the log from before is put back.
        more = Asked("enter", (), made(*(dated("defer", f"X{nth}", "2024-05-20", tail=TAIL, reference="25-10-01", category="D")
                                         for nth in range(20, 60))))
        book = [*killed.book]
        words = ["enter", file, folder / "more.json"]
        (folder / "more.json").write_bytes(more.body)
        kind.want("more commands", office.printed(book, more), kind.run(*words))
        later = kept(file, book)
        beside.look("an older log of the same file", later._replace(log=killed.log))
        beside.look("the log of the file as it went on", settled._replace(log=killed.log), killed.book)
        # A book that parted from this one, and one of its own.
        settled.put(file)
        other_book = [*settled.book]
        kind.want("other commands", office.printed(other_book, more), kind.run(*words))
        parted, _ = killed_book(kind, file, other_book, [
            dated("defer", f"X{nth}", "2024-05-21", tail=TAIL, reference="33-40-01", category="B") for nth in range(60, 70)])
        beside.look("the log of a copy that went another way", settled._replace(log=parted.log))
        beside.look("the log of the file beside its copy", parted._replace(log=killed.log))
        beside.look("the log of a fuller book beside an empty one", empty._replace(log=killed.log))
        others_db, others_log = by_others(folder, 4096)
        beside.look("the log of another program", settled._replace(log=others_log))
        beside.look("the log beside the file of another program", Kept(others_db, killed.log, []))
        _, others_log = by_others(folder, 4096, ["PRAGMA wal_checkpoint(TRUNCATE)", "UPDATE note SET text = 'other'"])
        beside.look("pages of another program alone", settled._replace(log=others_log))
        for page in (512, 1024, 65536):
            _, log = by_others(folder, page)
            beside.look(f"a log of pages of {page} bytes", settled._replace(log=log))
        # No log: its header does not fit its sum, or it has none.
        for what, log in {
            "nothing": b"", "an empty log of another file": empty.log, "a header alone": (killed.log or b"")[:32],
            "a text": b"Tail, hours, cycles\n" * 5000, "zeros": bytes(200000), "a database": settled.db,
            "bytes of chance": chance.getrandbits(1_600_000).to_bytes(200_000, "big"),
            "a log with other salts": (killed.log or b"")[:16] + bytes(8) + (killed.log or b"")[24:],
        }.items():
            beside.look(what, settled._replace(log=log), settled.book)
    kind.least("unsound, and refused", 1)
    kind.least("with the tables that SQLite finds", 5)
    kind.least("the book of the file alone", 8)
    return kind
