"""Databases of other programs that have something named `office`, and what each word has to say of them."""
import pathlib
import sqlite3
import tempfile
import typing

import trials
from hostile_runs import ARRIVED, NOT_OURS, WORDS, Kind, in_turn, log_of, tried
from model.office import Printed

EXISTS: Printed = (5, b"", b"fault exists\n")
DAMAGED: Printed = (5, b"", b"fault damaged office\n")
LOST: Printed = (4, b"", b"fault store\n")  # a table that is read is not there
NUMBERS = "id INTEGER PRIMARY KEY, layout INTEGER, step INTEGER, mark INTEGER"


def newer(layout: int) -> Printed:
    return 5, b"", b"fault newer %d\n" % layout


class Others(typing.NamedTuple):
    """A database of another program: the texts that make it, what the words answer, and what `init` does."""

    name: str
    texts: typing.List[str]
    wanted: Printed = NOT_OURS
    made: Printed = EXISTS


def table(name: str, columns: str, *rows: str, wanted: Printed = NOT_OURS) -> Others:
    return Others(name, [f"CREATE TABLE office ({columns})", *(f"INSERT INTO office VALUES ({row})" for row in rows)], wanted)


NOTE = "CREATE TABLE note (id INTEGER PRIMARY KEY, text TEXT)"
OTHERS = [
    table("other columns", "name TEXT, city TEXT", "'Hangar 1', 'Bremen'"),
    table("three of the columns", "id INTEGER PRIMARY KEY, layout INTEGER, step INTEGER", "1, 2, 0"),
    table("columns of other names", "id INTEGER PRIMARY KEY, version INTEGER, step INTEGER, mark INTEGER", "1, 2, 0, 0"),
    table("no row", NUMBERS),
    table("two rows", NUMBERS, "1, 2, 0, 0", "2, 2, 0, 0"),
    table("a thousand rows", NUMBERS, *(f"{nth}, 2, 0, 0" for nth in range(1, 1001))),
    # The columns are ours and so is the number of rows, which is then no point that a file can be at.
    table("another id", NUMBERS, "7, 2, 0, 0", wanted=DAMAGED),
    table("texts for numbers", "id, layout, step, mark", "'1', '2', '0', '0'", wanted=DAMAGED),
    table("a fraction", "id, layout, step, mark", "1, 2.5, 0, 0", wanted=DAMAGED),
    table("bytes for a number", "id, layout, step, mark", "1, x'02', 0, 0", wanted=DAMAGED),
    table("nothing for a number", NUMBERS, "1, 2, NULL, 0", wanted=DAMAGED),
    table("a negative number", NUMBERS, "1, -2, 0, 0", wanted=DAMAGED),
    table("a number of 63 bits", NUMBERS, "1, 9223372036854775807, 0, 0", wanted=DAMAGED),
    table("a mark of 32 bits and one more", NUMBERS, "1, 1, 1, 4294967296", wanted=DAMAGED),
    table("a later layout", NUMBERS, "1, 3, 0, 0", wanted=newer(3)),
    # The row of a new file, and nothing else: the other tables are lost.
    table("the row of a new file", NUMBERS, "1, 2, 0, 0", wanted=LOST),
    Others("capitals, and other columns", ["CREATE TABLE OFFICE (name TEXT)"]),
    Others("a view", ["CREATE VIEW office AS SELECT 1 AS id, 2 AS layout, 0 AS step, 0 AS mark"], made=NOT_OURS),
    Others("a view of a table", [NOTE, "CREATE VIEW office AS SELECT id, id AS layout, 0 AS step, 0 AS mark FROM note"],
           made=NOT_OURS),
    Others("an index", [NOTE, "CREATE INDEX office ON note (text)"], made=NOT_OURS),
    Others("a trigger", [NOTE, "CREATE TRIGGER office AFTER INSERT ON note BEGIN DELETE FROM note; END"], made=NOT_OURS),
    Others("a column", ["CREATE TABLE note (office INTEGER)"], made=NOT_OURS),
    Others("a name that begins so", ["CREATE TABLE office2 (id INTEGER)"], made=NOT_OURS),
    Others("pages of 1,024 bytes", ["PRAGMA page_size = 1024", "CREATE TABLE office (name TEXT)"]),
    Others("pages of 65,536 bytes", ["PRAGMA page_size = 65536", "CREATE TABLE office (name TEXT)"]),
    Others("a log", ["PRAGMA journal_mode = WAL", "CREATE TABLE office (name TEXT)"]),
]


def wanted_of(others: Others, word: str) -> Printed:
    """What a word answers: `migrate` opens no office, so that it tells damage with status 4."""
    if word == "init":
        return others.made
    if word == "migrate":
        return {DAMAGED: (4, *DAMAGED[1:]), LOST: ARRIVED}.get(others.wanted, others.wanted)
    return others.wanted


def looked_at(kind: Kind, others: Others) -> None:
    """Each word answers as wanted, and the file keeps its bytes."""
    with tempfile.TemporaryDirectory(prefix="office-hostile-") as folder:
        file = pathlib.Path(folder) / "others.db"
        conn = sqlite3.connect(file, isolation_level=None)
        for text in others.texts:
            conn.execute(text)
        conn.close()
        before = file.read_bytes()
        for word in (*WORDS, "init"):
            log_of(file).unlink(missing_ok=True)
            came = kind.run("init", file) if word == "init" else tried(kind, word, file)
            kind.want(f"{others.name}: {word}", wanted_of(others, word), came)
            kind.want(f"{others.name}: the file behind {word}", True, before == file.read_bytes())
    kind.count("left as they were")


def tables(program: str, seed: int, limit: trials.Time) -> Kind:
    kind = Kind("databases of others", program)
    in_turn(kind, seed, lambda *it: looked_at(kind, Others(*it)), OTHERS, limit)
    kind.least("left as they were", 20)
    return kind
