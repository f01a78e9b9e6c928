"""Books that cannot be read or written as they are served, and what the desk has to answer of them.

Each is the book of one aircraft with one sector, altered by SQLite itself before it is served.
"""
import json
import pathlib
import shutil
import sqlite3
import typing

from desk_answers import Case, Ending, answer, differs, served
from desk_client import entries, get, post, run
from office_facts import (
    AIRCRAFT, DUE_PATH, FIRST_ROW, FIRST_SECTOR, HEADER, LIFE_PATH, LIMITS_PATH, PROGRAMME, SECOND_ROW, SECOND_SECTOR,
)

LIMITS = "limits D-ABCD 2024-03-10\nend 0\n"

STOPPED: Ending = (4, b"", b"fault store\n")


class Altered(typing.NamedTuple):
    """A book that is served: what was done to it, what it is asked, and how the desk ends where it ends before the others."""

    name: str
    sql: str
    cases: typing.List[Case]
    ends_before: typing.Optional[Ending] = None


def altered_books() -> typing.List[Altered]:
    """A damaged row stops what reads it, and nothing else; a lost table ends the desk."""
    damaged = answer(503, "fault damaged total2\n")
    return [
        Altered("a total that can't be", "UPDATE total2 SET minutes = -1 WHERE item = 1", [
            Case("a life from a damaged total", get(LIFE_PATH), damaged),
            Case("a due list from a damaged total", get(DUE_PATH), damaged),
            Case("a command behind those that are known", entries(AIRCRAFT, FIRST_SECTOR, SECOND_SECTOR, AIRCRAFT),
                 answer(503, "already 1\nalready 2\nfault damaged total2\n")),
            Case("a row behind one that is known", post("/sectors", HEADER + FIRST_ROW + SECOND_ROW + FIRST_ROW),
                 answer(503, "row 1 already 2\nfault damaged total2\n")),
            Case("limits, which no total is read for", get(LIMITS_PATH), answer(200, LIMITS)),
            Case("a programme, which no total is read for", post("/programmes/P1", PROGRAMME), answer(200, "accepted 3\n")),
            Case("what is known", entries(AIRCRAFT), answer(200, "already 1\n")),
        ]),
        Altered("lost totals, and a list", "DROP TABLE total2", [
            Case("limits, which no total is read for", get(LIMITS_PATH), answer(200, LIMITS)),
            Case("a life without a total", get(LIFE_PATH), answer(503, "fault store\n")),
        ], STOPPED),
        Altered("lost totals, and commands", "DROP TABLE total2", [
            Case("a command behind those that are known", entries(AIRCRAFT, FIRST_SECTOR, SECOND_SECTOR, AIRCRAFT),
                 answer(503, "already 1\nalready 2\nfault store\n")),
        ], STOPPED),
        Altered("lost totals, and a log", "DROP TABLE total2", [
            Case("a row behind one that is known", post("/sectors", HEADER + FIRST_ROW + SECOND_ROW + FIRST_ROW),
                 answer(503, "row 1 already 2\nfault store\n")),
        ], STOPPED),
    ]


def alter(file: pathlib.Path, sql: str) -> None:
    """SQLite carries out the text, and leaves one file."""
    conn = sqlite3.connect(file, isolation_level=None)
    conn.execute(sql)
    conn.execute("PRAGMA wal_checkpoint(TRUNCATE)")
    conn.close()


def served_with_faults(office: str, folder: pathlib.Path) -> typing.Tuple[int, int]:
    """Asks the desk of each altered book; gives how many requests were made, and how much differs."""
    whole, commands = folder / "whole.db", folder / "commands.json"
    commands.write_text(json.dumps([AIRCRAFT, FIRST_SECTOR]))
    differing = differs("init", (0, b"created\n", b""), run(office, "init", whole))
    differing += differs("enter", (0, b"accepted 1\naccepted 2\n", b""), run(office, "enter", whole, commands))
    books = altered_books()
    for nth, book in enumerate(books):
        file = folder / f"altered{nth}.db"
        shutil.copy(whole, file)
        alter(file, book.sql)
        differing += served(office, file, book.cases, book.ends_before)
    return sum(len(book.cases) for book in books), differing
