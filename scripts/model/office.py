"""What the office answers: the words of the program, and requests over HTTP, over the book so far."""
import typing

from . import csv_text, fleet, http_text, json_text, lists, toml_text
from .commands import Book, Entry
from .http_text import BODIES, Asked, Rejected, answer, asked_of
from .judge import enter
from .reading import Fault

LISTS = (*http_text.LISTS, *fleet.LISTS)  # the words that print a list; all others hand in
Printed = typing.Tuple[int, bytes, bytes]  # the status, standard output and standard error


def rows_told(book: Book, rows: typing.List[typing.Union[Entry, int]]) -> typing.List[str]:
    """A line for each row: the reply to its command, or its fault."""
    told = (f"fault {row}" if isinstance(row, int) else enter(book, row) for row in rows)
    return [f"row {number} {line}" for number, line in enumerate(told, 1)]


def told(book: Book, asked: Asked) -> typing.List[str]:
    """The lines that tell what became of what was handed in."""
    if asked.word == "import":
        return rows_told(book, csv_text.rows_of(asked.body))
    entries = ([toml_text.entry_of(asked.body, asked.words[0])] if asked.word == "programme"
               else json_text.entries_of(asked.body))
    return [enter(book, entry) for entry in entries]


def listed(book: Book, asked: Asked) -> str:
    if asked.word in fleet.LISTS:
        return fleet.listed(book, asked.word, asked.words)
    tail, *rest = asked.words
    if asked.word == "life":
        return lists.life_text(book, tail)
    if asked.word == "forecast":
        return lists.forecast_text(book, tail, rest[0], rest[1], (rest[2], rest[3]))
    return (lists.due_text if asked.word == "due" else lists.limits_text)(book, tail, rest[0])


def text_told(book: Book, asked: Asked) -> str:
    return listed(book, asked) if asked.word in LISTS else "".join(f"{line}\n" for line in told(book, asked))


def told_so(text: str, word: str) -> bool:
    """Whether some line begins so, behind the number of a row."""
    return any(line.startswith(word) or f" {word}" in line for line in text.splitlines())


def printed(book: Book, asked: Asked) -> Printed:
    """What a word of the program prints."""
    try:
        text = text_told(book, asked)
    except Fault as fault:
        return 3, b"", fault.line().encode()
    handed_in = asked.word not in LISTS
    if handed_in and told_so(text, "fault"):
        return 3, text.encode(), b""
    return int(text == lists.UNKNOWN or (handed_in and told_so(text, "refused"))), text.encode(), b""


def answered(book: Book, request: bytes) -> bytes:
    """The answer to all that a peer sends."""
    if not request:
        return b""
    try:
        asked = asked_of(request)
    except Rejected as rejected:
        return answer(rejected.status, BODIES.get(rejected.status, ""), rejected.allowed)
    try:
        text = text_told(book, asked)
    except Fault as fault:
        return answer(400, fault.line())
    handed_in = asked.word not in LISTS
    bad = text == lists.UNKNOWN or (handed_in and (told_so(text, "refused") or told_so(text, "fault")))
    return answer(409 if bad else 200, text)
