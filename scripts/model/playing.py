"""Steps of a case, played by the program and by the model; and a case that differs, shrunk to a least one."""
import json
import pathlib
import shutil
import tempfile
import typing

import desk_client
from desk_client import Desk, ended, get, post, run, whole

from . import fleet, http_text, office
from .commands import Book
from .http_text import OLD_FILE, Asked, is_whole
from .texts import day_text
from .toml_text import Undecided

MOST_TRIES = 400


class Step(typing.NamedTuple):
    """A word of the program with what stands behind it; or a request over HTTP."""

    asked: typing.Optional[Asked] = None
    request: bytes = b""


class Difference(typing.NamedTuple):
    """The step that differs, what the model says and what came."""

    place: int
    wanted: object
    came: object


Steps = typing.List[Step]


def words_of(asked: Asked) -> typing.List[str]:
    """The words behind the file; days as they are written."""
    words = [str(word) for word in asked.words]
    day = 0 if asked.word in fleet.LISTS else 1  # where a list has its day, if any
    if asked.word in office.LISTS and len(words) > day:
        words[day] = day_text(asked.words[day])
    return words


def request_of(asked: Asked) -> bytes:
    paths = {"enter": "/entries", "import": "/sectors", "programme": "/programmes/"}
    words = words_of(asked)
    if asked.word in http_text.LISTS:
        return get("/".join(["/aircraft", words[0], asked.word, *words[1:]]))
    return post(paths[asked.word] + "".join(words), asked.body)


def wanted_of(book: Book, step: Step) -> typing.Union[bytes, office.Printed]:
    """What the model says."""
    return office.answered(book, step.request) if step.asked is None else office.printed(book, step.asked)


def answer_of(desk: Desk, request: bytes, stays_open: bool) -> object:
    """What comes; the sending side stays open only where the request is all there, since the desk waits otherwise."""
    try:
        return (whole if stays_open and is_whole(request) else ended)(desk, request)
    except OSError as error:
        return str(error)


class Program:
    """The program, and a folder with an empty book."""

    def __init__(self, path: str, folder: pathlib.Path) -> None:
        self.path, self.folder = path, folder
        self.empty = folder / "empty"
        self.empty.mkdir()
        made = run(path, "init", self.empty / "book.db")
        if made != (0, b"created\n", b""):
            raise SystemExit(f"init: {made}")

    def difference(self, steps: Steps) -> typing.Optional[Difference]:
        """The first step in which the program differs from the model."""
        book: Book = []
        with tempfile.TemporaryDirectory(dir=self.folder) as folder:
            for file in self.empty.iterdir():
                shutil.copy(file, folder)
            place = 0
            while place < len(steps):
                behind = place
                while behind < len(steps) and steps[behind].asked is None:
                    behind += 1
                if behind > place:
                    found = self.asked(pathlib.Path(folder), book, steps, place, behind)
                else:
                    found, behind = self.said(pathlib.Path(folder), book, steps[place], place), place + 1
                if found is not None:
                    return found
                place = behind
        return None

    def said(self, folder: pathlib.Path, book: Book, step: Step, place: int) -> typing.Optional[Difference]:
        """A word of the program."""
        assert step.asked is not None
        text, words = folder / "text", words_of(step.asked)
        if step.asked.word not in office.LISTS:
            text.write_bytes(step.asked.body)
            words.append(str(text))
        if step.asked.word == OLD_FILE:
            (folder / "book.db").unlink()
        came = run(self.path, step.asked.word, folder / "book.db", *words)
        wanted = wanted_of(book, step)
        return None if came == wanted else Difference(place, wanted, came)

    def asked(self, folder: pathlib.Path, book: Book, steps: Steps, place: int,
              behind: int) -> typing.Optional[Difference]:
        """Requests to one desk, and its end."""
        desk = Desk([self.path, "serve"], folder / "book.db", behind - place)
        try:
            for nth in range(place, behind):
                wanted = wanted_of(book, steps[nth])
                came = answer_of(desk, steps[nth].request, nth % 2 == 1)
                if came != wanted:
                    return Difference(nth, wanted, came)
            wanted_end, end = (0, f"served {behind - place}\n".encode(), b""), desk.end()
            return None if end == wanted_end else Difference(behind - 1, wanted_end, end)
        finally:
            desk.stop()
            for stream in (desk.process.stdout, desk.process.stderr):
                if stream is not None:
                    stream.close()


# ── shrinking ──


class Shrinking:
    """Smaller cases that differ still, as far as the tries last."""

    def __init__(self, program: Program, steps: Steps, found: Difference) -> None:
        self.program, self.tries = program, MOST_TRIES
        self.found, self.steps = found, steps[:found.place + 1]

    def try_with(self, steps: Steps) -> bool:
        if not steps or self.tries == 0:
            return False
        self.tries -= 1
        try:
            found = self.program.difference(steps)
        except Undecided:
            return False
        if found is None:
            return False
        self.steps, self.found = steps[:found.place + 1], found
        return True

    def steps_split(self) -> None:
        """A list of several commands becomes a step for each."""
        singles = [single for step in self.steps for single in split(step)]
        if len(singles) > len(self.steps):
            self.try_with(singles)

    def steps_left_out(self) -> None:
        self.try_with(self.steps[-1:])
        size = len(self.steps) // 2
        while size:
            start = 0
            while start < len(self.steps):
                if not self.try_with(self.steps[:start] + self.steps[start + size:]):
                    start += size
            size //= 2

    def pieces_left_out(self, behind: int, cut: typing.Callable[[bytes], typing.List[bytes]]) -> None:
        """Of the text that is handed in so many steps from the last one."""
        size = len(cut(body_of(self.steps[-1 - behind])))
        while size and behind < len(self.steps):
            start = 0
            while behind < len(self.steps) and start < len(cut(body_of(self.steps[-1 - behind]))):
                place = len(self.steps) - 1 - behind
                pieces = cut(body_of(self.steps[place]))
                smaller = with_body(self.steps[place], b"".join(pieces[:start] + pieces[start + size:]))
                if not self.try_with(self.steps[:place] + [smaller] + self.steps[place + 1:]):
                    start += size
            size //= 2

    def least(self) -> typing.Tuple[Steps, Difference]:
        self.steps_split()
        self.steps_left_out()
        for behind in range(len(self.steps)):
            if behind < len(self.steps):
                self.pieces_left_out(behind, lambda text: text.splitlines(keepends=True))
        self.pieces_left_out(0, lambda text: [text[n:n + 1] for n in range(len(text))])
        return self.steps, self.found


def parts_of(step: Step) -> typing.Tuple[bytes, bytes]:
    """The head of a request with a length, and the body behind it; else nothing, and all that is handed in."""
    if step.asked is not None:
        return b"", step.asked.body
    head, mark, body = step.request.partition(b"\r\n\r\n")
    plain = head.endswith(f"Content-Length: {len(body)}".encode())
    return (head[:head.rindex(b" ") + 1], body) if mark and plain else (b"", step.request)


def body_of(step: Step) -> bytes:
    return parts_of(step)[1]


def with_body(step: Step, body: bytes) -> Step:
    if step.asked is not None:
        return Step(step.asked._replace(body=body))
    head = parts_of(step)[0]
    return Step(request=head + f"{len(body)}\r\n\r\n".encode() + body if head else body)


def split(step: Step) -> Steps:
    entered = step.asked.word == "enter" if step.asked else step.request.startswith(b"POST /entries ")
    try:
        value = json.loads(body_of(step)) if entered else None
    except ValueError:
        return [step]
    if not isinstance(value, list) or len(value) < 2:
        return [step]
    return [with_body(step, json.dumps([one]).encode()) for one in value]


desk_client.PATIENCE = 60  # seconds: an unproved build opens a book in some
