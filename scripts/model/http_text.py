"""Requests over HTTP as bytes: what one asks for, or why it is rejected; and the bytes of an answer."""
import re
import typing

from .texts import day_of, doc_of, few_digits, tail_of

MOST_HEAD, MOST_FIELDS, MOST_BODY = 8192, 64, 65_536
TOKEN = rb"[!#$%&'*+\-.^_`|~0-9A-Za-z]+"
FIELD = re.compile(rb"(" + TOKEN + rb"):[ \t]*([\t -~\x80-\xff]*?)[ \t]*\r?\n")
HEAD = re.compile(rb"(?:\r?\n)*(" + TOKEN + rb") ([!-~\x80-\xff]+) HTTP/1\.[01]\r?\n((?:"
                  + TOKEN + rb":[\t -~\x80-\xff]*\r?\n)*)\r?\n")
PHRASES = {
    200: "OK", 400: "Bad Request", 404: "Not Found", 405: "Method Not Allowed", 409: "Conflict", 411: "Length Required",
    413: "Payload Too Large", 431: "Request Header Fields Too Large",
}
BODIES = {400: "bad request\n", 411: "length required\n", 413: "too large\n", 431: "too large\n"}
LISTS = ("due", "limits", "forecast", "life")  # of one aircraft: words of the program, and routes of the desk
OLD_FILE = "init-old"  # the word that makes a file of layout 1


class Rejected(Exception):
    """The status of a request that is rejected, and the method that is allowed instead."""

    def __init__(self, status: int, allowed: str = "") -> None:
        super().__init__(status, allowed)
        self.status, self.allowed = status, allowed


class Asked(typing.NamedTuple):
    """A word of the program, what stands behind it, and the body."""

    word: str
    words: typing.Tuple[typing.Any, ...]
    body: bytes


def answer(status: int, body: str = "", allowed: str = "") -> bytes:
    lines = [f"HTTP/1.1 {status} {PHRASES[status]}", "Content-Type: text/plain",
             f"Content-Length: {len(body.encode())}", "Connection: close"]
    lines += [f"Allow: {allowed}"] if allowed else []
    return "".join(f"{line}\r\n" for line in (*lines, "")).encode() + body.encode()


def head_of(raw: bytes) -> bytes:
    mark = raw.find(b"\r\n\r\n", 0, MOST_HEAD)
    if mark < 0:
        raise Rejected(431 if len(raw) >= MOST_HEAD else 400)
    return raw[:mark + 4]


def place_of(path: str) -> typing.Tuple[str, typing.List[str]]:
    """The word that a path asks for, and the variable parts of the path."""
    parts = path.split("/")
    if path in ("/entries", "/sectors"):
        return {"/entries": "enter", "/sectors": "import"}[path], []
    if len(parts) == 3 and parts[:2] == ["", "programmes"] and parts[2]:
        return "programme", parts[2:]
    lengths = {"due": 5, "limits": 5, "forecast": 8, "life": 4}
    if parts[:2] == ["", "aircraft"] and len(parts) > 3 and lengths.get(parts[3]) == len(parts) and all(parts[2:]):
        return parts[3], [parts[2], *parts[4:]]
    raise Rejected(404)


def body_length(fields: typing.List[typing.Tuple[bytes, bytes]]) -> int:
    said = [value for name, value in fields if name.lower() == b"content-length"]
    if not said or any(name.lower() == b"transfer-encoding" for name, _ in fields):
        raise Rejected(411)
    if len(said) > 1 or not re.fullmatch(rb"[0-9]+", said[0]):
        raise Rejected(400)
    digits = said[0].lstrip(b"0")
    if len(digits) > 5 or int(digits or b"0") > MOST_BODY:
        raise Rejected(413)
    return int(digits or b"0")


def part(value: typing.Any) -> typing.Any:
    if value is None:
        raise Rejected(400)
    return value


def up_to(most: int, text: str) -> int:
    number = few_digits(text)
    return part(number if number is not None and number <= most else None)


def words_of(word: str, parts: typing.List[str]) -> typing.Tuple[typing.Any, ...]:
    if word == "programme":
        return (part(doc_of(parts[0])),)
    if word not in LISTS:
        return ()
    words = [part(tail_of(parts[0]))]
    words += [part(day_of(text)) for text in parts[1:2]]
    return (*words, *(up_to(most, text) for text, most in zip(parts[2:], (3650, 1440, 50))))


def asked_of(raw: bytes) -> Asked:
    """What an input asks for, which is one request and then whatever else."""
    head = head_of(raw)
    form = HEAD.fullmatch(head)
    fields = FIELD.findall(form.group(3)) if form else []
    try:
        target = form.group(2).decode("utf-8") if form else ""
    except UnicodeDecodeError:
        raise Rejected(400) from None
    if form is None or len(fields) > MOST_FIELDS:
        raise Rejected(400)
    word, parts = place_of(target.split("?", 1)[0])
    method = "GET" if word in LISTS else "POST"
    if form.group(1).decode() != method:
        raise Rejected(405, method)
    length = body_length(fields) if method == "POST" else 0
    body = raw[len(head):len(head) + length]
    if len(body) < length:
        raise Rejected(400)
    return Asked(word, words_of(word, parts), body)


def is_whole(raw: bytes) -> bool:
    """All of the request is there: the desk needn't wait for more."""
    try:
        asked_of(raw)
    except Rejected:
        return False
    return True
