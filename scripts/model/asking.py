"""Random requests over HTTP: each route, paths, heads and lengths that are none or at their edges, damaged bytes."""
import random
import typing

from . import damage
from .http_text import Asked
from .playing import request_of
from .texts import LAST_DAY

METHODS = ["GET", "POST", "PUT", "HEAD", "get", "post", "G(T", "OPTIONS", ""]
VERSIONS = ["HTTP/1.1", "HTTP/1.1", "HTTP/1.0", "HTTP/2.0", "HTTP/1.2", "http/1.1", "HTTP/1.1 ", " HTTP/1.1", "HTT", ""]
FIELDS = [
    "Host: desk", "Note:", "Note: \t x \t", "Note:x:y", "Note : x", ": x", " folded: x", "no colon", "No(te: x",
    "Note: é",
    "Note: a\tb", "Note: a\x7fb", "Note: a\x00b", "Content-Length: 3", "content-length: 2", "Content-Length:0",
    "Content-Length: 00000000002", "Content-Length: +2", "Content-Length: 2 2", "Content-Length: 2,2",
    "Content-Length: 65536",
    "Content-Length: 65537", "Content-Length: 0065537", "Content-Length: 99999999999999999999", "Content-Length: -1",
    "Content-Length:", "Content-Length: 0x2", "Transfer-Encoding: chunked", "transfer-ENCODING:", "Content-Lengt: 2",
]
PARTS = [
    "D-A", "D-B", "D-X", "d-a", "D%2DA", "D-ABCDEF", "D-ABCDEFG", "", "life", "due", "2024-03-18", "2024-3-18",
    "2024-02-30",
    "1970-01-01", "1969-12-31", "2199-12-31", "2200-01-01", "0", "1", "50", "51", "1440", "1441", "3650", "3651",
    "000030",
    "0000030", "+1", "-1", "1.0", "1_0", "é", "~", '"', "{tail}", "<>", "\\^`|", "a?b", "#", "A" * 40, "A" * 41, "TL",
    "*",
]
TARGETS = ["/", "*", "/entries", "/entries/", "/Entries", "/sectors", "/sectors?x=/y", "/programmes", "/programmes/",
           "/programmes/P?", "/aircraft", "/aircraft/D-A", "/aircraft/D-A/life/", "/aircraft//life", "//entries",
           "entries",
           "/fleet/2024-03-01", "/outlook/2024-03-01/30/60/1", "/components", "/deferred/2024-03-01",
           "/aircraft/D-A/fleet", "/aircraft/D-A/fleet/2024-03-01", "/aircraft/D-A/outlook/2024-03-01/30/60/1",
           "http://desk/entries", "/aircraft/D-A/life?", "/aircraft/D-A/life?a b", "/programmes/TL", "/?/entries", ""]
LINE_ENDS = ["\r\n", "\r\n", "\r\n", "\n", "\r", "\r\r\n", " \r\n"]


def random_path(chance: random.Random) -> str:
    """A path of a route with some part that may be none."""
    word = chance.choice(["life", "due", "limits", "forecast", "programmes"])
    if word == "programmes":
        return f"/programmes/{chance.choice(PARTS)}"
    parts = ["aircraft", "D-A", word, *["2024-03-18", "30", "60", "1"][:{"life": 0, "forecast": 4}.get(word, 1)]]
    for _ in range(chance.choice([0, 1, 1, 2])):
        parts[chance.randrange(1, len(parts))] = chance.choice(PARTS)
    if chance.random() < 0.1:
        parts.insert(chance.randint(0, len(parts)), chance.choice(PARTS))
    return "/" + "/".join(parts)


def random_day(chance: random.Random, base: int) -> int:
    return max(0, min(LAST_DAY, base + chance.choice([0, 3, 8, 20, 60, 120, -1, -400])))


def random_rate(chance: random.Random) -> typing.Tuple[int, int, int]:
    """The days of a forecast, and minutes and cycles a day."""
    return chance.choice([0, 5, 30, 60, 400, 3650]), chance.choice([0, 1, 60, 1440]), chance.choice([0, 1, 50])


def list_asked(chance: random.Random, tails: typing.Sequence[str], base: int) -> Asked:
    """A question for a list of an aircraft."""
    word = chance.choice(["life", "due", "due", "limits", "forecast", "forecast"])
    day = random_day(chance, base)
    words: typing.Tuple[typing.Any, ...] = (chance.choice(list(tails)),)
    if word != "life":
        words += (day,)
    if word == "forecast":
        words += random_rate(chance)
    return Asked(word, words, b"")


def fleet_words(chance: random.Random, word: str, base: int) -> typing.Tuple[int, ...]:
    """What stands behind a word for a list of all aircraft."""
    day, rate = random_day(chance, base), random_rate(chance)
    return {"fleet": (day,), "deferred": (day,), "outlook": (day, *rate)}.get(word, ())


def request_target(asked: Asked) -> str:
    return request_of(asked).split(b" ", 2)[1].decode()


def made_request(chance: random.Random, asked: Asked) -> bytes:
    """A request that is put together of parts, each of which may be none."""
    method = chance.choice(METHODS) if chance.random() < 0.2 else chance.choice(["GET", "POST"])
    target = chance.choice([random_path(chance), random_path(chance), chance.choice(TARGETS), request_target(asked)])
    if target == request_target(asked) and chance.random() < 0.8:
        method = "POST" if asked.body else "GET"
    version = chance.choice(VERSIONS) if chance.random() < 0.2 else "HTTP/1.1"
    fields = [chance.choice(FIELDS) for _ in range(chance.choice([0, 0, 1, 1, 2, 4]))]
    if chance.random() < 0.5:
        fields.append(f"Content-Length: {len(asked.body)}")
    if chance.random() < 0.05:
        fields += ["Field: x"] * (chance.choice([63, 64, 65]) - len(fields))
    lines = [" ".join([method, target, version]), *fields]
    room = 8192 - sum(len(line) + 2 for line in lines) - 2 - len("Room: \r\n")
    if chance.random() < 0.05:
        lines.append("Room: " + "r" * (room + chance.choice([-1, 0, 1])))
    ends = [chance.choice(LINE_ENDS) if chance.random() < 0.04 else "\r\n" for _ in lines]
    front = chance.choice(["\r\n", "\n", "\r\n\r\n", " ", "\r"]) if chance.random() < 0.04 else ""
    head = front + "".join(line + end for line, end in zip(lines, ends)) + "\r\n"
    return head.encode() + asked.body + chance.choice([b"", b"", b"x", b"\r\n"])


def random_request(chance: random.Random, asked: Asked) -> bytes:
    """The request as it is, a made one, or one with damaged bytes."""
    way = chance.randrange(10)
    if way < 4:
        return request_of(asked)
    if way < 8:
        return made_request(chance, asked)
    request = request_of(asked)
    for _ in range(chance.choice([1, 1, 2])):
        request = chance.choice(damage.OF_BYTES)(chance, request)
    return request if way == 8 else request + 9000 * b" " if chance.random() < 0.02 else request
