"""What the desk has to answer, and how a desk that was asked differs from that."""
import pathlib
import typing

from desk_client import Desk, Way, behind_another, elsewhere, lines, two_at_once, whole

MOST_DIFFERENCES = 10
CONNECTIONS = {behind_another: 2, two_at_once: 2, elsewhere: 0}  # of a case that is sent so, where it is not one

PHRASES = {
    200: "OK", 400: "Bad Request", 404: "Not Found", 405: "Method Not Allowed", 409: "Conflict", 411: "Length Required",
    413: "Payload Too Large", 431: "Request Header Fields Too Large", 503: "Service Unavailable",
}

Ending = typing.Tuple[int, bytes, bytes]  # the status, standard output and standard error of a program


class Case(typing.NamedTuple):
    """A connection: what is sent, and what has to come."""

    name: str
    request: bytes
    wanted: bytes
    way: Way = whole


def answer(status: int, body: str = "", *more: str) -> bytes:
    """The bytes of a response."""
    fields = ("Content-Type: text/plain", f"Content-Length: {len(body)}", "Connection: close", *more)
    return lines(f"HTTP/1.1 {status} {PHRASES[status]}", *fields) + body.encode()


def differs(name: str, wanted: object, came: object, request: object = None) -> bool:
    """Whether something else came than was wanted, which is told."""
    if wanted == came:
        return False
    told = [("sent", request)] if request is not None else []
    print(name, *(f"    {title}: {text!r:.600}" for title, text in [*told, ("wanted", wanted), ("came", came)]), sep="\n")
    return True


def served(
    office: str, book: pathlib.Path, cases: typing.List[Case], ends_before: typing.Optional[Ending] = None,
) -> int:
    """Asks all of a desk; gives how many answers differ, its ending among them. It stops where too many do. A desk that has
    to end behind the last of them is told to serve one connection more."""
    differing = 0
    count = sum(CONNECTIONS.get(case.way, 1) for case in cases)
    desk = Desk([office, "serve"], book, count if ends_before is None else count + 1)
    try:
        for case in cases:
            differing += differs(case.name, case.wanted, case.way(desk, case.request), case.request)
            if differing == MOST_DIFFERENCES:
                break
    except OSError as error:
        print(f"{case.name}: {error}")
        differing += 1
    finally:
        ending = desk.end()
    return differing + differs("the end of serve", ends_before or (0, f"served {count}\n".encode(), b""), ending)
