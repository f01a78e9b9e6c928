"""Peers of the desk that are slow, gone, or many, beyond those of check-desk: who waits for whom, and what they leave."""
import pathlib
import re
import socket
import struct
import tempfile
import time
import typing

from desk_answers import answer
from desk_client import PATIENCE, Desk, Way, by_bytes, entries, ended, get, given_up, received, send, whole
from hostile_runs import Kept, Kind
from model import office
from office_facts import COMMANDS, DUE_PATH, LIFE_PATH

SLOW = 6  # bytes that come a second apart
QUICK = 10  # seconds in which the next peer is answered
PEERS = 1000
WARM = 100  # of those, behind which the program has what it holds from then on
MORE_KILOBYTES = 256  # that it may hold behind the others


def facts_of(desk: Desk) -> typing.Tuple[int, int]:
    """The kilobytes that the program holds, and how many files it has open."""
    process = pathlib.Path(f"/proc/{desk.process.pid}")
    [held] = re.findall(r"VmRSS:\s+(\d+) kB", (process / "status").read_text())
    return int(held), len(list((process / "fd").iterdir()))


def is_silent(peer: socket.socket, seconds: float) -> bool:
    """Whether nothing comes in this time, the end of the connection neither."""
    peer.settimeout(seconds)
    try:
        peer.recv(1, socket.MSG_PEEK)
        return False
    except socket.timeout:
        return True
    finally:
        peer.settimeout(PATIENCE)


def reset(peer: socket.socket) -> None:
    peer.setsockopt(socket.SOL_SOCKET, socket.SO_LINGER, struct.pack("ii", 1, 0))
    peer.close()


# ── one behind the other ──


def a_byte_a_second(kind: Kind, desk: Desk, slow: bytes, slow_wanted: bytes, quick: bytes, quick_wanted: bytes) -> None:
    """A peer whose bytes come a second apart is waited for, and another that has sent all waits; then both are answered."""
    with desk.connect() as first, desk.connect() as second:
        send(second, quick)
        for byte in slow[:SLOW]:
            send(first, bytes([byte]))
            kind.want("a peer that waits is answered in front of a slow one", True, is_silent(second, 1))
        send(first, slow[SLOW:])
        kind.want("the slow one", slow_wanted, received(first))
        kind.want("the one that waited", quick_wanted, received(second))
    kind.count("waited for, and then answered")


Leave = typing.Callable[[socket.socket], None]


def gone_while_another_waits(kind: Kind, desk: Desk, leave: Leave, quick: bytes, wanted: bytes) -> None:
    """A peer that has sent a part goes, and the one that waited is answered at once."""
    first = desk.connect()
    with desk.connect() as second:
        send(first, quick[:SLOW])
        send(second, quick)
        kind.want("a peer that waits is answered in front of one that sends no more", True, is_silent(second, 0.5))
        leave(first)
        began = time.monotonic()
        kind.want("the one that waited for a peer that went", wanted, received(second))
        kind.want(f"the one that waited is answered within {QUICK} s", True, time.monotonic() - began < QUICK)
    kind.count("gone, and the next one answered")


# ── gone behind each byte ──


def both_gone(kind: Kind, desk: Desk, request: bytes) -> None:
    """Behind each byte of a request two peers at once go: one closes, one resets."""
    for at in range(len(request)):
        first, second = desk.connect(), desk.connect()
        send(first, request[:at])
        send(second, request[:len(request) - at - 1])
        first.close()
        reset(second)
        kind.met["gone, two at once"] += 2


def by_turns(kind: Kind, desk: Desk, request: bytes, wanted: bytes) -> None:
    """Two peers send a byte each by turns: both are answered, as each would be alone."""
    with desk.connect() as first, desk.connect() as second:
        for byte in request:
            send(first, bytes([byte]))
            send(second, bytes([byte]))
        for peer in (first, second):
            kind.want("a peer whose bytes come by turns with another's", wanted, received(peer))
    kind.met["by turns, and answered"] += 2


# ── a thousand ──


def a_thousand(kind: Kind, desk: Desk, ways: typing.List[typing.Tuple[Way, bytes, bytes]]) -> None:
    """One after the other, by these ways: each is answered as the first was, and the program holds no more behind them."""
    began = time.monotonic()
    for nth in range(PEERS):
        way, request, wanted = ways[nth % len(ways)]
        kind.want(f"peer {nth + 1} of {PEERS}", wanted, way(desk, request))
        if nth + 1 == WARM:
            held, files = facts_of(desk)
    then, open_files = facts_of(desk)
    kind.want(f"at most {MORE_KILOBYTES} kB more than the {held} kB behind peer {WARM}", True, then - held <= MORE_KILOBYTES)
    kind.want("the files that it has open", files, open_files)
    seconds = time.monotonic() - began
    kind.note = f"; the last {PEERS} in {seconds:.0f} s, {held} kB held behind {WARM} of them and {then} kB behind all"
    kind.met["one after the other"] += PEERS


def peers(program: str, settled: Kept) -> Kind:
    kind = Kind("peers", program)
    question, command = get(DUE_PATH), entries(COMMANDS[0])
    listed, life, known = (office.answered([*settled.book], it) for it in (question, get(LIFE_PATH), command))
    turns = [
        (whole, question, listed), (whole, command, known), (ended, command[:-1], answer(400, "bad request\n")),
        (given_up, command, b""), (whole, get("/nothing"), answer(404)), (given_up, b"", b""), (ended, b"", b""),
        (whole, entries({"do": "fly"}), answer(400, "fault 63 entry 1\n")), (by_bytes, get(LIFE_PATH), life),
        (whole, 8192 * b"a", answer(431, "too large\n")),
    ]
    count = 2 * 2 + 2 * 2 + 2 * len(question) + 2 * len(command) + 2 * 2 + PEERS + 1
    with tempfile.TemporaryDirectory(prefix="office-hostile-") as folder:
        file = pathlib.Path(folder) / "book.db"
        settled.put(file)
        desk = Desk([program, "serve"], file, count)
        try:
            a_byte_a_second(kind, desk, question, listed, command, known)
            a_byte_a_second(kind, desk, command, known, get(LIFE_PATH), life)
            for leave in (socket.socket.close, reset):
                gone_while_another_waits(kind, desk, leave, question, listed)
            for request in (question, command):
                both_gone(kind, desk, request)
            by_turns(kind, desk, question, listed)
            by_turns(kind, desk, command, known)
            a_thousand(kind, desk, turns)
            kind.want("the list behind all of them", listed, whole(desk, question))
        except OSError as error:
            kind.want("a connection", "", str(error))
        finally:
            kind.want("the end of serve", (0, f"served {count}\n".encode(), b""), desk.end())
        kind.want("the file behind all of them", settled.db, file.read_bytes())
    return kind
