"""What the scripts that ask the desk share: requests, the program as it serves, ways to send."""
import itertools
import json
import pathlib
import random
import socket
import struct
import subprocess
import time
import typing

PATIENCE = 60  # seconds

# ── requests ──


def lines(*texts: str) -> bytes:
    """A head: these lines and an empty one."""
    return "".join(f"{text}\r\n" for text in (*texts, "")).encode()


def get(path: str, *fields: str) -> bytes:
    return lines(f"GET {path} HTTP/1.1", "Host: desk", *fields)


def post(path: str, body: bytes) -> bytes:
    return lines(f"POST {path} HTTP/1.1", "Host: desk", f"Content-Length: {len(body)}") + body


def entries(*commands: object) -> bytes:
    return post("/entries", json.dumps(commands).encode())


# ── the program ──


def run(office: str, *words: object) -> typing.Tuple[int, bytes, bytes]:
    """The status, standard output and standard error of the program on these words."""
    try:
        streams = {"stdin": subprocess.DEVNULL, "capture_output": True}
        done = subprocess.run([office, *map(str, words)], timeout=PATIENCE, **streams)
    except subprocess.TimeoutExpired:
        return -1, b"", f"(no end within {PATIENCE} s)".encode()
    return done.returncode, done.stdout, done.stderr


# Ports below those from which connections are made, in an order of chance.
NEXT_PORT = itertools.cycle(random.sample(range(20000, 32000), 12000))


def free_port() -> int:
    """A port that nobody has, and none of the last thousands that were given. It is bound to see that, and not listened at, where another
    peer that waits for its own program might come in."""
    for port in NEXT_PORT:
        with socket.socket() as probe:
            probe.setsockopt(socket.SOL_SOCKET, socket.SO_REUSEADDR, 1)
            try:
                probe.bind(("127.0.0.1", port))
            except OSError:
                continue
            return port


class Desk:
    """A program as it serves so many connections: these words, and then a file, a port and the number."""

    def __init__(self, program: typing.List[str], file: pathlib.Path, count: int) -> None:
        self.port = free_port()
        words = [*program, str(file), str(self.port), str(count)]
        self.process = subprocess.Popen(words, stdin=subprocess.DEVNULL, stdout=subprocess.PIPE, stderr=subprocess.PIPE)

    def connect(self) -> socket.socket:
        """A connection, as soon as the program listens."""
        until = time.monotonic() + PATIENCE
        while True:
            try:
                peer = socket.create_connection(("127.0.0.1", self.port), timeout=PATIENCE)
                peer.setsockopt(socket.IPPROTO_TCP, socket.TCP_NODELAY, 1)
                return peer
            except ConnectionRefusedError:
                if self.process.poll() is not None or time.monotonic() > until:
                    raise
                time.sleep(0.01)

    def end(self) -> typing.Tuple[int, bytes, bytes]:
        """The status, standard output and standard error, once it has served all connections."""
        try:
            out, err = self.process.communicate(timeout=PATIENCE)
        except subprocess.TimeoutExpired:
            self.stop()
            out, err = self.process.communicate()
        return self.process.returncode, out, err

    def stop(self) -> None:
        """Ends it, where it has not ended."""
        if self.process.poll() is None:
            self.process.kill()
            self.process.wait()


def send(peer: socket.socket, request: bytes) -> None:
    """Sends as much as the other side takes: one that has answered needn't read on."""
    try:
        peer.sendall(request)
    except (BrokenPipeError, ConnectionResetError):
        pass


def received(peer: socket.socket, reset: bytes = b"") -> bytes:
    """All that comes until the other side ends the connection, and what a reset in place of an end is told as."""
    came = b""
    try:
        while True:
            more = peer.recv(65536)
            if not more:
                return came
            came += more
    except ConnectionResetError:
        return came + reset
    except socket.timeout:
        return came + f"(and no end within {PATIENCE} s)".encode()


# ── ways to send a request ──

Way = typing.Callable[[Desk, bytes], bytes]


def whole(desk: Desk, request: bytes) -> bytes:
    """The sending side stays open: no end of the input tells where the request ends."""
    with desk.connect() as peer:
        send(peer, request)
        return received(peer)


def ended(desk: Desk, request: bytes) -> bytes:
    """The sending side is shut down behind the request."""
    with desk.connect() as peer:
        send(peer, request)
        try:
            peer.shutdown(socket.SHUT_WR)
        except OSError:  # it has ended the connection
            pass
        return received(peer)


def by_bytes(desk: Desk, request: bytes) -> bytes:
    """Each byte comes by itself."""
    with desk.connect() as peer:
        for byte in request:
            send(peer, bytes([byte]))
            time.sleep(0.0005)
        return received(peer)


def given_up(desk: Desk, request: bytes) -> bytes:
    """The connection is reset behind the request: reading it or writing the answer fails."""
    with desk.connect() as peer:
        send(peer, request)
        peer.setsockopt(socket.SOL_SOCKET, socket.SO_LINGER, struct.pack("ii", 1, 0))
    return b""


def is_unread(peer: socket.socket, port: int) -> bool:
    """Whether bytes of a connection to this port lie with the system that the program has not read yet."""
    ends = f"0100007F:{port:04X} 0100007F:{peer.getsockname()[1]:04X}"
    for line in pathlib.Path("/proc/net/tcp").read_text().split("\n"):
        if ends in line:
            return not line.split()[4].endswith(":00000000")
    return False


def unanswered(desk: Desk, request: bytes) -> bytes:
    """The connection is reset once the program has read the whole request, so that its answer can't be taken."""
    with desk.connect() as peer:
        send(peer, request)
        until = time.monotonic() + PATIENCE
        while is_unread(peer, desk.port) and time.monotonic() < until:
            time.sleep(0.0005)
        peer.setsockopt(socket.SOL_SOCKET, socket.SO_LINGER, struct.pack("ii", 1, 0))
    return b""


def behind_another(desk: Desk, request: bytes) -> bytes:
    """All of it has come before the program looks at it, since another peer is served first, so that the connection ends
    without a reset, which may take an answer away that is not read yet. It takes two connections."""
    with desk.connect() as first, desk.connect() as peer:
        peer.setsockopt(socket.SOL_SOCKET, socket.SO_SNDBUF, 1 << 20)
        send(peer, request)
        first.shutdown(socket.SHUT_WR)
        received(first)
        return received(peer, b"(and a reset)")


def two_at_once(desk: Desk, request: bytes) -> bytes:
    """Two peers send the same before the first of them is served: what both are answered, or both answers where they differ.
    It takes two connections."""
    with desk.connect() as first, desk.connect() as second:
        for peer in (first, second):
            send(peer, request)
        answers = [received(peer) for peer in (first, second)]
    return answers[0] if answers[0] == answers[1] else b" but ".join(answers)


def elsewhere(desk: Desk, address: bytes) -> bytes:
    """Whether a connection at another address of the machine is taken or refused. It takes none where it is refused."""
    try:
        socket.create_connection((address.decode(), desk.port), timeout=PATIENCE).close()
    except ConnectionRefusedError:
        return b"refused"
    return b"taken"


def by_curl(desk: Desk, request: bytes) -> bytes:
    """The request is a path, and behind it on further lines a body, if it has one."""
    path, _, body = request.decode().partition("\n")
    words = ["curl", "-q", "-s", "-i", "--noproxy", "*", "--max-time", str(PATIENCE)]
    sent = ["--data-binary", body] if body else []
    return subprocess.run([*words, *sent, f"http://127.0.0.1:{desk.port}{path}"], capture_output=True).stdout
