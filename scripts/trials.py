"""What the long trials of the built program share: their words, a limit of time, a seed, work side by side."""
import argparse
import concurrent.futures
import os
import pathlib
import random
import signal
import subprocess
import sys
import time
import typing

TOP = pathlib.Path(__file__).resolve().parent.parent
Item = typing.TypeVar("Item")
Found = typing.TypeVar("Found")


class Time:
    """A limit of time; none, where no minutes are given."""

    def __init__(self, minutes: typing.Optional[float]) -> None:
        self.until = float("inf") if minutes is None else time.monotonic() + 60 * minutes

    def left(self) -> float:
        """Seconds."""
        return max(0.0, self.until - time.monotonic())

    def is_over(self) -> bool:
        return self.left() == 0

    def part(self, parts: int) -> "Time":
        """An even part of what is left."""
        return Time(self.left() / parts / 60)


def add_limits(words: argparse.ArgumentParser, jobs: bool = False) -> None:
    """The words that a trial takes beside its own."""
    words.add_argument("--minutes", metavar="N", type=float, help="begin nothing more after so many minutes")
    words.add_argument("--seed", metavar="N", type=int, help="what chance draws from; printed where it is not given")
    if jobs:
        words.add_argument("--jobs", metavar="N", type=int, default=2, help="runs side by side")


def add_office(words: argparse.ArgumentParser) -> None:
    words.add_argument("--office", metavar="PROGRAM", default=str(TOP / "office"), help="the built program")


def begun(given: argparse.Namespace) -> Time:
    """Draws the seed where none is given, prints it, and looks whether the program is there. The time begins."""
    end_when_told()
    if given.seed is None:
        given.seed = random.randrange(1, 1000000)
    print(f"seed {given.seed}", flush=True)
    if "office" in given:
        given.office = built(given.office)
    return Time(given.minutes)


def built(program: typing.Union[str, pathlib.Path]) -> str:
    """The whole path of a program that has to be there."""
    path = os.path.abspath(program)
    if not os.access(path, os.X_OK):
        raise SystemExit(f"there is no program {path}: the gate builds it, and `make office` that of the office alone")
    return path


def mixed(items: typing.Iterable[Item], seed: int, name: str) -> typing.List[Item]:
    """These in an order of chance, so that those which the time allows are some of all."""
    found = list(items)
    random.Random(f"{seed} {name}").shuffle(found)
    return found


def side_by_side(
    work: typing.Callable[[Item], Found], items: typing.Iterable[Item], jobs: int, limit: Time
) -> typing.List[Found]:
    """What the work gives for each of the items that are begun within the time."""
    def given(item: Item) -> typing.List[Found]:
        return [] if limit.is_over() else [work(item)]

    with concurrent.futures.ThreadPoolExecutor(jobs) as pool:
        return [it for found in pool.map(given, items) for it in found]


def end_when_told() -> None:
    """From now on SIGTERM ends the script as an error does, and with it what it began."""
    signal.signal(signal.SIGTERM, lambda *_: sys.exit(1))


def printed_by(words: typing.List[str], folder: pathlib.Path, seconds: float) -> typing.Optional[str]:
    """All that a command prints, or None where it takes longer; with it ends what it began."""
    streams = {"stdin": subprocess.DEVNULL, "stdout": subprocess.PIPE, "stderr": subprocess.STDOUT}
    with subprocess.Popen(words, cwd=folder, start_new_session=True, errors="replace", **streams) as ran:
        try:
            return ran.communicate(timeout=None if seconds == float("inf") else seconds)[0]
        except subprocess.TimeoutExpired:
            return None
        finally:
            if ran.poll() is None:
                os.killpg(ran.pid, signal.SIGKILL)


def library(source: str, folder: pathlib.Path) -> pathlib.Path:
    """What a file in C of this folder makes, to be loaded in front of the C library."""
    made = folder / f"{source}.so"
    words = [os.environ.get("CC", "cc"), "-O1", "-shared", "-fPIC", "-o", made, TOP / "scripts" / f"{source}.c"]
    subprocess.run(words, check=True)
    return made


def in_front(made: pathlib.Path, program: typing.Sequence[str], **settings: object) -> typing.List[str]:
    """The program with such a library in front, and settings for that."""
    return ["env", f"LD_PRELOAD={made}", *(f"{name}={value}" for name, value in settings.items()), *program]
