"""The points on the way of a file from layout 1 to layout 2, and how many commits it takes."""
import typing

from .commands import AddAircraft, AddComponent, Book, Sector

Point = typing.Tuple[int, int, int]  # layout, step, mark
BATCH = 64  # sectors


def points_of(book: Book) -> typing.List[Point]:
    """The points of the file of a book, from the first to the last: each is behind one commit more."""
    sectors = [number for number, entry in enumerate(book, 1) if isinstance(entry.act, Sector)]
    components = [number for number, entry in enumerate(book, 1) if isinstance(entry.act, AddComponent)]
    items = [number for number, entry in enumerate(book, 1) if isinstance(entry.act, (AddAircraft, AddComponent))]
    moved = [sectors[min(start + BATCH, len(sectors)) - 1] for start in range(0, len(sectors), BATCH)]
    steps = enumerate([moved, components, items, items], 1)
    between = [(1, step, mark) for step, marks in steps for mark in [0, *marks]]
    return [(1, 0, 0), *between, (2, 0, 0)]


def commits_of(book: Book) -> int:
    return len(points_of(book)) - 1


def point_behind(book: Book, commits: int) -> str:
    """The point behind so many commits, as a player says it."""
    return " ".join(map(str, points_of(book)[min(commits, commits_of(book))]))
