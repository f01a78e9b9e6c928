"""The lists of an aircraft as text: its life, what is due, the limits of its defects, a forecast."""
import typing

from . import book as records
from .commands import Amounts, Book, Item, Task, Three
from .texts import day_text, hours_text

RANKS = ["OVERDUE", "DUE", "OK"]
UNKNOWN = "refused 20\n"
Rate = typing.Tuple[int, int]  # minutes and cycles a day


class Row(typing.NamedTuple):
    """What is due: as a due list names it and as a forecast does, what is left, what is tolerated, how it ends."""

    words: str
    reached: str
    left: Three
    tolerance: Amounts
    tail: str

    def status(self) -> str:
        ranks = [rank(left, tolerated) for left, tolerated in zip(self.left, self.tolerance) if left is not None]
        return RANKS[min(ranks)]


class Limit(typing.NamedTuple):
    """The limit of an open defect: its last day, its document, how it stands, and the words behind that."""

    last: int
    doc: str
    status: str
    words: str


def rank(left: int, tolerated: int) -> int:
    return 2 if left > 0 else 1 if left >= -tolerated else 0


def or_dash(number: typing.Optional[int]) -> str:
    return "-" if number is None else str(number)


def left_words(left: Three) -> str:
    hours = "-" if left[0] is None else hours_text(left[0])
    return f"h={hours} c={or_dash(left[1])} d={or_dash(left[2])}"


def use_words(use: typing.Tuple[int, int]) -> str:
    return f"{hours_text(use[0])} {use[1]}"


def whole(head: str, rows: typing.List[str]) -> str:
    return "".join(f"{line}\n" for line in (head, *rows, f"end {len(rows)}"))


def parts(book: Book, tail: str) -> typing.List[records.Span]:
    """What is fitted to an aircraft, by position."""
    found = [span for span in records.spans(book) if span.tail == tail and span.end is None]
    return sorted(found, key=lambda span: span.position)


def life_text(book: Book, tail: str) -> str:
    known = records.aircraft(book, tail)
    if known is None:
        return UNKNOWN
    rows = [f"airframe {known.kind} {use_words(records.life(book, Item(tail=tail)))}"]
    for span in parts(book, tail):
        item = Item(serial=span.serial)
        part = records.component(book, span.serial)
        assert part is not None
        rows.append(f"part {span.position} {span.serial} {part.part} {use_words(records.life(book, item))}")
    return whole(f"life {tail}", rows)


# ── what is due ──


def task_rows(book: Book, tasks: typing.List[Task], item: Item, place: str, day: int) -> typing.List[Row]:
    rows = []
    for task in sorted(tasks, key=lambda task: task.name):
        due = records.due_of(book, item, task) if records.applies(book, task, item) else None
        if due is not None:
            left = records.left_until(due, (*records.life(book, item), day))
            words = f"{place} {task.name}"
            rows.append(Row(words, words, left, task.tolerance, left_words(left)))
    return rows


def defect_rows(book: Book, tail: str, day: int) -> typing.List[typing.Tuple[int, Row]]:
    """The rows of the open defects, in the order of their entries, each with its last day."""
    rows = []
    for doc, found in records.open_defects(book, tail):
        last = records.last_permitted(book, doc)
        words = f"{doc} {found.category} {found.reference}"
        ending = f"last={day_text(last)} left={last - day}"
        rows.append((last, Row(words, f"defect {doc}", (None, None, last - day), (0, 0, 0), ending)))
    return rows


def rows_by_place(book: Book, tail: str, kind: str, day: int) -> typing.List[Row]:
    tasks = records.tasks(book, kind)
    rows = task_rows(book, tasks, Item(tail=tail), "airframe", day)
    for span in parts(book, tail):
        rows += task_rows(book, tasks, Item(serial=span.serial), f"part {span.position} {span.serial}", day)
    return rows + [row._replace(words=f"defect {row.words}") for _, row in defect_rows(book, tail, day)]


def due_rows(book: Book, tail: str, kind: str, day: int) -> typing.List[Row]:
    return sorted(rows_by_place(book, tail, kind, day), key=lambda row: RANKS.index(row.status()))


def due_text(book: Book, tail: str, day: int) -> str:
    known = records.aircraft(book, tail)
    if known is None:
        return UNKNOWN
    head = f"due {tail} {day_text(day)} {use_words(records.life(book, Item(tail=tail)))}"
    return whole(head, [f"{row.status()} {row.words} {row.tail}" for row in due_rows(book, tail, known.kind, day)])


def limit_rows(book: Book, tail: str, day: int) -> typing.List[Limit]:
    """By their last days, those of one last day in the order of their entries."""
    limits = []
    for last, row in sorted(defect_rows(book, tail, day), key=lambda pair: pair[0]):
        doc = row.words.split(" ")[0]
        found = records.defect(book, doc)
        assert found is not None
        since = f"found={day_text(found.moment // 1440)} ext={records.extended(book, doc)}"
        limits.append(Limit(last, doc, row.status(), f"{row.words} {since} {row.tail}"))
    return limits


def limits_text(book: Book, tail: str, day: int) -> str:
    if records.aircraft(book, tail) is None:
        return UNKNOWN
    lines = [f"{limit.status} {limit.words}" for limit in limit_rows(book, tail, day)]
    return whole(f"limits {tail} {day_text(day)}", lines)


def forecast_rows(book: Book, tail: str, kind: str, day: int, days: int, rate: Rate) -> typing.List[typing.Tuple[int, str]]:
    """What is reached within so many days, the soonest first, each behind the number of days."""
    found = []
    for row in rows_by_place(book, tail, kind, day):
        after = [n for n in range(days + 1) if is_reached(row.left, (rate[0] * n, rate[1] * n, n))]
        if after:
            found.append((after[0], row.reached))
    return sorted(found, key=lambda pair: pair[0])


def forecast_text(book: Book, tail: str, day: int, days: int, rate: Rate) -> str:
    known = records.aircraft(book, tail)
    if known is None:
        return UNKNOWN
    rows = forecast_rows(book, tail, known.kind, day, days, rate)
    lines = [f"{n} {day_text(day + n)} {reached}" for n, reached in rows]
    return whole(f"forecast {tail} {day_text(day)} {days} {rate[0]} {rate[1]}", lines)


def is_reached(left: Three, used: Amounts) -> bool:
    return any(number is not None and number <= more for number, more in zip(left, used))
