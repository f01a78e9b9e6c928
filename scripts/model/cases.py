"""The random cases: lists of commands, groups of damaged texts and of requests. Its seed and its name tell a case."""
import json
import random
import typing

from . import fleet, office
from .asking import fleet_words, list_asked, random_request
from .commands import Book
from .edges import edge
from .damage import damaged
from .http_text import OLD_FILE, Asked
from .playing import Step, Steps, request_of, wanted_of
from .toml_text import TOLD, Undecided
from .world import TAILS, World, programme_text

GROUP = 100  # damaged texts or requests of one case


class Case:
    """Steps, and what the model says to each; how many texts were undecided and left out."""

    def __init__(self, seed: int, name: str) -> None:
        self.chance = random.Random(f"{seed} {name}")
        self.book: Book = []
        self.world = World(self.chance, self.book)
        self.steps: Steps = []
        self.told: typing.List[typing.Union[bytes, office.Printed]] = []
        self.undecided = 0

    def step(self, step: Step) -> None:
        try:
            self.told.append(wanted_of(self.book, step))
            self.steps.append(step)
        except Undecided:
            self.undecided += 1

    def asked(self, asked: Asked, by_words: bool) -> None:
        self.step(Step(asked) if by_words else Step(request=request_of(asked)))

    # ── what is handed in ──

    def commands(self, most: int) -> Asked:
        commands = [self.world.command() for _ in range(self.chance.randint(1, most))]
        return Asked("enter", (), json.dumps(commands).encode())

    def programme(self) -> Asked:
        table = self.world.programme()
        text = programme_text(table)
        TOLD[text.decode()] = table
        return Asked("programme", (self.world.doc(),), text)

    def handed_in(self, most: int) -> Asked:
        way = self.chance.randrange(10)
        if way == 0:
            return Asked("import", (), self.world.log())
        return self.programme() if way == 1 else self.commands(most)

    def begun(self, by_words: bool) -> None:
        """Aircraft, components and programmes, so that the rest has something to stand on."""
        for many, make in ((3, self.world.add_aircraft), (3, self.world.add_component)):
            made = [make() for _ in range(self.chance.randint(1, many))]
            self.world.handed_in += made
            self.asked(Asked("enter", (), json.dumps(made).encode()), by_words)
        for _ in range(self.chance.randint(1, 3)):
            self.asked(self.programme(), by_words)

    def begun_as_old(self, by_words: bool) -> None:
        """Commands in a file of layout 1, which the next word moves on, or the desk as it opens it."""
        self.begun(True)
        for _ in range(self.chance.randint(0, 24)):
            self.asked(self.commands(2), True)
        texts = [step.asked.body for step in self.steps if step.asked is not None and step.asked.word == "enter"]
        commands = [command for text in texts for command in json.loads(text)]
        self.steps, self.told = [], []
        self.book.clear()
        self.step(Step(Asked(OLD_FILE, (), json.dumps(commands).encode())))
        for _ in range(self.chance.randint(0, 3)):
            self.asked(self.programme(), by_words)


def lists_asked(case: Case) -> typing.Iterator[Asked]:
    """Questions for the lists of each aircraft on some days."""
    days = case.chance.sample([0, 1, 4, 12, 30, 200], 2)
    for tail in case.world.tails() + (["D-X"] if case.chance.random() < 0.1 else []):
        yield Asked("life", (tail,), b"")
        for day in (min(84005, case.world.base + day) for day in days):
            yield Asked("due", (tail, day), b"")
        yield Asked("limits", (tail, day), b"")
        rate = case.chance.choice([(60, 1), (0, 0), (1440, 50), (7, 0), (0, 2)])
        yield Asked("forecast", (tail, day, case.chance.choice([0, 10, 90, 3650]), *rate), b"")


def fleet_asked(case: Case) -> typing.Iterator[Asked]:
    """Questions for the lists of all aircraft, which are asked by words alone: the desk has none of them."""
    for word in fleet.LISTS:
        yield Asked(word, fleet_words(case.chance, word, case.world.base), b"")


def command_list(seed: int, number: int, by_words: bool, as_old: bool = False) -> Case:
    """A list of commands, the lists of every aircraft on some days, and those of all aircraft."""
    case = Case(seed, f"{'old' if as_old else 'list'}-{number}")
    if as_old:
        case.begun_as_old(by_words)
    else:
        case.begun(by_words)
    for _ in range(case.chance.randint(4, 16)):
        case.asked(case.handed_in(2), by_words)
    for asked in lists_asked(case):
        case.asked(asked, by_words)
    for asked in fleet_asked(case):
        case.asked(asked, True)
    return case


def old_list(seed: int, number: int, by_words: bool) -> Case:
    """As a list of commands, of which the first are in a file of layout 1."""
    case = command_list(seed, number, by_words, as_old=True)
    assert case.steps[0].asked is not None and case.steps[0].asked.word == OLD_FILE
    return case


def damaged_texts(seed: int, number: int, by_words: bool, count: int = GROUP) -> Case:
    """Texts that are damaged, handed in one after the other."""
    case = Case(seed, f"text-{number}")
    case.begun(by_words)
    while len(case.steps) + case.undecided < count:
        way = case.chance.randrange(4)
        asked = [case.commands(3), case.commands(2), case.programme(), Asked("import", (), case.world.log())][way]
        form = {"programme": "toml", "import": "csv"}.get(asked.word, "json")
        case.asked(asked._replace(body=damaged(case.chance, asked.body, form)), by_words)
    return case


def requests(seed: int, number: int, _: bool, count: int = GROUP) -> Case:
    """Requests over HTTP, whole, damaged or none."""
    case = Case(seed, f"request-{number}")
    case.begun(False)
    while len(case.steps) + case.undecided < count:
        asked = case.handed_in(2)
        if case.chance.random() < 0.5:
            asked = list_asked(case.chance, [*TAILS, "D-X"], case.world.base)
        case.step(Step(request=random_request(case.chance, asked)))
    return case


KINDS: typing.Dict[str, typing.Callable[[int, int, bool], Case]] = {
    "edge": lambda _, number, by_words: edge(Case(0, f"edge-{number}"), number, by_words), "list": command_list,
    "old": old_list, "text": damaged_texts, "request": requests,
}
