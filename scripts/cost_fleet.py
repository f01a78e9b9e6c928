"""The book of which scripts/measure-cost asks the lists of all aircraft: the largest fleet, and what its lists have rows of.

Fifty aircraft, each with four components, and a programme of twenty tasks: twelve of the airframe and two of each component.
Behind them each twenty entries are two days of one aircraft in its turn, as in the books of cost_book.py: of most aircraft a
defect is open.
"""
import typing

import cost_book
from cost_book import FIRST, Command

TAILS = [f"D-F{nth:03}" for nth in range(50)]
PARTS = {"ENG": "IO360", "PROP": "HC2", "PUMP": "VP1", "GOV": "GV1"}
TASKS = [
    *cost_book.TASKS,
    *cost_book.inspections(10),
    ("MAGNETO", "part:IO360", "hours = 500", "hours = 500"),
    ("BLADES", "part:HC2", "days = 2190", "days = 2190"),
    ("PUMP-TEST", "part:VP1", "hours = 1000", "hours = 1000"),
    ("PUMP-OVERHAUL", "part:VP1", "hours = 2500, days = 4380", "hours = 2500, days = 4380"),
    ("GOV-TEST", "part:GV1", "cycles = 1000", "cycles = 1000"),
    ("GOV-OVERHAUL", "part:GV1", "hours = 2000, days = 2190", "hours = 2000, days = 2190"),
]


def first_entries() -> typing.List[Command]:
    """The fleet, and what is fitted to it."""
    found = [cost_book.aircraft(f"A{nth}", tail, PARTS) for nth, tail in enumerate(TAILS)]
    for nth, tail in enumerate(TAILS):
        for position in PARTS:
            serial = f"{position}-{nth}"
            found.append(cost_book.component(f"C-{serial}", serial, position, PARTS))
            found.append(cost_book.fitting(f"F-{serial}", serial, tail, position, FIRST))
    return found


def later_entries(count: int) -> typing.List[Command]:
    """So many entries behind the first ones and the programme."""
    return cost_book.later_entries(count, TAILS)


def programme(revision: int) -> str:
    return cost_book.programme_of(revision, TASKS)
