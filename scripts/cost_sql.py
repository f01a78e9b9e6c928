"""The lists of the program as statements of SQLite, and the copies and rows of files, for scripts/measure-cost.

The statements read the tables that the program made, those that it keeps beside its entries too, and answer line by line what it
prints.
"""
import contextlib
import os
import pathlib
import shutil
import sqlite3
import typing
from datetime import date

from office_facts import OWN_TABLE

FIRST_DAY = date(1970, 1, 1)
Rows = typing.Dict[str, typing.Set[typing.Tuple[typing.Any, ...]]]


def hours_of(minutes: str) -> str:
    """The text of minutes as hours, `-` where there are none."""
    text = f"printf('%s%d:%02d', iif({minutes} < 0, '-', ''), abs({minutes}) / 60, abs({minutes}) % 60)"
    return f"iif({minutes} IS NULL, '-', {text})"


# The items of one aircraft, or of all, each with its life.
ONE, ALL = "WHERE tail = '{tail}'", ""
LIVES = """
own AS (SELECT * FROM aircraft {which}),
item AS MATERIALIZED (
  SELECT seq AS item, seq AS aircraft, NULL AS part, '' AS position, '' AS serial, birth FROM own
  UNION ALL
  SELECT c.seq, own.seq, c.part, s.position, c.serial, c.birth
  FROM own JOIN span2 s ON s.aircraft = own.seq AND s.remove_seq IS NULL JOIN component c ON c.seq = s.component),
life AS MATERIALIZED (SELECT i.*, t.minutes AS m, t.cycles AS c FROM item i JOIN total2 t ON t.item = i.item)
"""

# What is left of each task on a day, and until the last day of each open defect; of an airframe, a part, a defect.
ROWS = """,
due AS (
  SELECT own.tail, t.*, i.position, i.serial, iif(b.item IS NULL, t.first_m, b.minutes + t.rep_m) - i.m AS m,
    iif(b.item IS NULL, t.first_c, b.cycles + t.rep_c) - i.c AS c,
    iif(b.item IS NULL, i.birth + t.first_d, b.day + t.rep_d) - {day} AS d
  FROM own JOIN life i ON i.aircraft = own.seq JOIN task t ON t.part IS i.part
    LEFT JOIN base2 b ON b.item = i.item AND b.task = t.id
  WHERE t.seq = (SELECT max(p.seq) FROM programme p WHERE p.kind = own.kind)),
open AS (
  SELECT own.tail, f.seq, e.doc, substr('ABCD', f.category, 1) AS letter, f.reference,
    f.moment / 1440 AS found, coalesce(x.days, 0) AS ext, f.moment / 1440 + coalesce(x.days, 0)
      + coalesce(f.days, iif(f.category = 2, 3, iif(f.category = 3, 10, 120))) AS last
  FROM own JOIN defect f ON f.aircraft = own.seq JOIN entry e ON e.seq = f.seq
    LEFT JOIN extension x ON x.defect = f.seq
  WHERE NOT EXISTS (SELECT 1 FROM crs_line l WHERE l.defect = f.seq)),
lines AS (
  SELECT tail, CASE WHEN m < -tol_m OR c < -tol_c OR d < -tol_d THEN 0 WHEN m <= 0 OR c <= 0 OR d <= 0 THEN 1 ELSE 2 END
      AS worst,
    iif(part IS NULL, 'airframe ', 'part ' || position || ' ' || serial || ' ') || id AS name,
    iif(part IS NULL, 0, 1) AS place, position, id, 0 AS seq, m, c, d, '' AS last
  FROM due WHERE coalesce(m, c, d) IS NOT NULL
  UNION ALL
  SELECT tail, iif(last < {day}, 0, iif(last = {day}, 1, 2)), 'defect ' || doc, 2, '', '', seq, NULL, NULL, last - {day},
    ' ' || letter || ' ' || reference || ' last=' || date(last * 86400, 'unixepoch') || ' left=' || (last - {day})
  FROM open)
"""

LIFE_LIST = f"""
SELECT 'life {{tail}}'
UNION ALL SELECT * FROM (SELECT iif(serial = '', 'airframe ' || (SELECT kind FROM own),
    'part ' || position || ' ' || serial || ' ' || part) || ' ' || {hours_of('m')} || ' ' || c
  FROM life ORDER BY position)
UNION ALL SELECT 'end ' || count(*) FROM life
"""

STATUS = "CASE worst WHEN 0 THEN 'OVERDUE ' WHEN 1 THEN 'DUE ' ELSE 'OK ' END"
LEFT = f"name || iif(place = 2, last, ' h=' || {hours_of('m')} || ' c=' || coalesce(c, '-') || ' d=' || coalesce(d, '-'))"

DUE_LIST = f"""
SELECT 'due {{tail}} {{text}} ' || {hours_of('m')} || ' ' || c FROM life WHERE serial = ''
UNION ALL SELECT * FROM (SELECT {STATUS} || {LEFT} FROM lines ORDER BY worst, place, position, id, seq)
UNION ALL SELECT 'end ' || count(*) FROM lines
"""

DEFERRED_LIST = """
SELECT 'deferred {text}'
UNION ALL SELECT * FROM (SELECT iif(last < {day}, 'OVERDUE ', iif(last = {day}, 'DUE ', 'OK ')) || tail || ' ' || doc || ' '
    || letter || ' ' || reference || ' found=' || date(found * 86400, 'unixepoch') || ' ext=' || ext
    || ' last=' || date(last * 86400, 'unixepoch') || ' left=' || (last - {day})
  FROM open ORDER BY last, seq)
UNION ALL SELECT 'end ' || count(*) FROM open
"""

CLOCK = "strftime('%Y-%m-%dT%H:%M', t.clock * 60, 'unixepoch')"

AIRCRAFT_LIST = f"""
SELECT 'aircraft'
UNION ALL SELECT * FROM (SELECT a.tail || ' ' || a.kind || ' ' || {hours_of('t.minutes')} || ' ' || t.cycles
    || ' ' || {CLOCK}
    || ' fitted=' || (SELECT count(*) FROM span2 s WHERE s.aircraft = a.seq AND s.remove_seq IS NULL)
    || ' open=' || (SELECT count(*) FROM defect f WHERE f.aircraft = a.seq
      AND NOT EXISTS (SELECT 1 FROM crs_line l WHERE l.defect = f.seq))
  FROM aircraft a JOIN total2 t ON t.item = a.seq ORDER BY a.tail)
UNION ALL SELECT 'end ' || count(*) FROM aircraft
"""

COMPONENT_LIST = f"""
SELECT 'components'
UNION ALL SELECT * FROM (SELECT c.serial || ' ' || c.part || ' ' || {hours_of('t.minutes')} || ' ' || t.cycles
    || ' ' || {CLOCK} || ' ' || coalesce(a.tail || ' ' || s.position, '- -')
  FROM component c JOIN total2 t ON t.item = c.seq
    LEFT JOIN span2 s ON s.component = c.seq AND s.remove_seq IS NULL LEFT JOIN aircraft a ON a.seq = s.aircraft
  ORDER BY c.serial)
UNION ALL SELECT 'end ' || count(*) FROM component
"""

FLEET_LIST = f"""
SELECT 'fleet {{text}}'
UNION ALL SELECT * FROM (SELECT {STATUS} || tail || ' ' || {LEFT} FROM lines
  ORDER BY worst, tail, place, position, id, seq)
UNION ALL SELECT 'end ' || count(*) FROM lines
"""


def days_until(left: str, rate: int) -> str:
    """The days after which what is left is used up, or more than any forecast has."""
    if rate == 0:
        return f"coalesce(iif({left} <= 0, 0, 9999), 9999)"
    return f"coalesce(iif({left} <= 0, 0, ({left} + {rate - 1}) / {rate}), 9999)"


def forecast_list(head: str, name: str, days: int, minutes: int, cycles: int) -> str:
    """What will be due, under this head, where each row has this name."""
    soonest = f"min({days_until('m', minutes)}, {days_until('c', cycles)}, {days_until('d', 1)})"
    return f"""
, reached AS MATERIALIZED (SELECT *, {soonest} AS after FROM lines WHERE after <= {days})
SELECT '{head} {{text}} {days} {minutes} {cycles}'
UNION ALL SELECT * FROM (SELECT after || ' ' || date(({{day}} + after) * 86400, 'unixepoch') || ' ' || {name}
  FROM reached ORDER BY after, tail, place, position, id, seq)
UNION ALL SELECT 'end ' || count(*) FROM reached
"""


def statement(text: str, which: str, tail: str = "", day: date = FIRST_DAY) -> str:
    """A statement of these parts, over one aircraft or all."""
    return f"WITH{text}".replace("{which}", which).format(tail=tail, text=day, day=(day - FIRST_DAY).days)


def life(tail: str) -> str:
    return statement(LIVES + LIFE_LIST, ONE, tail)


def due(tail: str, day: date) -> str:
    return statement(LIVES + ROWS + DUE_LIST, ONE, tail, day)


def forecast(tail: str, day: date, days: int, minutes: int, cycles: int) -> str:
    return statement(LIVES + ROWS + forecast_list("forecast {tail}", "name", days, minutes, cycles), ONE, tail, day)


def fleet(day: date) -> str:
    return statement(LIVES + ROWS + FLEET_LIST, ALL, day=day)


def outlook(day: date, days: int, minutes: int, cycles: int) -> str:
    text = forecast_list("outlook", "tail || ' ' || name", days, minutes, cycles)
    return statement(LIVES + ROWS + text, ALL, day=day)


def deferred(day: date) -> str:
    return statement(LIVES + ROWS + DEFERRED_LIST, ALL, day=day)


# ── files ──


def copy_of(file: pathlib.Path, copy: pathlib.Path) -> pathlib.Path:
    """Copies a database with its log in place of another, and syncs it, so that no run has to."""
    for end in ("", "-wal", "-shm"):
        source, target = pathlib.Path(f"{file}{end}"), pathlib.Path(f"{copy}{end}")
        with contextlib.suppress(FileNotFoundError):
            target.unlink()
        if source.exists():
            shutil.copyfile(source, target)
            with open(target, "rb+") as made:
                os.fsync(made.fileno())
    return copy


def rows_of(file: pathlib.Path) -> Rows:
    """All rows of the entries of a file, by their tables, read by SQLite from a copy."""
    copy = copy_of(file, file.with_name("read.db"))
    with contextlib.closing(sqlite3.connect(copy)) as conn:
        names = [name for (name,) in conn.execute("SELECT name FROM sqlite_schema WHERE type = 'table'")]
        return {table: set(conn.execute(f"SELECT * FROM {table}")) for table in names if table != OWN_TABLE}
