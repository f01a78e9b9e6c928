"""Identifiers, days, moments and amounts, and their exact texts."""
import datetime
import re
import typing

FIRST_DATE = datetime.date(1970, 1, 1)
LAST_DAY = 84005
DAY_FORM = re.compile(r"[0-9]{4}-[0-9]{2}-[0-9]{2}")
MOMENT_FORM = re.compile(r"([0-9]{4}-[0-9]{2}-[0-9]{2})T([0-9]{2}):([0-9]{2})")
TAIL_FORM = re.compile(r"[A-Z0-9-]{1,8}")
NAME_FORM = re.compile(r"[!-~]{1,16}")
DOC_FORM = re.compile(r"[!-~]{1,40}")

# ── what is printed ──


def day_text(day: int) -> str:
    """YYYY-MM-DD, and `later` past the calendar."""
    return (FIRST_DATE + datetime.timedelta(days=day)).isoformat() if day <= LAST_DAY else "later"


def moment_text(moment: int) -> str:
    day, minute = divmod(moment, 1440)
    return f"{day_text(day)}T{minute // 60:02}:{minute % 60:02}"


def hours_text(minutes: int) -> str:
    sign = "-" if minutes < 0 else ""
    return f"{sign}{abs(minutes) // 60}:{abs(minutes) % 60:02}"


# ── what is read: None where a text is none ──


def day_of(text: str) -> typing.Optional[int]:
    if not DAY_FORM.fullmatch(text):
        return None
    try:
        day = (datetime.date(int(text[:4]), int(text[5:7]), int(text[8:])) - FIRST_DATE).days
    except ValueError:
        return None
    return day if 0 <= day <= LAST_DAY else None


def moment_of(text: str) -> typing.Optional[int]:
    form = MOMENT_FORM.fullmatch(text)
    day = day_of(form.group(1)) if form else None
    if form is None or day is None or int(form.group(2)) > 23 or int(form.group(3)) > 59:
        return None
    return 1440 * day + 60 * int(form.group(2)) + int(form.group(3))


def tail_of(text: str) -> typing.Optional[str]:
    return text if TAIL_FORM.fullmatch(text) else None


def name_of(text: str) -> typing.Optional[str]:
    """A kind, serial number, part, position, task or reference."""
    return text if NAME_FORM.fullmatch(text) else None


def doc_of(text: str) -> typing.Optional[str]:
    return text if DOC_FORM.fullmatch(text) else None


def few_digits(text: str) -> typing.Optional[int]:
    """A number of 1 to 6 digits, zeros in front or not."""
    return int(text) if re.fullmatch(r"[0-9]{1,6}", text) else None
