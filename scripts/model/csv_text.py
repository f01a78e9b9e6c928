"""A sector log as CSV: what each row gives, or the fault of the text."""
import typing

from .commands import Entry, Sector, has_shape, sector_doc
from .reading import MOST_BYTES, Fault
from .texts import few_digits, moment_of, tail_of

HEADER = [b"tail", b"page", b"line", b"off", b"on", b"cycles"]
MOST_ROWS = 100_000
MARK = b"\xef\xbb\xbf"
COMMA, QUOTE, ENDS = b",", b'"', (b"\r", b"\n")


def records_of(raw: bytes) -> typing.List[typing.List[bytes]]:
    """The records: quotes count at the front of a field, and there alone."""
    records: typing.List[typing.List[bytes]] = []
    place = len(MARK) if raw.startswith(MARK) else 0
    while place < len(raw):
        if raw[place:place + 1] in ENDS:  # a blank line, or the second byte of an end
            place += 1
            continue
        fields = []
        while True:
            field, place = field_at(raw, place)
            fields.append(field)
            if raw[place:place + 1] != COMMA:
                break
            place += 1
        records.append(fields)
    return records


def field_at(raw: bytes, place: int) -> typing.Tuple[bytes, int]:
    """The field that begins here, and where it ends."""
    begun = b""
    if raw[place:place + 1] == QUOTE:
        begun, place = quoted_at(raw, place + 1)
    start = place
    while place < len(raw) and raw[place:place + 1] not in (COMMA, *ENDS):
        place += 1
    return begun + raw[start:place], place


def quoted_at(raw: bytes, place: int) -> typing.Tuple[bytes, int]:
    """What stands in quotes from here on, where two quotes are one; and the place behind the last."""
    field = b""
    while place < len(raw):
        if raw[place:place + 1] != QUOTE:
            field += raw[place:place + 1]
        elif raw[place + 1:place + 2] == QUOTE:
            field, place = field + QUOTE, place + 1
        else:
            return field, place + 1
        place += 1
    return field, place


def row_of(fields: typing.List[bytes]) -> typing.Union[Entry, int]:
    """The command of a row, or the number of its fault."""
    if len(fields) != len(HEADER):
        return 68
    try:
        texts = [field.decode("utf-8") for field in fields]
    except UnicodeDecodeError:
        return 63
    tail, off, on = tail_of(texts[0]), moment_of(texts[3]), moment_of(texts[4])
    page, line, cycles = few_digits(texts[1]), few_digits(texts[2]), few_digits(texts[5])
    if tail is None or off is None or on is None or page is None or line is None or cycles is None:
        return 63
    sector = Sector(tail, page, line, off, on, cycles)
    entry = Entry(sector_doc(sector), sector)
    return entry if has_shape(entry) else 65


def rows_of(raw: bytes) -> typing.List[typing.Union[Entry, int]]:
    if len(raw) > MOST_BYTES:
        raise Fault(67)
    records = records_of(raw)
    if not records or records[0] != HEADER:
        raise Fault(66)
    if len(records) - 1 > MOST_ROWS:
        raise Fault(67)
    return [row_of(fields) for fields in records[1:]]
