"""Texts of JSON, TOML and CSV that are damaged: bytes changed, numbers and texts at their edges, odd white space."""
import json
import random
import re
import typing

TOKEN = re.compile(rb'"[^"\n]*"|[A-Za-z_][A-Za-z_-]*|-?[0-9][0-9:T.-]*|[\[\]{},:=]+')
SPACES = [b" ", b"\t", b"\n", b"\r\n", b"\r", b"\x0b", b"\x0c", b"\xc2\xa0", b"\xe2\x80\xa8", b"\x00", b"\x7f", b"\x85"]
BROKEN = [b"\xff", b"\xc3", b"\xed\xa0\x80", b"\xf4\x90\x80\x80", b"\xc0\x80", b"\xef\xbb\xbf", b"\xc3\xa9", b"\\",
          b'"']
NUMBERS = [
    b"0", b"-0", b"1", b"00", b"01", b"+1", b"-1", b"2", b"1.0", b"1e0", b"1E2", b"1e400", b"-1e400", b"0e400",
    b"1e-400",
    b"20", b"21", b"49", b"50", b"51", b"99", b"100", b"120", b"121", b"365", b"366", b"500", b"501", b"36500",
    b"36501",
    b"99999", b"100000", b"100001", b"999999", b"1000000", b"1000001", b"0000001", b"000001", b"6000000", b"6000001",
    b"100000000", b"100000001", b"71582788", b"71582789", b"4294967295", b"4294967296", b"9223372036854775807",
    b"9223372036854775808", b"18446744073709551616", b"-9223372036854775808", b"9" * 310, b".5", b"5.", b"1_0", b"0x10",
]
TEXTS = [
    "", "x", "A", "B", "E", "airframe", "part:", "part:P1", "part:" + 16 * "p", "part:" + 17 * "p", "TL/D-A/1/1", "TL/",
    "TL", 8 * "D", 9 * "D", "d-a", "D A", "D-A ", 16 * "n", 17 * "n", 40 * "n", 41 * "n", "~", "\x7f", "é", "\u0120",
    "1970-01-01", "1969-12-31", "2199-12-31", "2200-01-01", "2024-02-29", "2023-02-29", "2100-02-29", "2024-2-29",
    "2024-00-10", "2024-13-01", "2024-01-32", "0000-01-01", "2024-02-29T00:00", "2024-02-29T23:59", "2024-02-29T24:00",
    "2024-02-29T23:60", "2024-02-29T23:59:00", "2024-02-29T23:59Z", "2024-02-29 23:59", "2199-12-31T23:59",
    "2200-01-01T00:00", "٢٠٢٤-01-01", "+2024-01-01", "add-aircraft", "sector", "release", "fly", "defer", "extend",
]
WORDS = [b"null", b"true", b"false", b"NaN", b"Infinity", b"-Infinity", b"nan", b"inf", b"[]", b"{}", b"[1]", b'[{}]',
         b"x"]
ESCAPES = [b"\\u0041", b"\\ud800", b"\\ud83d\\ude00", b"\\udc00", b"\\u12", b"\\x41", b"\\n", b"\\/", b"\\t", b"\\q",
           b"\\U00000041"]
KEYS = [b"do", b"doc", b"tail", b"serial", b"kind", b"days", b"defect", b"task", b"moment", b"positions", b"lines",
        b"note",
        b"page", b"part", b"revision", b"id", b"first", b"repeat", b"tolerance", b"retire", b"hours", b"applies"]

MARK = b"\xef\xbb\xbf"

Chance = random.Random


def place_in(chance: Chance, text: bytes) -> int:
    return chance.randint(0, len(text))


# ── damages of bytes ──


def byte_changed(chance: Chance, text: bytes) -> bytes:
    place = place_in(chance, text)
    return text[:place] + bytes([chance.choice([chance.randrange(256), chance.randrange(32, 127)])]) + text[place + 1:]


def removed(chance: Chance, text: bytes) -> bytes:
    place = place_in(chance, text)
    return text[:place] + text[place + chance.choice([1, 1, 2, 5, 20]):]


def doubled(chance: Chance, text: bytes) -> bytes:
    place, length = place_in(chance, text), chance.choice([1, 1, 2, 8, 40])
    return text[:place] + text[place:place + length] + text[place:]


def cut(chance: Chance, text: bytes) -> bytes:
    return text[:place_in(chance, text)]


def put_in(chance: Chance, text: bytes) -> bytes:
    place = place_in(chance, text)
    return text[:place] + chance.choice([*SPACES, *BROKEN, b",", b"[", b"}", b"#"]) + text[place:]


def put_in_front(chance: Chance, text: bytes) -> bytes:
    return chance.choice([MARK, b"\xef\xbb", b"\xfe\xff", b"\n", b" ", b"\r\n\r\n", 2 * MARK]) + text


# ── damages of what stands there ──


def tokens(text: bytes, form: str) -> typing.List[typing.Tuple[int, int]]:
    return [found.span() for found in TOKEN.finditer(text) if re.match(form.encode(), found.group())]


def changed(chance: Chance, text: bytes, form: str, other: typing.Callable[[bytes], bytes]) -> bytes:
    spans = tokens(text, form)
    if not spans:
        return text
    start, end = chance.choice(spans)
    return text[:start] + other(text[start:end]) + text[end:]


def other_number(chance: Chance, text: bytes) -> bytes:
    return changed(chance, text, r"-?[0-9]", lambda _: chance.choice(NUMBERS))


def other_text(chance: Chance, text: bytes) -> bytes:
    written = json.dumps(chance.choice(TEXTS), ensure_ascii=chance.random() < 0.5).encode()
    return changed(chance, text, '"', lambda _: written)


def other_value(chance: Chance, text: bytes) -> bytes:
    return changed(chance, text, r'"|-?[0-9]|true', lambda _: chance.choice(WORDS + NUMBERS[:8]))


def other_key(chance: Chance, text: bytes) -> bytes:
    key = chance.choice(KEYS)
    return changed(chance, text, '"[a-z_]+"|[a-z]+', lambda old: b'"%s"' % key if old.startswith(b'"') else key)


def escaped(chance: Chance, text: bytes) -> bytes:
    def inside(old: bytes) -> bytes:
        place = chance.randint(1, max(1, len(old) - 1))
        return old[:place] + chance.choice(ESCAPES) + old[place + chance.choice([0, 1]):]
    return changed(chance, text, '"', inside)


def respelt(chance: Chance, text: bytes) -> bytes:
    """A text as escapes alone: JSON and TOML read the same of it."""
    return changed(chance, text, '"', lambda old: b'"' + b"".join(b"\\u%04x" % byte for byte in old[1:-1]) + b'"')


def sign_changed(chance: Chance, text: bytes) -> bytes:
    signs = [b"", b",", b":", b"=", b"[", b"]", b"{", b"}", b"[["]
    return changed(chance, text, r"[\[\]{},:=]", lambda _: chance.choice(signs))


def spaced(chance: Chance, text: bytes) -> bytes:
    return changed(chance, text, r"[\[\]{},:=]", lambda old: chance.choice(SPACES) + old + chance.choice(SPACES))


def member_put_in(chance: Chance, text: bytes) -> bytes:
    """One more member of an object: a key that is known or not, or there already."""
    value = chance.choice([b'"x"', b"1", b"null", b"[]", b'"D-A"', b'"S1"', b'"K1"'])
    member = b'"%s": %s, ' % (chance.choice(KEYS), value)
    return changed(chance, text, r"\{", lambda old: old + member)


def deep(chance: Chance, text: bytes) -> bytes:
    many = chance.choice([20, 59, 124, 125, 126, 127, 128, 129])
    return changed(chance, text, r'"|[0-9]', lambda old: many * b"[" + old + many * b"]")


def line_moved(chance: Chance, text: bytes) -> bytes:
    """A line is left out, or stands twice, or elsewhere."""
    lines = text.split(b"\n")
    line = lines.pop(chance.randrange(len(lines)))
    for _ in range(chance.choice([0, 1, 2])):
        lines.insert(chance.randint(0, len(lines)), line)
    return b"\n".join(lines)


# ── damages of a log ──


def field_changed(chance: Chance, text: bytes) -> bytes:
    pool = [*NUMBERS[:20], *(number for number in NUMBERS if len(number) in (6, 7)), b'"1"', b'"D-A"', b'D"A',
            b' "1"', b'"1" ', b'"1"2', b'"a""b"', b'"', b'""', b'"1\n"', b'"1,"',
            *(text.encode() for text in TEXTS), *BROKEN]
    fields = re.split(rb"([,\n])", text)
    fields[chance.randrange((len(fields) + 1) // 2) * 2] = chance.choice(pool)
    return b"".join(fields)


def field_quoted(chance: Chance, text: bytes) -> bytes:
    fields = re.split(rb"([,\n])", text)
    place = chance.randrange((len(fields) + 1) // 2) * 2
    fields[place] = b'"' + fields[place] + b'"'
    return b"".join(fields)


def ends_changed(chance: Chance, text: bytes) -> bytes:
    end = chance.choice([b"\r", b"\r\n", b"\n\n", b"\n\r", b"\n \n", b",\n"])
    return text.replace(b"\n", end, chance.choice([1, -1]))


OF_BYTES = [byte_changed, byte_changed, removed, doubled, cut, put_in, put_in, put_in_front, line_moved]
OF_TREES = [other_number, other_number, other_text, other_text, other_value, other_key, other_key, escaped, respelt,
            sign_changed, spaced, member_put_in, deep]
OF_LOGS = [field_changed, field_changed, field_changed, field_quoted, ends_changed, other_number, spaced]


def damaged(chance: Chance, text: bytes, form: str) -> bytes:
    """The text with one damage to three; now and then with none."""
    damages = OF_BYTES + (OF_LOGS * 2 if form == "csv" else OF_TREES * 3)
    for _ in range(chance.choice([0, 1, 1, 1, 1, 2, 2, 3])):
        text = chance.choice(damages)(chance, text)
    return text
