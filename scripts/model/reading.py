"""What a text, an object or a table is read as: the numbers of its faults, of which the least counts."""
import typing

MOST_BYTES = 8_388_608
T = typing.TypeVar("T")
Reader = typing.Callable[[typing.Any], typing.Optional[T]]


class Fault(Exception):
    """The fault of a text: its number, and the entry that has it, 0 for the whole text."""

    def __init__(self, number: int, entry: int = 0) -> None:
        super().__init__(number, entry)
        self.number, self.entry = number, entry

    def line(self) -> str:
        return f"fault {self.number} entry {self.entry}\n"


class Form:
    """An object that is read by the keys of a form. It gathers the faults; what can't be read is None."""

    def __init__(self, members: typing.Dict[str, typing.Any], *others: str) -> None:
        self.members, self.known = members, set(others)
        self.faults: typing.List[int] = []

    def optional(self, key: str, read: Reader[T]) -> typing.Optional[T]:
        self.known.add(key)
        if key not in self.members:
            return None
        value = read(self.members[key])
        if value is None:
            self.faults.append(63)
        return value

    def needed(self, key: str, read: Reader[T]) -> T:
        """The value where there is no fault: it is not looked at otherwise."""
        if key not in self.members:
            self.faults.append(62)
        return self.optional(key, read)  # type: ignore

    def listed(self, key: str, read: typing.Callable[["Form"], T]) -> typing.List[T]:
        """A list of objects at a key, each of which has a form; their faults are this object's."""
        found = []
        for value in self.needed(key, lambda value: value if isinstance(value, list) else None) or []:
            if not isinstance(value, dict):
                self.faults.append(63)
                continue
            inner = Form(value)
            found.append(read(inner))
            self.faults += inner.all_faults()
        return found

    def all_faults(self) -> typing.List[int]:
        return self.faults + [64 for key in self.members if key not in self.known]


def text_of(raw: bytes) -> str:
    """The text of an input."""
    if len(raw) > MOST_BYTES:
        raise Fault(67)
    try:
        return raw.decode("utf-8")
    except UnicodeDecodeError:
        raise Fault(61) from None


def text_by(read: typing.Callable[[str], typing.Optional[T]]) -> Reader[T]:
    """A value that is a text, read so."""
    return lambda value: read(value) if isinstance(value, str) and type(value) is str else None
