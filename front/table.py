"""A timing table: its tasks, signals and accesses, its bytes, and where each record stands in them."""
import re
from typing import NamedTuple, Optional

from front.told import Misuse, shown

WIDTH = 4


class Task(NamedTuple):
    name: str
    line: Optional[int]
    period: int
    start: int
    end: int

    def encoded(self):
        return b"TK" + b"".join(part.to_bytes(WIDTH, "big") for part in (self.period, self.start, self.end))


class Signal(NamedTuple):
    name: str
    line: Optional[int]
    default: int

    def encoded(self):
        return b"SG" + self.default.to_bytes(WIDTH, "big")


class Access(NamedTuple):
    task: int
    signal: int
    writes: bool
    line: Optional[int]

    def encoded(self):
        return (b"WR" if self.writes else b"RD") + bytes([self.task, self.signal])


class Table:
    """Tasks, signals and accesses in the order of the bytes. A table that is bytes has numbers for names, and no lines."""

    # Whether tasks and signals are to be shown by their numbers.
    by_number = False

    def __init__(self, tasks, signals, accesses, data=None):
        self.tasks, self.signals, self.accesses = tasks, signals, accesses
        self.data = data if data is not None else b"".join(item.encoded() for item in self.items()) + b"EN"
        self.is_text = data is None

    def items(self):
        return self.tasks + self.signals + self.accesses

    def records(self):
        """Each record with its place in the bytes."""
        at = 0
        for item in self.items():
            yield at, item
            at += len(item.encoded())

    def task(self, number):
        return self.shown(self.tasks, number)

    def signal(self, number):
        return self.shown(self.signals, number)

    def shown(self, items, number):
        return str(number) if self.by_number else items[number].name

    def writers(self, signal):
        return [access.task for access in self.accesses if access.signal == signal and access.writes]

    def readers(self, signal):
        return [access.task for access in self.accesses if access.signal == signal and not access.writes]

    def called_task(self, number):
        """In a sentence, where a bare number would not tell what it is."""
        return f"task {number}" if self.by_number or not self.is_text else self.task(number)

    def called_signal(self, number):
        return f"signal {number}" if self.by_number or not self.is_text else self.signal(number)

    def said(self, item):
        """A record in the words of the text form."""
        if isinstance(item, Task):
            return f"task {self.task(self.tasks.index(item))} {item.start}-{item.end}/{item.period}"
        if isinstance(item, Signal):
            return f"signal {self.signal(self.signals.index(item))} {item.default}"
        return f"{self.called_task(item.task)} {'writes' if item.writes else 'reads'} {self.called_signal(item.signal)}"

    def task_number(self, word):
        return number_of(self.tasks, word, "task")

    def signal_number(self, word):
        return number_of(self.signals, word, "signal")


def number_of(items, word, kind):
    """What a name, or a number, stands for. A number may be any: the proved programs say whether there is such a one."""
    for number, item in enumerate(items):
        if item.name == word:
            return number
    if re.fullmatch("[0-9]{1,19}", word):
        return int(word)
    raise Misuse(f"no {kind} {shown(word)}; there are: {' '.join(item.name for item in items) or 'none'}")


def record_at(data, at, tasks, signals):
    """The whole record that stands here, after so many tasks and signals; None where there is none."""
    mark, fields = data[at : at + 2], data[at + 2 : at + 2 + 3 * WIDTH]
    if mark == b"TK" and len(fields) >= 3 * WIDTH:
        return Task(str(tasks), None, *(int.from_bytes(fields[k : k + WIDTH], "big") for k in (0, WIDTH, 2 * WIDTH)))
    if mark == b"SG" and len(fields) >= WIDTH:
        return Signal(str(signals), None, int.from_bytes(fields[:WIDTH], "big"))
    if mark in (b"RD", b"WR") and len(fields) >= 2:
        return Access(fields[0], fields[1], mark == b"WR", None)
    return None


def from_bytes(data):
    """As many whole records as the bytes begin with, for names and words; what is wrong with the others the proved programs say."""
    kept = {Task: [], Signal: [], Access: []}
    at = 0
    while True:
        item = record_at(data, at, len(kept[Task]), len(kept[Signal]))
        if item is None:
            return Table(*kept.values(), data)
        kept[type(item)].append(item)
        at += len(item.encoded())
