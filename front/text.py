"""The text form of a table, as a fitter writes it:

    task    NAME  START-END/PERIOD         its window within its period, in ticks
    signal  NAME  DEFAULT                  a word of 32 bits: 7, -5 or 0xFF
    NAME    reads   SIGNAL SIGNAL ..       `*` stands for all signals
    NAME    writes  SIGNAL ..

One line for each thing, in any order; what stands after `#` is a remark. Tasks and signals are numbered from 0 as they come.
A text that cannot be turned into bytes is refused with its line. Whether the table keeps the rules is not judged here.
"""
import re

from front.table import Access, Signal, Table, Task
from front.told import Refused, shown

UTF_16 = (b"\xff\xfe", b"\xfe\xff")
WIDE = 2**32
MOST_NAMED = 256
NAME = re.compile(r"[A-Za-z][A-Za-z0-9_]{0,39}")
WINDOW = re.compile(r"([0-9]+)-([0-9]+)/([0-9]+)")
WORD = re.compile(r"([+-]?)([0-9]+)|0[xX]([0-9A-Fa-f]+)")
TASK, SIGNAL, READS, WRITES, ALL = "task", "signal", "reads", "writes", "*"


def value(digits, base=10):
    """What digits stand for; of more than any field holds it is not worked out."""
    digits = digits.lstrip("0") or "0"
    return int(digits, base) if len(digits) <= 10 else WIDE


def ticks(digits):
    if value(digits) >= WIDE:
        raise Refused(f"{shown(digits)} is above {WIDE - 1}")
    return value(digits)


def word(text):
    """A word of 32 bits; below 0 by two's complement."""
    parts = WORD.fullmatch(text)
    if not parts:
        raise Refused(f"{shown(text)} is no word of 32 bits such as 7, -5 or 0xFF")
    sign, decimal, digits = parts.groups()
    number = value(digits, 16) if digits else value(decimal) * (-1 if sign == "-" else 1)
    if not -WIDE // 2 <= number < WIDE:
        raise Refused(f"{shown(text)} does not fit 32 bits: {-WIDE // 2} to {WIDE - 1}")
    return number % WIDE


def window(text):
    parts = WINDOW.fullmatch(text)
    if not parts:
        raise Refused(f"{shown(text)} is no window START-END/PERIOD in ticks")
    start, end, period = map(ticks, parts.groups())
    return period, start, end


def fields(words, form):
    """The name and the one field of a task or a signal."""
    if len(words) > 3:
        raise Refused(f"{shown(words[3])} is too much: {form}")
    if len(words) < 3:
        raise Refused(f"a field is missing: {form}")
    return words[1], words[2]


def other_case(items, name):
    return next((item for item in items if item.name.lower() == name.lower()), None)


def new_name(items, name, kind):
    """Firmware has the names in capitals, so two may not differ in case alone."""
    if not NAME.fullmatch(name) or name in (TASK, SIGNAL):
        raise Refused(f"{shown(name)} is no name: up to 40 letters, digits and _, a letter first, not {TASK} or {SIGNAL}")
    first = other_case(items, name)
    if first:
        raise Refused(f"a second {kind} {shown(name)}: line {first.line} has {shown(first.name)}")
    if len(items) == MOST_NAMED:
        raise Refused(f"more than {MOST_NAMED} of a kind: their numbers have one byte")
    return name


def found(items, name, kind):
    for number, item in enumerate(items):
        if item.name == name:
            return number
    like = other_case(items, name)
    raise Refused(f"no {kind} {shown(name)}" + (f", but {shown(like.name)} in line {like.line}" if like else ""))


class Draft:
    """What is read of a text so far. Accesses are looked up at its end, so that they may stand anywhere."""

    def __init__(self):
        self.tasks, self.signals, self.accesses = [], [], []

    def take(self, line, words):
        if words[0] == TASK:
            name, text = fields(words, "task NAME START-END/PERIOD, in ticks")
            self.tasks.append(Task(new_name(self.tasks, name, TASK), line, *window(text)))
        elif words[0] == SIGNAL:
            name, text = fields(words, "signal NAME DEFAULT")
            self.signals.append(Signal(new_name(self.signals, name, SIGNAL), line, word(text)))
        elif words[1:2] in ([READS], [WRITES]):
            if len(words) == 2:
                raise Refused(f"a field is missing: NAME {words[1]} SIGNAL ..")
            self.accesses.append((line, words))
        else:
            raise Refused(strange(words))

    def used(self, words):
        """The numbers of the signals that an access line names."""
        if words[2:] == [ALL]:
            return range(len(self.signals))
        return [found(self.signals, name, SIGNAL) for name in words[2:]]

    def looked_up(self, line, words):
        task = found(self.tasks, words[0], TASK)
        return [Access(task, signal, words[1] == WRITES, line) for signal in self.used(words)]

    def table(self):
        accesses = [access for line, words in self.accesses for access in placed(line, self.looked_up, line, words)]
        return Table(self.tasks, self.signals, sorted(accesses, key=lambda access: access[:3]))


def strange(words):
    for given, right in [(words[0], (TASK, SIGNAL)), *((verb, (READS, WRITES)) for verb in words[1:2])]:
        if given.lower() in right:
            return f"{shown(given)} is written {given.lower()}"
    return f"{shown(words[0])} begins neither a task, a signal nor an access (NAME reads SIGNAL, NAME writes SIGNAL)"


def placed(line, work, *given):
    """What this line gives; a refusal names the line."""
    try:
        return work(*given)
    except Refused as refused:
        raise Refused(f"line {line}: {refused}") from None


def words_in(line):
    try:
        text = line.decode()
    except UnicodeDecodeError as wrong:
        raise Refused(f"byte {line[wrong.start]:02X} is no UTF-8 text") from None
    return text.partition("#")[0].split()


def is_text(data):
    """A text has no byte 0, unless it is UTF-16, and every table with a task has one."""
    return data[:2] in UTF_16 or not (b"\0" in data or data == b"EN")


def from_text(data):
    if data[:2] in UTF_16:
        raise Refused("line 1: this is UTF-16 text; it must be UTF-8")
    draft = Draft()
    for line, text in enumerate(data.removeprefix(b"\xef\xbb\xbf").split(b"\n"), 1):
        words = placed(line, words_in, text)
        if words:
            placed(line, draft.take, line, words)
    return draft.table()
