"""The records that a table fixes in every schedule: what stands at which byte, for words and pictures."""
from typing import NamedTuple

COUNT, WRITE, READ, END = "count", "write", "read", "end"
SIZES = {COUNT: 4, WRITE: 7, READ: 7, END: 2}


class Record(NamedTuple):
    at: int
    kind: str
    signal: int = 0
    task: int = 0
    instance: int = 0

    def byte(self, schedule):
        """The count or the element, which the table does not fix."""
        return schedule[self.at + SIZES[self.kind] - 1]

    def part(self, schedule):
        return schedule[self.at : self.at + SIZES[self.kind]]


def kinds(table, hyper):
    for signal in range(len(table.signals)):
        yield COUNT, signal
        for kind, tasks in ((WRITE, table.writers(signal)), (READ, table.readers(signal))):
            for task in tasks:
                for instance in range(hyper // table.tasks[task].period):
                    yield kind, signal, task, instance
    yield (END,)


def records(table, hyper):
    at = 0
    for fields in kinds(table, hyper):
        yield Record(at, *fields)
        at += SIZES[fields[0]]


def said(table, record):
    """A record in the listing's words."""
    if record.kind == END:
        return "EN"
    if record.kind == COUNT:
        return f"the count of {table.called_signal(record.signal)}"
    return f"{record.kind} {table.task(record.task)} {record.instance} of {table.called_signal(record.signal)}"
