"""The console with a table kept: its answers as values, its refusals raised in words."""
from front import refusals
from front.picture import Value
from front.programs import Console
from front.schedule import READ, records
from front.told import Refused

# A line of the console has room for this, and no longer table or schedule could be accepted: what stands beyond decides nothing.
MOST_BYTES = 65000
TOO_SHORT = 14


def hexed(data):
    return data[:MOST_BYTES].hex() or "-"


class Bench(Console):
    def __init__(self, table):
        super().__init__()
        self.table = table
        number, place, self.hyper = self.numbers(f"table {hexed(table.data)}")
        if number:
            raise refusals.of_table(table, number, place)

    def numbers(self, line):
        return [int(part) for part in self.ask(line).split()]

    def room(self, line, refused):
        """How much to lend: the console is asked with no room at all first."""
        number, place = [int(part) for part in self.ask(f"{line} 0").split()[:2]]
        if number != TOO_SHORT:
            raise refused(self.table, number, place)
        return place

    def plan(self):
        room = self.room("plan", refusals.of_table)
        return bytes.fromhex(self.ask(f"plan {room}").split()[2])

    def lives(self, signal):
        room = self.room(f"live {signal}", lambda *told: refusals.of_lives(*told, signal))
        return [Value(*map(int, part.split("."))) for part in self.ask(f"live {signal} {room}").split()[2:]]

    def reads(self, signal):
        """Task, instance and planned element of each run that reads a signal."""
        made = self.plan()
        return [(record.task, record.instance, record.byte(made)) for record in records(self.table, self.hyper) if (record.kind, record.signal) == (READ, signal)]

    def take(self, verb, made, file=None):
        """A schedule checked or loaded."""
        number, place = self.numbers(f"{verb} {hexed(made)}")
        if number:
            raise refusals.of_schedule(self.table, number, place, made, self.hyper, file)

    def step(self, many):
        number, place = self.numbers(f"step {many}")
        if number:
            raise Refused(refusals.general(number, place), number, place)

    def call(self, verb, task, signal, *word):
        """A read or a write of the loaded machine; gives back what is read."""
        task, signal = self.table.task_number(task), self.table.signal_number(signal)
        number, place, *read = self.numbers(" ".join(map(str, [verb, task, signal, *word])))
        if number:
            raise refusals.of_call(self.table, number, place, verb, task, signal)
        return read
