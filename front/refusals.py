"""Document 01's refusals in words: the line of the text, or the byte, that a number and its place concern, and what is wrong there.

What is refused, and by which number, the proved programs have said. A function below is told that its rule is broken at a place and
looks there for what to say; where it finds nothing, the document's own words stand.
"""
import math

from front import schedule as plans
from front.table import Access, Signal, Task
from front.told import Refused

SAID = {
    1: "the table ends inside this record or before EN",
    2: "this mark is unknown or out of order",
    3: "one record of its kind too many",
    4: "a field is out of its range",
    5: "this access is not after the one before: by task, then signal, then RD before WR",
    6: "bytes after EN",
    7: "there is no task",
    8: "the hyper-period is above 10,000 ticks",
    9: "there are above 512 instances",
    10: "there are above 4,096 uses",
    11: "two writers of a signal publish at one tick",
    12: "the plan of one signal needs over 32 elements",
    13: "the plan needs over 256 elements in all",
    15: "the schedule ends before the end of {record}",
    16: "{record} belongs here, and other bytes are here",
    17: "{record} is {byte}, and not 1 to 32",
    18: "{record} has element {byte}, which is not below the count of {signal}",
    19: "bytes after the schedule's EN",
    20: "the counts are together above 256",
    21: "{record} has element {byte}, which does not hold the value that it is bound to",
    22: "{record} has element {byte}, in which another value is live at the same time",
    23: "there is no such task, signal or access",
    24: "the task is outside its window",
    25: "nothing is loaded",
}
AT_A_BYTE = {1, 2, 3, 4, 5, 6, 15, 16, 17, 18, 19, 21, 22}
KINDS = {Task: "task", Signal: "signal", Access: "access"}


def general(number, place):
    said = SAID.get(number, "refused")
    return f"byte {place}: {said}" if number in AT_A_BYTE else said


def where(table, item):
    """The line of a record, or the byte where it starts."""
    return f"line {item.line}" if table.is_text else f"byte {next(at for at, other in table.records() if other is item)}"


def called(table, item):
    if isinstance(item, Task):
        return table.called_task(table.tasks.index(item))
    if isinstance(item, Signal):
        return table.called_signal(table.signals.index(item))
    return table.said(item)


def record_at(table, place):
    return next((item for at, item in table.records() if at == place), None)


def no_such(table, task, signal):
    if task >= len(table.tasks):
        return f"there is no task {task}"
    if signal >= len(table.signals):
        return f"there is no signal {signal}"


def too_many(table, place):
    item = record_at(table, place)
    if item:
        most = sum(isinstance(other, type(item)) for at, other in table.records() if at < place)
        return f"{where(table, item)}: {called(table, item)} is one {KINDS[type(item)]} more than the {most} that there may be"


def bad_window(task, name):
    if not 1 <= task.period <= 10000:
        return f"the period of {name} is {task.period}, and not 1 to 10,000"
    if task.start > task.end:
        return f"the window of {name} ends ({task.end}) before it starts ({task.start})"
    if task.start == task.end:
        return f"the window of {name} ends ({task.end}) where it starts"
    return f"the window of {name} ends ({task.end}) after its period ({task.period})"


def bad_field(table, place):
    item = record_at(table, place)
    if isinstance(item, Task):
        return f"{where(table, item)}: {bad_window(item, called(table, item))}"
    if isinstance(item, Access):
        return f"{where(table, item)}: {no_such(table, item.task, item.signal)}"


def not_after(table, place):
    """The second of two like accesses; in a text, accesses stand in any order and nothing else can be wrong with it."""
    item = record_at(table, place)
    twin = next((other for at, other in table.records() if at < place and item and other[:3] == item[:3]), None)
    if twin:
        return f"{where(table, item)}: {table.said(item)} stands twice, first in {where(table, twin)}"


def hyper_of(tasks):
    return math.lcm(*(task.period for task in tasks))


def long_hyper(table, place):
    for last, task in enumerate(table.tasks, 1):
        hyper = hyper_of(table.tasks[:last])
        if hyper > 10000:
            return f"{where(table, task)}: with the period of {called(table, task)} ({task.period}) the hyper-period is {hyper} ticks, above 10,000"


def busiest(table, counts, of):
    """The task that has most of what there is too much of."""
    task = table.tasks[counts.index(max(counts))]
    return f"{where(table, task)}: {called(table, task)} has {max(counts)} of {sum(counts)} {of}"


def instances(table):
    return [hyper_of(table.tasks) // task.period for task in table.tasks]


def many_instances(table, place):
    return f"{busiest(table, instances(table), 'instances')}, and 512 is the most"


def many_uses(table, place):
    uses = [count * sum(access.task == task for access in table.accesses) for task, count in enumerate(instances(table))]
    return f"{busiest(table, uses, 'uses')}, and 4,096 is the most"


def two_publish(table, place):
    first_at = {}
    for access in table.accesses:
        if access.signal == place and access.writes:
            task = table.tasks[access.task]
            for tick in range(task.end, hyper_of(table.tasks) + 1, task.period):
                if tick in first_at:
                    both = f"{called(table, first_at[tick])} and {called(table, task)}"
                    return f"{where(table, access)}: {both} publish {called(table, table.signals[place])} at one tick, {tick}"
                first_at[tick] = task


EXPLAINED = {3: too_many, 4: bad_field, 5: not_after, 8: long_hyper, 9: many_instances, 10: many_uses, 11: two_publish}


def schedule_words(table, number, place, schedule, hyper):
    words = general(number, place)
    record = next((record for record in plans.records(table, hyper) if record.at == place), None)
    if "{" not in words or not record:
        return words
    byte = record.byte(schedule) if number > 16 else ""
    return words.format(record=plans.said(table, record), byte=byte, signal=table.called_signal(record.signal))


def of_table(table, number, place):
    explained = EXPLAINED.get(number)
    return Refused(explained and explained(table, place) or general(number, place), number, place)


def of_schedule(table, number, place, schedule, hyper, file):
    return Refused(schedule_words(table, number, place, schedule, hyper), number, place, file)


def of_call(table, number, place, verb, task, signal):
    """A read or a write of the running machine."""
    words = general(number, place)
    if number == 23:
        words = no_such(table, task, signal) or f"{table.called_task(task)} does not {verb} {table.called_signal(signal)}"
    if number == 24:
        words = f"{table.called_task(task)} is outside its window"
    return Refused(words, number, place)


def of_lives(table, number, place, signal):
    return Refused(no_such(table, 0, signal), number, place) if number == 23 else of_table(table, number, place)
