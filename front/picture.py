"""The live list of a signal as a picture: above, the windows of the tasks that write and read it; below, a row for each element and a bar for each value.

A window has the colour of the value that the run writes or reads. A dotted line leads from a bar's end up to the closing that ends it.
"""
import html
from typing import NamedTuple

CARRIED = 255
TOP, ROW, HIGH, BETWEEN = 36, 28, 20, 14
LETTER, SIZE, MARGIN = 7, 12, 12
# A picture is as wide as its busiest row asks for, within bounds; numbers of the scale stand this far apart.
NARROW, BROAD, EACH, APART = 720, 2400, 26, 44
GREY, SHADES = "#e4e4e4", ["#cfe3f7", "#fbd9b5", "#d8efd3", "#f4d0e2", "#fff0b3", "#ddd2f3", "#c9eeee", "#f3cfc9"]
GRID, DOTTED = 'stroke="#eeeeee"', 'stroke="#666666" stroke-dasharray="2 3"'


class Value(NamedTuple):
    """A record of a live list."""

    task: int
    instance: int
    start: int
    until: int
    element: int

    def name(self, table):
        return "carried" if self.task == CARRIED and not table.by_number else f"{table.task(self.task)} {self.instance}"


class Run(NamedTuple):
    """A run of a task in its row: its window, and the value that it writes or reads."""

    row: str
    instance: int
    opens: int
    closes: int
    value: Value


def window(table, task, instance):
    period, start, end = table.tasks[task].period, table.tasks[task].start, table.tasks[task].end
    return instance * period + start, instance * period + end


def writing(table, values):
    for value in values:
        if value.task != CARRIED:
            yield Run(f"{table.called_task(value.task)} writes", value.instance, *window(table, value.task, value.instance), value)


def reading(table, values, reads):
    """A run reads the one value that is live in its element when it opens."""
    for task, instance, element in reads:
        opens, closes = window(table, task, instance)
        value = next(value for value in values if value.element == element and value.start <= opens < value.until)
        yield Run(f"{table.called_task(task)} reads", instance, opens, closes, value)


def ended_by(value, writes, reads):
    """The run whose closing ends a value: one that reads it, else the one that publishes the next."""
    readers = [run for run in reads if run.value is value and run.closes == value.until]
    return next(iter(readers + [run for run in writes if run.closes == value.until]), None)


def step_of(hyper, wide):
    steps = [unit * 10**zeros for zeros in range(5) for unit in (1, 2, 5)]
    return next(step for step in steps if step * wide / hyper >= APART)


def fitting(words, wide):
    return next((word for word in words if len(word) * LETTER <= wide - 2), "")


class Sheet:
    """Parts of the picture, and where a tick and a row are."""

    def __init__(self, hyper, windows, elements, busiest):
        self.hyper, self.parts = hyper, []
        self.left = max(map(len, windows + elements)) * LETTER + 2 * MARGIN
        self.wide = max(NARROW, min(BROAD, busiest * EACH))
        self.top = {row: TOP + ROW * k for k, row in enumerate(windows)}
        self.top.update((row, TOP + ROW * (len(windows) + k) + BETWEEN) for k, row in enumerate(elements))
        self.low = max(self.top.values()) + ROW

    def x(self, tick):
        return self.left + tick * self.wide / self.hyper

    def text(self, x, y, words, anchor="start"):
        self.parts.append(f'<text x="{x:.1f}" y="{y:.1f}" text-anchor="{anchor}">{html.escape(words)}</text>')

    def line(self, x, top, low, look):
        self.parts.append(f'<line x1="{x:.1f}" y1="{top:.1f}" x2="{x:.1f}" y2="{low:.1f}" {look}/>')

    def box(self, x, y, wide, shade, words):
        self.parts.append(f'<rect x="{x:.1f}" y="{y:.1f}" width="{max(wide, 1):.1f}" height="{HIGH}" rx="3" fill="{shade}" stroke="#555555"/>')
        if fitting(words, wide):
            self.text(x + wide / 2, y + HIGH - 6, fitting(words, wide), "middle")

    def bar(self, row, start, end, shade, words):
        self.box(self.x(start), self.top[row], (end - start) * self.wide / self.hyper, shade, words)

    def scale(self):
        for tick in range(0, self.hyper + 1, step_of(self.hyper, self.wide)):
            self.line(self.x(tick), TOP - 4, self.low, GRID)
            self.text(self.x(tick), self.low + SIZE + 2, str(tick), "middle")
        self.text(self.left - MARGIN, self.low + SIZE + 2, "tick", "end")

    def labels(self):
        for row, top in self.top.items():
            self.text(self.left - MARGIN, top + HIGH - 6, row, "end")

    def whole(self, high):
        wide = self.left + self.wide + 2 * MARGIN
        head = f'<svg xmlns="http://www.w3.org/2000/svg" viewBox="0 0 {wide} {high}" font-family="sans-serif" font-size="{SIZE}">'
        return "\n".join([head, f'<rect width="{wide}" height="{high}" fill="white"/>', *self.parts, "</svg>", ""])


def legend(sheet, values, table, shades):
    """What a bar, its colour and a dotted line stand for, under the scale."""
    rows = [(GREY, values[0].name(table), "the value that stands at tick 0, from the hyper-period before")]
    for first in values[1:2]:
        words = f"the value of run {first.instance} of {table.called_task(first.task)}, live from the run's opening; a narrow bar shows {first.instance} alone, or nothing"
        rows.append((shades[first], first.name(table), words))
    sample = max(len(name) for _, name, _ in rows) * LETTER + MARGIN
    left, top = sheet.left + sample + MARGIN, sheet.low + 2 * SIZE + BETWEEN
    for shade, name, words in rows:
        sheet.box(sheet.left, top, sample, shade, [name])
        sheet.text(left, top + HIGH - 6, words)
        top += ROW
    sheet.line(sheet.left + sample / 2, top, top + HIGH, DOTTED)
    sheet.text(left, top + HIGH - 6, "a bar ends where the last run that reads it closes, or where another value is published")
    sheet.text(left, top + ROW + HIGH - 6, "above: the window of each run, in the colour of the value that it writes or reads")
    return top + 2 * ROW


def picture(title, table, hyper, values, reads):
    """`values` as the live list has them, `reads` as (task, instance, element)."""
    later = [value for value in values if value.task != CARRIED]
    shades = {value: SHADES[k % len(SHADES)] for k, value in enumerate(later)}
    writes, reads = list(writing(table, values)), list(reading(table, values, reads))
    windows = list(dict.fromkeys(run.row for run in writes + reads))
    elements = [f"element {k}" for k in range(1 + max(value.element for value in values))]
    busiest = max([len(values)] + [sum(run.row == row for run in reads) for row in windows])
    sheet = Sheet(hyper, windows, elements, busiest)
    sheet.text(MARGIN, TOP - 16, title)
    sheet.scale()
    sheet.labels()
    for value in values:
        run = ended_by(value, writes, reads)
        if run:
            sheet.line(sheet.x(value.until), sheet.top[run.row] + HIGH, sheet.top[f"element {value.element}"], DOTTED)
    for run in writes + reads:
        sheet.bar(run.row, run.opens, run.closes, shades.get(run.value, GREY), [str(run.instance)])
    for value in values:
        short = [] if value.task == CARRIED else [str(value.instance)]
        sheet.bar(f"element {value.element}", value.start, value.until, shades.get(value, GREY), [value.name(table), *short])
    return sheet.whole(legend(sheet, values, table, shades))
