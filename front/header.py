"""A table and its plan as a C header, for firmware that names tasks and signals."""
import re

from front import schedule as plans


def stem_of(name):
    """A file's name as a part of names in C."""
    return re.sub("[^A-Za-z0-9]+", "_", name).strip("_").lower() or "table"


def numbers(kind, stem, table, items):
    """The number of each name, and how many there are; bytes have no names."""
    named = [f"{kind}_{stem}_{item.name} = {number}".upper() for number, item in enumerate(items) if table.is_text]
    listed = ",\n    ".join([*named, f"{kind}s_{stem} = {len(items)}".upper()])
    return f"enum {kind}s_{stem} {{\n    {listed}\n}};"


def array(name, parts):
    """Bytes, with a line and a remark for each record."""
    lines = [f"    {', '.join(f'0x{byte:02X}' for byte in part)}, /* {said} */" for part, said in parts]
    return f"static const uint8_t {name}[{sum(len(part) for part, _ in parts)}] = {{\n" + "\n".join(lines) + "\n};"


def table_parts(table):
    return [(item.encoded(), table.said(item)) for item in table.items()] + [(b"EN", "EN")]


def plan_said(table, record, plan):
    said = plans.said(table, record)
    if record.kind == plans.END:
        return said
    return f"{said}: {record.byte(plan)}" if record.kind == plans.COUNT else f"{said}: element {record.byte(plan)}"


def plan_parts(table, plan, hyper):
    return [(record.part(plan), plan_said(table, record, plan)) for record in plans.records(table, hyper)]


def header(name, table, plan, hyper):
    stem = stem_of(name)
    guard = f"TABLE_{stem}_H".upper()
    parts = [
        f"/* Written by `press c`: the table {stem}, its plan, and the numbers of its tasks and signals. Change the table, and write this anew. */",
        f"#ifndef {guard}\n#define {guard}\n\n#include <stdint.h>",
        numbers("task", stem, table, table.tasks),
        numbers("signal", stem, table, table.signals),
        array(f"table_{stem}", table_parts(table)),
        array(f"schedule_{stem}", plan_parts(table, plan, hyper)),
        "#endif\n",
    ]
    return "\n\n".join(parts)
