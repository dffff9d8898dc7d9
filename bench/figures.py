"""The figures of the last run of each section, in figures.json: its table as it was printed or its
points, and the machine."""

import json
import pathlib

FILE = pathlib.Path(__file__).resolve().parent / "figures.json"

Rows = list[list[str]]


def read() -> dict:
    return json.loads(FILE.read_text()) if FILE.exists() else {}


def of(section: str) -> dict | list:
    """The figures of a section."""
    return read().get(section, {}).get("figures", {})


def machines(*sections: str) -> str:
    """The dates and machines of these sections."""
    found = read()
    return "; ".join(dict.fromkeys(found[section]["machine"] for section in sections))


def keep(section: str, figures: object, machine: str) -> None:
    """Replaces the figures of a section."""
    named = machine.rpartition(", load ")[0] or machine
    FILE.write_text(
        json.dumps(read() | {section: {"machine": named, "figures": figures}}, indent=1) + "\n"
    )


def cell(rows: Rows, label: str, column: str) -> float:
    """The number that begins a table's cell, found by the beginning of its row and the name of its
    column."""
    row = next(row for row in rows[1:] if row[0].startswith(label))
    return float(row[rows[0].index(column)].split()[0])
