#!/usr/bin/env python3
"""Writes the constant parts of the SQL script of a timetable from their files: schema.py

The files are crates/ssim_sql/schema/tables.sql and views.sql. Each becomes a constant of a module of crates/ssim_sql/src/constant/, byte for
byte; the lines with which the statements of a table begin have its columns from tables.sql. The gate compares both (`tests/quick --layout`).
"""
import os
import re

CRATE = os.path.join(os.path.dirname(os.path.dirname(os.path.abspath(__file__))), "crates", "ssim_sql")
TABLES = ["timetable", "leg", "segment", "station_row", "message", "sub_message", "change"]
WIDTH = 96


def text_of(name):
    """The text of a file of schema/, which has to be ASCII without control bytes but LF."""
    with open(os.path.join(CRATE, "schema", name), "rb") as file:
        data = file.read()
    if not all(byte == 10 or 32 <= byte < 127 and byte not in b'"\\' for byte in data):
        raise ValueError(f"{name} has a byte that is no plain character")
    return data.decode("ascii")


def columns_of(table):
    """The columns of a table, in order."""
    line = next(it for it in text_of("tables.sql").splitlines() if it.startswith(f"CREATE TABLE IF NOT EXISTS {table} ("))
    return re.findall(r"(?:^|, )([a-z_0-9]+) [A-Z]", line[line.index("(") + 1 :])


def literal(text):
    """A text as the literal of a constant. Its lines are divided at blanks; a line of the literal that begins with none goes on."""
    lines = []
    for line in text.splitlines():
        part = ""
        for word in re.findall(r"\S+ *", line):
            if len(part) + len(word) > WIDTH:
                lines.append(part + "\\")
                part = ""
            part += word
        lines.append(part)
    body = "\n".join(lines)
    return f'b"\\\n{body}\n"'


def path(module):
    """The file of a module."""
    return os.path.join(CRATE, "src", "constant", module + ".rt")


def constants(module):
    """The constants of a module: the name, the text and a sentence of each."""
    if module == "tables":
        return [("TABLES", text_of("tables.sql"), "Makes the tables and the indexes that are not there.")]
    if module == "views":
        return [("VIEWS", text_of("views.sql"), "Makes the views anew.")]
    return [(f"{table.upper()}_HEAD", f"INSERT INTO {table} ({', '.join(columns_of(table))}) VALUES\n",
             f"The first line of a statement with rows of `{table}`.") for table in [*TABLES, "day"]]


def source(module):
    """The whole text of a module."""
    whole = "//! Constant parts of a script. `make/schema.py` writes this file from the files of `schema/`.\n"
    for name, text, sentence in constants(module):
        whole += f"\n/// {sentence}\npub(crate) const {name}: &[u8] = {literal(text)};\n"
    return whole


MODULES = ("tables", "views", "heads")


def faults():
    """The modules that are not those of their files."""
    for module in MODULES:
        with open(path(module), encoding="ascii") as file:
            if file.read() != source(module):
                yield f"{os.path.relpath(path(module), CRATE)} is not that of its file: run make/schema.py"


def main():
    for module in MODULES:
        with open(path(module), "w", encoding="ascii") as file:
            file.write(source(module))


if __name__ == "__main__":
    main()
