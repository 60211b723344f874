#!/usr/bin/env python3
"""Writes the constants of how a page looks and what it does from their files: look.py

The files are those of crates/ssim_page/look/. Each becomes the constant of a module of crates/ssim_page/src/look/, byte for byte. The gate
compares both (`tests/quick --layout`).
"""
import os

CRATE = os.path.join(os.path.dirname(os.path.dirname(os.path.abspath(__file__))), "crates", "ssim_page")
CONSTANTS = [
    ("style", "LOOK", "page.css", "The style of the page, and a line that says that there is a script."),
    ("bar", "BAR", "page.bar", "The links of the views, and the search form."),
    ("timetable_script", "TIMETABLE_SCRIPT", "timetable.js", "The first part of the script: the rows, read, and the timetable."),
    ("view_script", "VIEW_SCRIPT", "views.js", "The second part of the script: the other views, and what leads to each view."),
]


def bytes_of(name):
    """The bytes of a file of look/, which has to be ASCII without control bytes but LF."""
    with open(os.path.join(CRATE, "look", name), "rb") as file:
        data = file.read()
    if not all(byte == 10 or 32 <= byte < 127 for byte in data):
        raise ValueError(f"{name} has a byte that is no printable ASCII")
    return data


def literal(data):
    """Bytes as the literal of a constant, with their own lines."""
    text = data.decode("ascii").replace("\\", "\\\\").replace('"', '\\"')
    return f'b"\\\n{text}"'


def path(module):
    """The file of a module."""
    return os.path.join(CRATE, "src", "look", module + ".rt")


def source(name, file, sentence):
    """The whole text of a module."""
    head = f"//! How the page looks and what it does. `make/look.py` writes this file from `look/{file}`."
    return f"{head}\n\n/// {sentence}\npub(crate) const {name}: &[u8] = {literal(bytes_of(file))};\n"


def faults():
    """The modules that are not those of their files."""
    for module, *constant in CONSTANTS:
        with open(path(module), encoding="ascii") as file:
            if file.read() != source(*constant):
                yield f"{os.path.relpath(path(module), CRATE)} is not that of its file: run make/look.py"


def main():
    for module, *constant in CONSTANTS:
        with open(path(module), "w", encoding="ascii") as file:
            file.write(source(*constant))


if __name__ == "__main__":
    main()
