#!/usr/bin/env python3
"""Lists the clauses of all public functions, from the sources: clauses.py [page]

docs/CLAUSES.md has a row for each function, method and law that a crate lets others call, with the names of what it requires and ensures.
A clause without a name is 'one'. With `page` the file is written. Otherwise it is compared; and each name in the second column of the
tables of docs/PROVED.md has to be a name of the sources. The last line is 'N passed, M failed'.
"""
import os
import re
import sys

TOP = os.path.dirname(os.path.dirname(os.path.abspath(__file__)))
PAGE = os.path.join(TOP, "docs", "CLAUSES.md")
PROVED = os.path.join(TOP, "docs", "PROVED.md")
HEAD = """# The clauses of all public functions

`make/clauses.py page` writes this page from the sources, and `tests/quick --layout` compares it. A clause without a name is 'one'. What the
clauses say in plain words is in `PROVED.md`. Not listed are the clauses of implemented traits, which are those of the traits.
"""

ITEM = re.compile(
    r"^(?:impl(?:<[^\n]*?>)? (?:[\w:<>', ]+ for )?(?P<type>\w+)|pub trait (?P<trait>\w+)|(?P<end>\})"
    r"|(?P<indent> *)(?P<public>pub )?(?:pub\(crate\) )?(?:const )?fn (?P<name>\w+)"
    r"|\s+(?P<kind>requires|ensures) (?P<clause>\w+)?)", re.MULTILINE)


def sources(crate):
    """The texts of the sources of a crate, by path."""
    found = {}
    for folder, _, names in os.walk(os.path.join(TOP, "crates", crate, "src")):
        for name in names:
            with open(os.path.join(folder, name), encoding="utf-8") as file:
                found[os.path.relpath(os.path.join(folder, name), TOP)] = file.read()
    return found


def exported(library):
    """The names that the library's root lets others use."""
    found = set()
    for path in re.findall(r"^pub use (.*?);", library, re.MULTILINE | re.DOTALL):
        names = path.partition("{")[2].rstrip("}") if "{" in path else path
        found |= {name.strip().rpartition("::")[2] for name in names.split(",") if name.strip()}
    return found


class Calls:
    """The public functions of a source, each with what it requires and ensures."""

    def __init__(self, names, is_laws):
        self.names, self.is_laws = names, is_laws
        self.owner = self.open = None
        self.is_trait = False
        self.found = []

    def read(self, text):
        for item in ITEM.finditer(text):
            if item["type"] or item["trait"]:
                self.owner, self.is_trait, self.open = item["type"] or item["trait"], bool(item["trait"]), None
            elif item["end"]:
                self.owner = self.open = None
            elif item["name"]:
                self.open = self.begun(item)
            elif self.open:
                self.open[item["kind"]].append(item["clause"] or "one")
        return self.found

    def begun(self, item):
        """The call that begins here, if others may call it."""
        owner = self.owner if item["indent"] else None
        is_public = item["public"] or owner and self.is_trait
        if not is_public or (owner or item["name"]) not in self.names and not self.is_laws:
            return None
        name = "::".join(filter(None, [owner, "laws" if self.is_laws else None, item["name"]]))
        self.found.append({"name": name, "requires": [], "ensures": []})
        return self.found[-1]


def calls(crate):
    """The calls of a crate, in order of its files."""
    texts = sources(crate)
    library = texts.get(f"crates/{crate}/src/lib.rt", "")
    found = []
    for path, text in sorted(texts.items()):
        found += Calls(exported(library), path.endswith("/laws.rt")).read(text)
    return [call for call in found if call["requires"] or call["ensures"]]


def crates():
    """The crates, lowest first."""
    with open(os.path.join(TOP, "crates.txt"), encoding="utf-8") as file:
        return [line.partition(":")[0] for line in file if ":" in line and not line.startswith("#")]


def page():
    """The text of the page."""
    lines = [HEAD]
    for crate in crates():
        rows = calls(crate)
        if rows:
            lines += [f"## `{crate}`", "", "| Call | Requires | Ensures |", "|---|---|---|"]
            lines += [f"| `{row['name']}` | {', '.join(row['requires'])} | {', '.join(row['ensures'])} |" for row in rows]
            lines.append("")
    return "\n".join(lines)


def all_names():
    """All words of the sources and the definitions."""
    texts = []
    for crate in crates():
        texts += sources(crate).values()
        for folder, _, names in os.walk(os.path.join(TOP, "crates", crate, "specs")):
            for name in names:
                with open(os.path.join(folder, name), encoding="utf-8") as file:
                    texts += [name, file.read()]
    return set(re.findall(r"\w+", "\n".join(texts)))


def unknown_names():
    """The names in the second column of the tables of docs/PROVED.md that no source has."""
    known = all_names()
    with open(PROVED, encoding="utf-8") as file:
        lines = file.read().partition("## Clause by clause")[2].split("\n")
    for cited in (cell[1] for cell in (re.match(r"\| .* \| (.*) \|$", line) for line in lines) if cell):
        for name in re.findall(r"[A-Za-z_]\w+", " ".join(re.findall(r"`([^`]+)`", cited))):
            if name not in known:
                yield name


def faults():
    """What is not as the sources have it."""
    with open(PAGE, encoding="utf-8", newline="\n") as file:
        if file.read() != page():
            yield "docs/CLAUSES.md is not what the sources say: make/clauses.py page writes it"
    yield from (f"docs/PROVED.md names {name}, which no source has" for name in unknown_names())


def main(words):
    if words == ["page"]:
        with open(PAGE, "w", encoding="utf-8", newline="\n") as file:
            file.write(page())
        return 0
    found = list(faults())
    print(*found, sep="\n", end="\n" if found else "")
    print(f"{2 - min(2, len(found))} passed, {len(found)} failed")
    return 1 if found else 0


if __name__ == "__main__":
    sys.exit(main(sys.argv[1:]))
