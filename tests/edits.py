"""The wrong bodies of the repository: what their files say, whether they fit the code, and which of them one check can try.

A wrong body is a file crates/CRATE/wrong_bodies/NAME.edit with lines

    function: PATH    a function that must be refused, by its path below the crate; there may be several
    file: src/..      a file of the code
    old: TEXT         a text that the file has exactly once
    new: TEXT         the text in its place

A file may have several pairs of old and new, and several files. With a line `when: by hand` it is not tried in the gate: its function
calls so many others that the check of it is dear, or it would be the only one in its check.
"""
import dataclasses
import os
import re
import shutil
import tempfile

TOP = os.path.dirname(os.path.dirname(os.path.abspath(__file__)))

# The first line of a function. As `rt fmt` lays it out, the lines on which its body begins and ends have its indentation.
FUNCTION = re.compile(r"^( *)(?:pub(?:\([^)]*\))? )?fn (\w+)", re.MULTILINE)


@dataclasses.dataclass
class Edit:
    """A wrong body."""
    name: str
    functions: list
    pairs: list
    by_hand: bool = False

    def apply(self, folder):
        """Changes the files of a crate's copy. Returns what is wrong with the edit, if anything is."""
        for path, old, new in self.pairs:
            path = os.path.join(folder, path)
            with open(path, encoding="utf-8") as file:
                text = file.read()
            if text.count(old) != 1:
                return f"the text '{old}' is in {path} {text.count(old)} times"
            with open(path, "w", encoding="utf-8") as file:
                file.write(text.replace(old, new))
        return None if self.pairs and self.functions else "it names no function, or changes nothing"

    def touched(self, folder):
        """The functions that the edit names, and the places of those whose bodies it changes; none if it changes anything else."""
        found = set(self.functions)
        for path, old, _ in self.pairs:
            with open(os.path.join(folder, path), encoding="utf-8") as file:
                place, name = function_around(file.read(), old)
            if name not in [it.split("::")[-1] for it in self.functions]:
                return set()
            found.add((path, place))
        return found


def function_around(text, old):
    """The place and the name of the function in whose body a text is; or None and None."""
    heads = list(FUNCTION.finditer(text, 0, max(text.find(old), 0)))
    if not heads or text.count(old) != 1:
        return None, None
    head = heads[-1]
    above = text[head.start():text.index(old)]
    begins, ends = (re.search(rf"^{head[1]}{line}$", above, re.MULTILINE) for line in (r"(?:\S.* )?\{", r"\}"))
    return (head.start(), head[2]) if begins and not ends else (None, None)


def read_edit(path):
    """The wrong body in a file."""
    edit, file, old = Edit(os.path.basename(path).removesuffix(".edit"), [], []), "", ""
    with open(path, encoding="utf-8") as lines:
        for line in lines.read().split("\n"):
            word, _, text = line.partition(":")
            text = text.removeprefix(" ")
            if word == "function":
                edit.functions.append(text)
            elif word == "file":
                file = text
            elif word == "old":
                old = text
            elif word == "new":
                edit.pairs.append((file, old, text))
            elif word == "when" and text == "by hand":
                edit.by_hand = True
            elif line:
                raise ValueError(f"{path}: the line '{line}' has none of the words")
    return edit


def edits_of(crate):
    """The wrong bodies of a crate."""
    folder = os.path.join(TOP, "crates", crate, "wrong_bodies")
    names = sorted(os.listdir(folder)) if os.path.isdir(folder) else []
    return [read_edit(os.path.join(folder, name)) for name in names]


def groups_of(crate, by_hand=True):
    """The wrong bodies of a crate, or those of the gate, in groups, each tried in one check: no two of a group touch one function, and
    one that changes more than bodies of functions that it names is alone."""
    groups = []
    for edit in edits_of(crate):
        if edit.by_hand and not by_hand:
            continue
        touched = edit.touched(os.path.join(TOP, "crates", crate))
        for group, others in groups:
            if touched and others and not touched & others:
                group.append(edit)
                others |= touched
                break
        else:
            groups.append(([edit], touched))
    return [group for group, _ in groups]


def texts_of(folder):
    """The texts of the files below a folder."""
    for parent, _, names in os.walk(folder):
        for name in names:
            with open(os.path.join(parent, name), encoding="utf-8") as file:
                yield file.read()


def is_there(crate, function):
    """Whether the module that a function's path names is there, and the crate has a function of this name."""
    *modules, name = [part for part in function.split("::") if part[:1].islower()]
    folder = os.path.join(TOP, "crates", crate, "src")
    word = re.compile(rf"\bfn {re.escape(name)}\b")
    return os.path.isfile(os.path.join(folder, *modules) + ".rt") and any(word.search(text) for text in texts_of(folder))


def unfit():
    """For each wrong body of the repository: None, or why it cannot be tried. Nothing is proved."""
    found = []
    for crate in sorted(os.listdir(os.path.join(TOP, "crates"))):
        for edit in edits_of(crate):
            with tempfile.TemporaryDirectory() as folder:
                for path in {path for path, _, _ in edit.pairs}:
                    os.makedirs(os.path.join(folder, os.path.dirname(path)), exist_ok=True)
                    shutil.copy(os.path.join(TOP, "crates", crate, path), os.path.join(folder, path))
                why = edit.apply(folder)
            why = why or next((f"there is no function {name}" for name in edit.functions if not is_there(crate, name)), None)
            found.append(f"{crate}: {edit.name}: {why}" if why else None)
    return found
