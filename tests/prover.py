#!/usr/bin/env python3
"""Checks one crate over libraries that are proved: prover.py TOP CRATE [WORD..]

`rt ci` leaves the libraries that it proves in crates/*/out/rlib of the clone that it runs in. `rt check` in another clone or worktree
proves them all again; this takes those of the clone TOP, and so checks a change of one crate in a minute. The words are those of
`rattle check`: `--only FUNCTION` (several), `--jobs N`, `--allow-holes`. What is proved is kept in crates/CRATE/out/over, for the next
check. It is not the gate: the verdict is that of `rt ci`.
"""
import os
import subprocess
import sys

from edits import TOP


class Prover:
    """The crates of the repository, and the command that checks one of them."""

    def __init__(self):
        page = subprocess.run(["rt", "doc"], stdout=subprocess.PIPE, text=True, check=True).stdout.strip()
        self.kit = os.path.dirname(page)
        self.uses = {}
        with open(os.path.join(TOP, "crates.txt"), encoding="utf-8") as file:
            for line in file:
                name, found, words = line.partition("#")[0].partition(":")
                if found:
                    self.uses[name.split()[0]] = words.split()

    def below(self, crate):
        """The crates of the repository that a crate uses, and those that these use."""
        found = {}
        for name in self.uses[crate]:
            if name in self.uses:
                found.update({name: None, **dict.fromkeys(self.below(name))})
        return list(found)

    def command(self, crate, top=TOP, root="src/lib.rt"):
        """The words of a check of a crate over the libraries of the clone `top`, to run in the crate's folder."""
        rlib = {name: f"{top}/crates/{name}/out/rlib" for name in self.below(crate)}
        words = [f"{self.kit}/bin/rattle", "check", "--crate-name", crate, root]
        for name in ["std", *self.uses[crate]]:
            words += ["--extern", f"{name}={rlib[name] if name in rlib else self.kit + '/rlibs'}/{name}.rlib"]
        for place in [f"{self.kit}/rlibs", *rlib.values()]:
            words += ["-L", f"dependency={place}"]
        words += ["--antt-project", f"{self.kit}/rattle/logic/antt-project.json", "--logic-built", f"{self.kit}/logic_built"]
        return words


def main(top, crate, *words):
    folder = os.path.join(TOP, "crates", crate)
    root = next(it for it in ("src/lib.rt", "src/main.rt") if os.path.isfile(os.path.join(folder, it)))
    kept = os.path.join(folder, "out", "over")
    os.makedirs(kept, exist_ok=True)
    command = [*Prover().command(crate, os.path.abspath(top), root), "--incremental", kept, *words]
    return subprocess.run(command, cwd=folder, check=False).returncode


if __name__ == "__main__":
    sys.exit(main(*sys.argv[1:]) if len(sys.argv) > 2 else f"usage: {sys.argv[0]} TOP CRATE [WORD..]")
