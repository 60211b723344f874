#!/usr/bin/env python3
"""Installs a program by ./install, and as a Debian package, each into an empty folder: install.py PROGRAM

After it the program runs by its name, and its manual page and completions are there. The package is removed again, and leaves no file.
Without dpkg the package is not tried. The last line is 'N passed, M failed'.
"""
import os
import shutil
import subprocess
import sys
import tempfile

TOP = os.path.dirname(os.path.dirname(os.path.abspath(__file__)))

INSTALLED = [
    "bin/ssimdesk",
    "share/bash-completion/completions/ssimdesk",
    "share/fish/vendor_completions.d/ssimdesk.fish",
    "share/man/man1/ssimdesk.1",
    "share/zsh/site-functions/_ssimdesk",
]


def files_below(folder):
    """The names of the files below a folder."""
    return sorted(os.path.relpath(os.path.join(place, name), folder) for place, _, names in os.walk(folder) for name in names)


def install(program, *words):
    """Runs ./install."""
    subprocess.run([os.path.join(TOP, "install"), "--program", program, *words], stdout=subprocess.DEVNULL, timeout=120, check=True)


def version_by_name(prefix):
    """What the program prints that the shell finds by its name below a prefix."""
    return subprocess.run(["sh", "-c", "ssimdesk --version"], env={"PATH": f"{prefix}/bin"}, stdout=subprocess.PIPE,
                          text=True, timeout=60, check=False, executable="/bin/sh").stdout


def dpkg(root, *words):
    """Runs dpkg on the packages of a root folder, whatever this machine has."""
    subprocess.run(["dpkg", f"--root={root}", "--force-depends", "--force-not-root", "--force-bad-path", *words],
                   capture_output=True, timeout=120, check=True)


def faults(program, folder):
    """What is wrong; None for what is right."""
    prefix = os.path.join(folder, "prefix")
    install(program, "--prefix", prefix)
    yield None if files_below(prefix) == INSTALLED else f"install made {files_below(prefix)}"
    yield None if version_by_name(prefix).startswith("ssimdesk ") else "the installed program is not found by its name"
    if not shutil.which("dpkg-deb"):
        print("the package is not tried: dpkg is not installed")
        return
    package, root = os.path.join(folder, "ssimdesk.deb"), os.path.join(folder, "root")
    install(program, "--deb", package)
    os.makedirs(os.path.join(root, "var/lib/dpkg/updates"))
    os.makedirs(os.path.join(root, "var/lib/dpkg/info"))
    open(os.path.join(root, "var/lib/dpkg/status"), "w", encoding="utf-8").close()
    dpkg(root, "--install", package)
    yield None if files_below(f"{root}/usr") == INSTALLED else f"the package has {files_below(f'{root}/usr')}"
    yield None if version_by_name(f"{root}/usr").startswith("ssimdesk ") else "the program of the package does not run"
    dpkg(root, "--purge", "ssimdesk")
    yield None if not files_below(f"{root}/usr") else f"the removed package left {files_below(f'{root}/usr')}"


def main():
    program = os.path.abspath(sys.argv[1])
    with tempfile.TemporaryDirectory() as folder:
        found = list(faults(program, folder))
    wrong = [fault for fault in found if fault]
    print(*wrong, sep="\n", end="\n" if wrong else "")
    print(f"{len(found) - len(wrong)} passed, {len(wrong)} failed")
    return 1 if wrong else 0


if __name__ == "__main__":
    sys.exit(main())
