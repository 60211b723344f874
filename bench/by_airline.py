#!/usr/bin/env python3
"""Divides a file of many airlines, and lets a desk of each take its texts: by_airline.py PROGRAM [FOLDER] [AIRLINES] [RECORDS] [TEXTS]

The file has AIRLINES (64) carriers of RECORDS (14,063) records each (sections.py). `split` divides it. For each airline a desk is started, and
TEXTS (200) texts are received in two mailboxes, the later texts first: one airline after another, and then four at a time by GNU parallel, or
by `xargs -P 4` where it is not installed. Each desk has to be the one that took all of its texts in their order. Printed are the seconds; the
last line is 'N passed, M failed'.
"""
import os
import shutil
import subprocess
import sys
import time

from measure import arguments
from sections import write_parts
from texts import texts_for, write_mailbox

AT_ONCE = 4
LINE = ("ssimdesk start new/{0}.ssim none {1}/{0}.desk && ssimdesk receive {1}/{0}.desk {1}/{0}.desk mail/{0}.2 && "
        "ssimdesk receive {1}/{0}.desk {1}/{0}.desk mail/{0}.1")


def typed(line, folder, path):
    """The seconds that a command line takes."""
    began = time.monotonic()
    subprocess.run(["bash", "-c", line], cwd=folder, env={**os.environ, "PATH": path}, stdout=subprocess.DEVNULL, check=True)
    return time.monotonic() - began


def write_texts(folder, airlines, count):
    """The mailboxes of each airline: one of all texts, and two of the earlier and the later half."""
    os.makedirs(os.path.join(folder, "mail"))
    for airline in airlines:
        texts = list(texts_for(os.path.join(folder, "new", f"{airline}.ssim"), count)[0].values())
        half = len(texts) // 2
        for name, some in (("all", texts), ("1", texts[:half]), ("2", texts[half:])):
            write_mailbox(os.path.join(folder, "mail", f"{airline}.{name}"), some)


def main():
    (program,), folder, words = arguments(__doc__, 1)
    carriers, records, count = (int(word) for word in (words + ["64", "14063", "200"][len(words) :])[:3])
    write_parts(folder, carriers, records)
    for name in "new", "in_turn", "at_once", "programs":
        os.makedirs(os.path.join(folder, name))
    os.symlink(os.path.abspath(program), os.path.join(folder, "programs", "ssimdesk"))
    path = os.pathsep.join([os.path.join(folder, "programs"), os.environ["PATH"]])
    print(f"split: {typed('ssimdesk split world new/', folder, path):.2f} s")
    airlines = sorted(os.path.splitext(name)[0] for name in os.listdir(os.path.join(folder, "new")))
    write_texts(folder, airlines, count)
    with open(os.path.join(folder, "airlines"), "w", encoding="ascii") as file:
        file.write("".join(f"{airline}\n" for airline in airlines))
    in_turn = typed("\n".join(LINE.format(airline, "in_turn") for airline in airlines), folder, path)
    line = LINE.format("{}", "at_once")
    tool = f"parallel -j {AT_ONCE}" if shutil.which("parallel") else f"xargs -P {AT_ONCE} -I{{}} bash -c"
    at_once = typed(f"{tool} '{line}' < airlines", folder, path)
    print(f"one after another: {in_turn:.2f} s\n{AT_ONCE} at a time by {tool.split()[0]}: {at_once:.2f} s")
    failed = 0
    for airline in airlines:
        typed(f"ssimdesk start new/{airline}.ssim none all.desk && ssimdesk receive all.desk all.desk mail/{airline}.all", folder, path)
        desks = []
        for name in "all.desk", f"in_turn/{airline}.desk", f"at_once/{airline}.desk":
            with open(os.path.join(folder, name), "rb") as file:
                desks.append(file.read())
        if len(set(desks)) != 1 or desks[0].count(b"\nTEXT ") != count:
            failed += 1
            print(f"{airline}: other desks")
    print(f"{len(airlines) - failed} passed, {failed} failed")
    sys.exit(failed > 0)


if __name__ == "__main__":
    main()
