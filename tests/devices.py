#!/usr/bin/env python3
"""Runs the built program on devices and files that fail: devices.py PROGRAM

First on what a system has: full devices, closed descriptors, pipes without a reader, folders, missing files, files without
permission, FIFOs, files over the limit, names that are no UTF-8 or have a line end, very many words, places where no file
can be made. Then each call that a run makes to the system fails in turn, and each from one on; or is interrupted; or moves
one byte; or the program is killed at it. Compared are the status, both outputs and all files. No run ends by a signal but
those that are killed. The last line is 'N passed, M failed'.
"""
import contextlib
import errno
import fcntl
import os
import resource
import shutil
import subprocess
import sys
import tempfile
import threading

from small_runs import COMMANDS, NEVER, Runs, built_library

LIMIT = 268_435_456
WRITE_FAULT = b"refused 52 WriteFault\n"
NOBODY = 65534
KILLED = -1
# What the commands that receive print if neither file can be read.
UNREAD = {"receive": b"refused 91 File mail\nrefused 91 File missing\ntaken 0 repeated 0 refused 2\n",
          "receive --csv": b"file,line,result,reference,number,name,place\nmail,,refused,,91,File,\nmissing,,refused,,91,File,\n"}


def file_fault(name):
    return b"refused 91 File " + name.encode() + b"\n"


class Devices:
    """Counts the runs that gave what they had to give."""

    def __init__(self, program, library):
        self.runs = Runs(program, library)
        self.folder, self.start = self.runs.folder, self.runs.start
        self.passed = self.failed = 0
        self.whole = {}
        for name, words, _ in COMMANDS:
            self.whole[name] = self.runs.run(words)
            self.runs.put_back(self.whole[name].files)

    def path(self, name):
        return os.path.join(self.folder, name)

    def count(self, name, wrong, *details):
        if not wrong:
            self.passed += 1
            return
        self.failed += 1
        print(f"devices: {name}: {wrong}", *(repr(detail)[:300] for detail in details))

    def run(self, words, **options):
        options = {"stdin": subprocess.DEVNULL, "stdout": subprocess.PIPE, "stderr": subprocess.PIPE, **options}
        return subprocess.run([self.runs.program, *words], cwd=self.folder, timeout=100, check=False, **options)

    def expect(self, name, words, status, out, err, changed=None, **options):
        """Runs the program and compares. `out` and `err` are what is printed, and `changed` the files that are written."""
        done = self.run(words, **options)
        files = self.regular_files()
        wrong = []
        if done.returncode != status:
            wrong.append(f"status {done.returncode}, expected {status}")
        if done.stdout is not None and done.stdout != out:
            wrong.append("other bytes on the standard output")
        if done.stderr is not None and done.stderr != err:
            wrong.append("other bytes on the standard error")
        if files != {**self.start, **(changed or {})}:
            wrong.append(f"other files: {sorted(files)}")
        self.count(name, ", ".join(wrong), done.stdout, done.stderr)
        self.runs.put_back(files)

    def regular_files(self):
        """The files whose names are those of the first files, and those that are new, but for what a scenario made."""
        found = {}
        for name in sorted(os.listdir(self.folder)):
            if os.path.isfile(self.path(name)) and not os.path.islink(self.path(name)) and not name.startswith("made"):
                with open(self.path(name), "rb") as file:
                    found[name] = file.read()
        return found

    def kept_by(self, name):
        """The file that a command keeps before it prints."""
        kept = {command: kept for command, _, kept in COMMANDS}[name]
        return {kept: self.whole[name].files[kept]} if name.split()[0] in ("start", "merge", "carry", "convert", "split") else {}

    # ---- the standard streams

    def full_devices(self):
        with open("/dev/full", "wb") as full:
            for name, words, _ in COMMANDS:
                self.expect(f"{name} to a full device", words, 1, None, WRITE_FAULT, self.kept_by(name), stdout=full)
            self.expect("a refusal to a full device", ["check", "missing"], 1, b"", None, stderr=full)
            self.expect("both devices are full", ["check", "season"], 1, None, None, stdout=full, stderr=full)
            self.expect("help to a full device", ["--help"], 1, None, WRITE_FAULT, stdout=full)
            self.expect("a wrong word to a full device", ["fly"], 2, b"", None, stderr=full)
        self.expect("a desk to a full device", ["start", "season", "stations", "/dev/full"], 1, b"", file_fault("/dev/full"))

    def closed_descriptors(self):
        for name, words, _ in COMMANDS:
            whole = self.whole[name]
            self.expect(f"{name} without standard input", words, 0, whole.out, b"", whole.files, stdin=None,
                        preexec_fn=lambda: os.close(0))
            self.expect(f"{name} without standard output", words, 1, None, WRITE_FAULT, self.kept_by(name), stdout=None,
                        preexec_fn=lambda: os.close(1))
            self.expect(f"{name} without standard error", words, 0, whole.out, None, whole.files, stderr=None,
                        preexec_fn=lambda: os.close(2))
            self.expect(f"{name} without any of them", words, 1, None, None, self.kept_by(name), stdin=None, stdout=None, stderr=None,
                        preexec_fn=lambda: os.closerange(0, 3))
        self.expect("the standard input is closed", ["check", "-"], 1, b"", file_fault("-"), stdin=None, preexec_fn=lambda: os.close(0))
        self.expect("a refusal without standard error", ["check", "missing"], 1, b"", None, stderr=None, preexec_fn=lambda: os.close(2))

    def pipes_without_reader(self):
        for name, words, kept in COMMANDS:
            for ignored in True, False:
                reader, writer = os.pipe()
                os.close(reader)
                self.expect(f"{name} to a pipe without a reader", words, 1, None, WRITE_FAULT, self.kept_by(name), stdout=writer,
                            restore_signals=not ignored)
                os.close(writer)

    # ---- files

    def folders_and_missing_files(self):
        os.mkdir(self.path("folder"))
        for bad in "folder", "missing", "folder/missing", "season/x", "":
            if bad == "":
                continue
            fault = file_fault(bad)
            self.expect(f"{bad} is no data set", ["check", bad], 1, b"", fault)
            self.expect(f"{bad} is no station table", ["start", "season", bad, "new"], 1, b"", fault)
            self.expect(f"{bad} is no text", ["take", "desk", "new", "later", bad], 1, self.line_of_later(), fault)
            self.expect(f"{bad} is no desk", ["export", bad], 1, b"", fault)
            self.expect(f"{bad} is no other desk", ["merge", "desk", bad, "new"], 1, b"", fault)
            self.expect(f"{bad} is no script", ["rehearse", "season", "stations", bad], 1, b"", fault)
        for bad in "folder", "none/new", "season/x", ".", "/", "x" * 256, "x" * 250, "y/" * 2100 + "new":
            fault = file_fault(bad)
            self.expect("no desk starts there", ["start", "season", "stations", bad], 1, b"", fault)
            self.expect("no desk is taken there", ["take", "desk", bad, "later"], 1, self.line_of_later(), fault)
            self.expect("no desk is merged there", ["merge", "desk", "theirs", bad], 1, b"", fault)
            received = self.whole["receive"]
            self.expect("no desk that received is kept there", ["receive", "--refused", "back", "desk", bad, "mail", "missing"], 1, received.out,
                        fault, {"back": received.files["back"]})
            self.expect("no refused text is kept there", ["receive", "--refused", bad, "desk", "new", "mail", "missing"], 1, received.out, fault)
        os.rmdir(self.path("folder"))

    def line_of_later(self):
        return b"taken SSM 03JUN25 00001 001\n"

    def files_without_permission(self):
        """As nobody, if the test runs as root, to whom each file is open."""
        other = {"user": NOBODY, "group": NOBODY, "extra_groups": []} if os.geteuid() == 0 else {}
        os.chmod(self.runs.room.name, 0o755)
        os.chmod(self.folder, 0o777)
        os.mkdir(self.path("locked"))
        shutil.copy(self.path("season"), self.path("made_secret"))
        os.chmod(self.path("made_secret"), 0)
        os.chmod(self.path("locked"), 0o555)
        held = self.whole["start"].files["old"]
        self.expect("a file may not be read", ["check", "made_secret"], 1, b"", file_fault("made_secret"), **other)
        self.expect("the folder may not be written", ["start", "season", "stations", "locked/new"], 1, b"", file_fault("locked/new"),
                    **other)
        os.chmod(self.path("old"), 0o444)
        self.expect("a file that may not be written is replaced", ["start", "season", "stations", "old"], 0, b"held 0\n", b"",
                    {"old": held}, **other)
        os.rmdir(self.path("locked"))
        os.unlink(self.path("made_secret"))
        os.chmod(self.folder, 0o755)

    def fifos(self):
        os.mkfifo(self.path("made_fifo"))
        whole = self.whole["check"]

        def give(step):
            with open(self.path("made_fifo"), "wb", buffering=0) as file:
                for at in range(0, len(self.start["season"]), step):
                    file.write(self.start["season"][at : at + step])

        for step in 1 << 20, 1:
            giver = threading.Thread(target=give, args=(step,))
            giver.start()
            self.expect(f"a FIFO gives {step} bytes at a time", ["check", "made_fifo"], 0, whole.out, b"")
            giver.join()
        taken = []

        def take():
            with open(self.path("made_fifo"), "rb") as file:
                taken.append(file.read())

        taker = threading.Thread(target=take)
        taker.start()
        self.expect("a FIFO takes a desk", ["start", "season", "stations", "made_fifo"], 0, b"held 0\n", b"")
        taker.join()
        self.count("a FIFO has the bytes of the desk", taken != [self.whole["start"].files["old"]] and "other bytes", taken)
        os.unlink(self.path("made_fifo"))

    def long_files(self):
        with open(self.path("made_long"), "wb") as file:
            file.truncate(LIMIT + 1)
        fault = file_fault("made_long")
        self.expect("a data set is too long", ["tidy", "made_long"], 1, b"", fault)
        self.expect("a text is too long", ["take", "desk", "new", "later", "made_long"], 1, self.line_of_later(), fault)
        self.expect("a desk is too long", ["show", "made_long", "LX544", "01JUL25"], 1, b"", fault)
        with open(self.path("made_long"), "rb") as file:
            self.expect("standard input is too long", ["check", "-"], 1, b"", file_fault("-"), stdin=file)
        self.expect("a device never ends", ["check", "/dev/zero"], 1, b"", file_fault("/dev/zero"))
        os.unlink(self.path("made_long"))

    def links_and_parts(self):
        held = self.whole["start"].files["old"]
        words = ["start", "season", "stations"]
        os.symlink("old", self.path("made_link"))
        self.expect("a link stays", [*words, "made_link"], 0, b"held 0\n", b"", {"old": held})
        self.count("a link stays", not os.path.islink(self.path("made_link")) and "it is no link")
        os.unlink(self.path("made_link"))
        os.symlink("missing", self.path("made_link"))
        self.expect("a link gets its target", [*words, "made_link"], 0, b"held 0\n", b"", {"missing": held})
        os.unlink(self.path("made_link"))
        os.symlink("made_link", self.path("made_link"))
        self.expect("a link leads to itself", [*words, "made_link"], 1, b"", file_fault("made_link"))
        os.unlink(self.path("made_link"))
        parts = {f"old.{number}.part": b"left" for number in range(100)}
        self.runs.write(parts)
        self.expect("a part is taken over", [*words, "old"], 0, b"held 0\n", b"", {"old": held, **dict(list(parts.items())[1:])})
        with contextlib.ExitStack() as stack:
            self.runs.write(parts)
            for name in parts:
                part = stack.enter_context(open(self.path(name), "rb"))
                fcntl.flock(part, fcntl.LOCK_EX)
            self.expect("all parts are being written", [*words, "old"], 1, b"", file_fault("old"), parts)

    def short_of_room(self):
        """A file may not grow: the write fails, or the signal for it is ignored."""
        def limit():
            resource.setrlimit(resource.RLIMIT_FSIZE, (500, 500))

        self.expect("a desk does not fit", ["start", "season", "stations", "old"], 1, b"", file_fault("old"), preexec_fn=limit,
                    restore_signals=False)
        self.expect("a desk does not fit", ["merge", "desk", "theirs", "new"], 1, b"", file_fault("new"), preexec_fn=limit,
                    restore_signals=False)

    # ---- words

    def names(self):
        no_text = b"error: a word of the command line is no UTF-8; names of files are to be UTF-8\n"
        for words in [b"check", b"\xff"], [b"take", b"desk", b"new\xc3"], [b"\xe9"]:
            self.expect("a name is no UTF-8", words, 2, b"", no_text)
        self.runs.write({"script": b"DESKS 1\nTAKE 1 \xff\n"})
        self.expect("a name in a script is no UTF-8", ["rehearse", "season", "stations", "script"], 1, b"",
                    b"refused 63 Script line 2\n", {"script": b"DESKS 1\nTAKE 1 \xff\n"})
        shown = {"a\nb": r"a\x0ab", "a\rb": r"a\x0db", "\x1b[31mred": r"\x1b[31mred", "a\tb\x7f": r"a\x09b\x7f", "a\\x0ab": r"a\x5cx0ab",
                 "Zürich \u2603 b": "Zürich \u2603 b", "a b'\"": "a b'\"", "a\x80b\x9bc\x9f\xa0": "a\\xc2\\x80b\\xc2\\x9bc\\xc2\\x9f\xa0",
                 "\u202a\u202etxt\u2029\u202f": "\\xe2\\x80\\xaa\\xe2\\x80\\xaetxt\u2029\u202f",
                 "\u2065\u2066a\u2069\u206a": "\u2065\\xe2\\x81\\xa6a\\xe2\\x81\\xa9\u206a"}
        for name, printed in shown.items():
            self.expect("a name is printed on one line", ["check", name], 1, b"", file_fault(printed))
            self.expect("a name of an output is printed on one line", ["start", "season", "stations", "missing/" + name], 1, b"",
                        file_fault("missing/" + printed))
        self.runs.write({"script": b"DESKS 1\nTAKE 1 a\0b\n"})
        self.expect("a name has a NUL", ["rehearse", "season", "stations", "script"], 1, b"", file_fault(r"a\x00b"),
                    {"script": b"DESKS 1\nTAKE 1 a\0b\n"})

    def many_words(self):
        desk = self.start["desk"]
        line = b"repeated SSM 01JUN25 00001 001\n"
        self.expect("ten thousand words", ["take", "desk", "new", *["first"] * 9997], 0, line * 9997, b"", {"new": desk})
        self.expect("the last of ten thousand words is missing", ["take", "desk", "new", *["first"] * 9996, "missing"], 1, line * 9996,
                    file_fault("missing"))
        done = self.run(["check", *["season"] * 9999])
        self.count("too many words", (done.returncode, done.stdout) != (2, b"") and f"status {done.returncode}", done.stderr)

    # ---- calls to the system that fail

    def wrong_answer(self, name, kept, answer, left_beside):
        """What is wrong with a run of which a call failed, or nothing."""
        whole = self.whole[name]
        files = {other: data for other, data in answer.files.items() if not (left_beside and other.endswith(".0.part"))}
        if answer.status == 0:
            if answer.out == UNREAD.get(name):
                return None if files == {**self.start, "back": b"", "new": self.start["desk"]} else "other files of unread mail"
            return None if (answer.out, answer.err, files) == (whole.out, b"", whole.files) else "other bytes or files"
        if answer.status != 1:
            return f"status {answer.status}"
        if not whole.out.startswith(answer.out):
            return "other bytes on the standard output"
        if answer.err == WRITE_FAULT or answer.err == b"" and left_beside:
            if answer.err and answer.out == whole.out:
                return "all was printed, and it is told that it was not"
            kept_first = not answer.err and self.is_half_kept(name, files)
            return None if kept_first or files in (self.start, {**self.start, **self.kept_by(name)}) else "other files"
        if not answer.err.startswith(b"refused 91 File "):
            return "another line"
        if files != self.start and not (answer.err == file_fault(kept) and self.is_half_kept(name, files)):
            return "a file changed"
        return "something was printed" if answer.out and name not in UNREAD and name.split()[0] not in ("take", "withdraw", "publish") else None

    def failing_calls(self, error, onward):
        for name, words, kept in COMMANDS:
            for number in range(1, NEVER):
                answer = self.runs.run(words, "calls", number, NEVER if onward else number, error)
                wrong = self.wrong_answer(name, kept, answer, onward)
                self.count(f"{name}: call {number} fails with {errno.errorcode[error]}{' and on' if onward else ''}", wrong, answer.status,
                           answer.out, answer.err, sorted(answer.files))
                self.runs.put_back(answer.files)
                if answer.refused == 0:
                    break

    def single_bytes(self):
        for name, words, _ in COMMANDS:
            answer, whole = self.runs.run(words, "calls", 1, NEVER), self.whole[name]
            same = (answer.status, answer.out, answer.err, answer.files) == (0, whole.out, b"", whole.files)
            self.count(f"{name}: a byte at a time", not (same and answer.refused) and "another answer", answer.out, answer.err)
            self.runs.put_back(answer.files)

    def killed(self):
        """A file that is kept is the old or the new one, whenever the program is killed; the next run is as ever."""
        for name, words, kept in COMMANDS:
            if not kept:
                continue
            whole = self.whole[name]
            for number in range(1, NEVER):
                answer = self.runs.run(words, "calls", number, number, KILLED)
                files = {other: data for other, data in answer.files.items() if not other.endswith(".0.part")}
                wrong = files not in (self.start, whole.files) and not self.is_half_kept(name, files) and "another file"
                self.count(f"{name} is killed at call {number}", wrong, sorted(answer.files))
                self.runs.put_back(files)
                again = self.runs.run(words)
                same = (again.status, again.out, again.files) == (0, whole.out, whole.files)
                self.count(f"{name} after it was killed at call {number}", not same and "another answer", again.status, again.err)
                self.runs.put_back(self.runs.files())
                if answer.refused == 0:
                    break

    def is_half_kept(self, name, files):
        """Whether only the refused texts are kept."""
        return name in UNREAD and files == {**self.start, "back": self.whole[name].files["back"]}

    def all(self):
        self.full_devices()
        self.closed_descriptors()
        self.pipes_without_reader()
        self.folders_and_missing_files()
        self.files_without_permission()
        self.fifos()
        self.long_files()
        self.links_and_parts()
        self.short_of_room()
        self.names()
        self.many_words()
        for error in errno.EIO, errno.ENOSPC:
            for onward in False, True:
                self.failing_calls(error, onward)
        self.failing_calls(errno.EINTR, False)
        self.single_bytes()
        self.killed()
        self.runs.room.cleanup()


def main():
    if len(sys.argv) != 2:
        sys.exit(__doc__)
    with tempfile.TemporaryDirectory() as room:
        os.chmod(room, 0o755)
        program = shutil.copy(sys.argv[1], os.path.join(room, "ssimdesk"))
        os.chmod(program, 0o755)
        devices = Devices(program, built_library(room))
        devices.all()
    print(f"{devices.passed} passed, {devices.failed} failed")
    sys.exit(1 if devices.failed or not devices.passed else 0)


if __name__ == "__main__":
    main()
