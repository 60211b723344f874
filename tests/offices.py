#!/usr/bin/env python3
"""Types the lines of docs/OFFICES.md, and tries what the page says: offices.py PROGRAM

The lines run as those of the tutorial do, one after another in a new copy of samples/, but that `cd` stays. A line is left out, and said to
be, if it begins with a tool that is not installed. Then `tools/mail_texts` is tried on mails of several forms, in files, a Maildir and an
mbox: each has to make the desk that the texts make. The last line is 'N passed, M failed'.
"""
import email.policy
import mailbox
import os
import shutil
import subprocess
import sys
import tempfile
from email.message import EmailMessage

from tutorial import TOP, typed_lines

PAGE = os.path.join(TOP, "docs", "OFFICES.md")
TOOLS = ["git", "flock", "rsync", "parallel", "sqlite3"]
FORMS = ["7bit", "quoted-printable", "base64", "attachment", "html", "signature"]


class Office:
    """A copy of samples/ in which lines are typed, with the program and the tools on the path."""

    def __init__(self, room, program):
        self.room, self.folder = room, os.path.join(room, "samples")
        shutil.copytree(os.path.join(TOP, "samples"), self.folder)
        programs = os.path.join(room, "programs")
        os.mkdir(programs)
        os.symlink(program, os.path.join(programs, "ssimdesk"))
        path = os.pathsep.join([programs, os.path.join(TOP, "tools"), os.environ["PATH"]])
        self.names = {**os.environ, "PATH": path, "HOME": room, "LC_ALL": "C.UTF-8", "GIT_CONFIG_NOSYSTEM": "1"}

    def typed(self, command):
        """What a command line prints. The folder in which it ends is that of the next one."""
        at = os.path.join(self.room, "at")
        done = subprocess.run(["bash", "-c", f"{command}\npwd > {at}"], cwd=self.folder, env=self.names, stdin=subprocess.DEVNULL,
                              stdout=subprocess.PIPE, stderr=subprocess.STDOUT, timeout=120, check=False)
        with open(at, encoding="utf-8") as file:
            self.folder = file.read().strip()
        return done.stdout.decode("latin-1")


def page_lines(program):
    """How many lines of the page print what it says, and how many do not."""
    passed, failed = 0, 0
    with tempfile.TemporaryDirectory() as room:
        office = Office(room, program)
        for number, command, expected in typed_lines(PAGE):
            tool = command.split()[0]
            if tool in TOOLS and not shutil.which(tool):
                print(f"{tool} is not there: line {number} is left out")
                continue
            printed = office.typed(command)
            if printed == expected:
                passed += 1
                continue
            failed += 1
            print(f"docs/OFFICES.md line {number}: {command}\nprinted:\n{printed}expected:\n{expected}", end="")
    return passed, failed


def mail(number, form, text):
    """A mail of a form that has the text."""
    message = EmailMessage(policy=email.policy.SMTP.clone(max_line_length=76))
    message["From"], message["To"] = "ops@example.org", "desk@example.org"
    message["Subject"], message["Message-ID"] = f"SSM {number}", f"<{number}@example.org>"
    if form == "attachment":
        message.set_content("Please find the message attached.\n\nKind regards\n")
        message.add_attachment(text.encode(), maintype="application", subtype="octet-stream", filename=f"{number}.ssm")
    elif form == "html":
        message.set_content(text)
        message.add_alternative(f"<pre>{text}</pre>", subtype="html")
    elif form == "signature":
        message.set_content(text + "-- \nOperations, +49 000\n")
    else:
        message.set_content(text, cte=form)
    return message


def mails(folder):
    """Writes the texts of the samples as mails: each in a file, all in a Maildir and in an mbox."""
    places = mailbox.Maildir(os.path.join(folder, "Maildir")), mailbox.mbox(os.path.join(folder, "all.mbox"))
    names = sorted(os.listdir(os.path.join(folder, "texts")))[:12]
    for number, name in enumerate(names):
        with open(os.path.join(folder, "texts", name), encoding="ascii") as file:
            message = mail(number, FORMS[number % len(FORMS)], file.read())
        with open(os.path.join(folder, f"{number}.eml"), "wb") as file:
            file.write(bytes(message))
        for place in places:
            place.add(message)
    places[1].flush()
    return [f"{number}.eml" for number in range(len(names))]


def mail_lines(program):
    """Whether the texts of mails make the desk that the texts make."""
    with tempfile.TemporaryDirectory() as room:
        office = Office(room, program)
        names = mails(office.folder)
        office.typed("ssimdesk start season.ssim stations.txt empty.desk")
        took = office.typed("ssimdesk take empty.desk took.desk texts/0* texts/1[0-2]*")
        desks = [("files", f"mail_texts {' '.join(names)}"), ("Maildir", "mail_texts Maildir"), ("mbox", "mail_texts all.mbox"),
                 ("standard input", f"for file in {' '.join(names)}; do mail_texts < $file; done")]
        failed = 0
        for what, command in desks:
            said = office.typed(f"{command} | ssimdesk receive empty.desk {what.split()[0]}.desk - && cmp {what.split()[0]}.desk took.desk")
            if not said.endswith("taken 11 repeated 1 refused 0\n"):
                failed += 1
                print(f"mail_texts, {what}:\n{said}after:\n{took}")
    return len(desks) - failed, failed


def main():
    if len(sys.argv) != 2:
        sys.exit(__doc__)
    program = os.path.abspath(sys.argv[1])
    counts = [page_lines(program), mail_lines(program)]
    passed, failed = (sum(count[place] for count in counts) for place in (0, 1))
    print(f"{passed} passed, {failed} failed")
    sys.exit(1 if failed or not passed else 0)


if __name__ == "__main__":
    main()
