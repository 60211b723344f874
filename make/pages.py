#!/usr/bin/env python3
"""Makes the manual page and the completions from the program's help: pages.py PROGRAM FOLDER

In the folder, ssimdesk.1 is a manual page, and ssimdesk.bash, _ssimdesk and ssimdesk.fish complete the words of a command line in bash,
zsh and fish: commands, options, files, and the flights and stations of the file that the line names, if it has at most 20,000,000 bytes.
All have each command that `--help` lists, with its values and options as `COMMAND --help` shows them.
"""
import os
import re
import subprocess
import sys

MANUAL = "ssimdesk.1"
BASH = "ssimdesk.bash"
ZSH = "_ssimdesk"
FISH = "ssimdesk.fish"

# The date of the manual page: when the help last changed.
DATE = "2026-12-01"

# Values that are not names of files.
NO_FILES = {"FLIGHT", "DATE", "STATION", "TYPE", "REFERENCE", "N"}

# Values of options that may come several times.
SEVERAL = {"STATION", "TYPE"}

# Values that are one of a few words.
CHOICES = {"MODE": "utc local"}

# The flights and the stations of the lines that `list` prints.
LISTED = """\
# The flights, or the stations, of a file that is not too large to be read at once.
_ssimdesk_listed() {
    [ -f "$2" ] && [ "$(wc -c < "$2")" -le 20000000 ] || return
    "${SSIMDESK:-ssimdesk}" list -- "$2" 2> /dev/null | case "$1" in
    FLIGHT) awk '!/^ / && !seen[$1]++ { print $1 }' ;;
    STATION) awk '/^ / { print $2; print $6 }' | sort -u ;;
    esac
}
"""

IN_BASH = """\
# Completes the words of ssimdesk in bash: source this file.
LISTED
# What the values are called of a command, with ... after one that may be written several times, and its options.
_ssimdesk_words() {
    case "$1" in
CASES
    esac
}

# Replaces the words that are completed by those that begin as the last one does, or by names of files.
_ssimdesk_found() { mapfile -t COMPREPLY < <(compgen "$@" -- "$word"); }

_ssimdesk() {
    local word=${COMP_WORDS[COMP_CWORD]} words=("${COMP_WORDS[@]}") last=$COMP_CWORD at place=0 file= values options kind
    if [ "$last" -eq 1 ]; then
        _ssimdesk_found -W "NAMES help --explain --help --version"
        return
    fi
    if [ "${words[1]}" = --explain ]; then
        words=("${words[0]}" "${words[@]:2}") last=$((last - 1))
    fi
    if [ "$last" -eq 1 ]; then
        _ssimdesk_found -W "NAMES"
        return
    fi
    if [ "${words[1]}" = help ]; then
        _ssimdesk_found -W "NAMES"
        return
    fi
    IFS=: read -r values options < <(_ssimdesk_words "${words[1]}")
    if [[ $word == -* ]]; then
        _ssimdesk_found -W "$options"
        return
    fi
    for ((at = 2; at < last; at++)); do
        case "${words[at]}" in
        FILED) at=$((at + 1)); [ "$at" -lt "$last" ] || { _ssimdesk_found -f; return; } ;;
        VALUED) at=$((at + 1)); [ "$at" -lt "$last" ] || return ;;
        --*) ;;
        *) [ "$place" -gt 0 ] || file=${words[at]}; place=$((place + 1)) ;;
        esac
    done
    read -ra values <<< "$values"
    kind=${values[place]-}
    [ -n "$kind" ] || [[ ${values[-1]} != *... ]] || kind=${values[-1]}
    file=${file//[\\\\\\'\\"]/}
    case "$kind" in
CHOICES
    FLIGHT*|STATION) _ssimdesk_found -W "$(_ssimdesk_listed "${kind%...}" "${file/#\\~\\//$HOME/}")" ;;
    ''|DATE|REFERENCE*) ;;
    *) _ssimdesk_found -f ;;
    esac
}
complete -o filenames -F _ssimdesk ssimdesk
"""

IN_ZSH = """\
#compdef ssimdesk
# Completes the words of ssimdesk in zsh: this file belongs into a folder of $fpath.
LISTED
# Completes flights, or stations, of the file that the line names first.
_ssimdesk_of() {
    local -a values found
    local at
    for ((at = 2; at <= $#words; at++)); do
        case "$words[at]" in
        FILED|VALUED) ((at++)) ;;
        -*) ;;
        *) values+=("$words[at]") ;;
        esac
    done
    found=(${(f)"$(_ssimdesk_listed "$1" "${(Q)values[1]}")"})
    compadd -a found
}

_ssimdesk() {
    local -a commands
    commands=(
NAMES
    )
    if ((CURRENT == 2)); then
        _describe command commands
        compadd -- help --explain --help --version
        return
    fi
    if [[ "$words[2]" == --explain ]]; then
        words[2]=()
        ((CURRENT--))
    fi
    if ((CURRENT == 2)); then
        _describe command commands
        return
    fi
    shift words
    ((CURRENT--))
    case "$words[1]" in
CASES
    help) _describe command commands ;;
    esac
}
_ssimdesk "$@"
"""

IN_FISH = """\
# Completes the words of ssimdesk in fish: this file belongs into a folder of $fish_complete_path.

# The words of the line so far, without --explain before the command.
function __ssimdesk_line
    set -l words (commandline -opc)
    if test "$words[2]" = --explain
        set -e words[2]
    end
    string join \\n -- $words
end

# The values of the line so far: its words without options, from the third on.
function __ssimdesk_values
    set -l words (__ssimdesk_line)
    set -l skipped no
    for word in $words[3..]
        if test $skipped = yes
            set skipped no
        else if contains -- $word FILED VALUED
            set skipped yes
        else if not string match -q -- '-*' $word
            echo $word
        end
    end
end

# The flights, or the stations, of the file that the line names first.
function __ssimdesk_listed
    set -l file (__ssimdesk_values)[1]
    test -f "$file" -a (wc -c < "$file") -le 20000000; or return
    switch $argv[1]
        case FLIGHT
            ssimdesk list -- $file 2> /dev/null | awk '!/^ / && !seen[$1]++ { print $1 }'
        case STATION
            ssimdesk list -- $file 2> /dev/null | awk '/^ / { print $2; print $6 }' | sort -u
    end
end

# Whether the line has a command, and at least the first number of values, but fewer than the second.
function __ssimdesk_at
    set -l words (__ssimdesk_line)
    test (count $words) -ge 2; and test $words[2] = $argv[1]; or return 1
    set -l count (count (__ssimdesk_values))
    test $count -ge $argv[2]; and test $count -lt $argv[3]
end

complete -c ssimdesk -f
complete -c ssimdesk -n __fish_use_subcommand -a help -d 'Print help'
complete -c ssimdesk -n __fish_use_subcommand -l explain -d 'Say more after a refusal'
complete -c ssimdesk -n __fish_use_subcommand -l help -d 'Print help'
complete -c ssimdesk -n __fish_use_subcommand -l version -d 'Print version'
LINES
"""


def printed(program, *words):
    """What the program prints on its standard output."""
    return subprocess.run([program, *words], stdout=subprocess.PIPE, timeout=60, check=True).stdout.decode()


def section(text, title):
    """The lines under a title, which are indented by two blanks."""
    lines = text.split("\n")
    if title not in lines:
        return []
    rest = lines[lines.index(title) + 1 :]
    end = next((n for n, line in enumerate(rest) if not line.startswith("  ")), len(rest))
    return [line[2:] for line in rest[:end]]


def entries(lines):
    """The name and the text of each entry of a list of help. A text may go on on more lines; an option without a letter is indented."""
    found = []
    for line in lines:
        if line.startswith(" ") and not line.startswith("    --"):
            found[-1][1].append(line.strip())
        else:
            name, _, text = line.strip().partition("  ")
            found.append((name, [text.strip()] if text.strip() else []))
    return [(name, " ".join(text)) for name, text in found]


class Page:
    """What help says of the program, or of one command."""

    def __init__(self, text):
        self.about = " ".join(text.split("\n\n", 1)[0].split("\n"))
        self.usage = re.search(r"^Usage: \S+ ?(.*)$", text, re.MULTILINE).group(1)
        self.arguments = entries(section(text, "Arguments:"))
        self.options = entries(section(text, "Options:"))
        self.commands = [name for name, _ in entries(section(text, "Commands:")) if name != "help"]
        listed = text.split("\nOptions:\n", 1)[1]
        self.after = listed.split("\n\n", 1)[1].rstrip("\n") if "\n\n" in listed else ""


def escaped(text):
    """A text as a manual page has it: no line is read as a request, and no hyphen as a dash."""
    text = text.replace("\\", "\\e").replace("-", "\\-")
    return "\n".join("\\&" + line if line.startswith((".", "'")) else line for line in text.split("\n"))


def entry_lines(pairs):
    """A manual page's list."""
    return [line for name, text in pairs for line in (".TP", f".B {escaped(name)}", escaped(text))]


def as_is(text):
    """Lines of a manual page that are not filled."""
    return [".nf", escaped(text), ".fi"]


def synopsis(name, page):
    """The line of a command in the synopsis."""
    return [f".B ssimdesk {name}", escaped(page.usage.partition(" ")[2]), ".br"]


def described(page):
    """The lines of a command: what it does, its values and its own options, and the example."""
    options = [pair for pair in page.options if not pair[0].startswith("-h")]
    return [f".SS {escaped(page.usage)}", escaped(page.about) + ".", *entry_lines(page.arguments + options), ".PP",
            *as_is(page.after)]


FILES = [
    ("desk file", "A data set, its station table, and the texts that were taken: what start, take, receive, merge and withdraw write."),
    ("data set", "A schedule in the records of chapter 7: what export and tidy print."),
    ("station table", "The UTC variations of stations, a line for each period, such as ZRH 30MAR25 25OCT25 +0200."),
    ("text", "An SSM or ASM message; receive takes files of many, with envelopes and lines NNNN."),
    ("OUT.N.part", "What is written of OUT while a command runs. At the end it takes the place of OUT."),
]


EXPLAIN = ("--explain", "Before the command. After the line of a refusal more lines say which file or word it is about, what is there, what "
           "the refusal means, and what to do about it.")

ENVIRONMENT = [("SSIMDESK_EXPLAIN", "If it is set and not empty, --explain is before each command.")]


def manual(version, whole, pages):
    """The manual page."""
    lists, _, status = whole.after.partition("Exit status: ")
    synopses = [line for name, page in pages for line in synopsis(name, page)][:-1]
    lines = [f'.TH SSIMDESK 1 {DATE} "ssimdesk {version}" "User Commands"', ".SH NAME", f"ssimdesk \\- {escaped(whole.about)}",
             ".SH SYNOPSIS", *synopses, ".SH DESCRIPTION",
             *as_is(lists.rstrip("\n")), ".SH OPTIONS", *entry_lines([EXPLAIN, *whole.options]), ".SH COMMANDS",
             *[line for _, page in pages for line in described(page)], ".SH ENVIRONMENT", *entry_lines(ENVIRONMENT),
             ".SH FILES", *entry_lines(FILES), ".SH EXIT STATUS",
             escaped(status), ".SH SEE ALSO", "The pages of the folder docs: TUTORIAL.md is a day at two offices, FORMATS.md has every",
             "file and printed line, REFUSALS.md what each refusal means and what to do."]
    return "\n".join(lines) + "\n"


def values_of(page):
    """The names of the values of a command, in order; of two kinds, as FLIGHT/DATE, the first."""
    return [re.sub(r"[^A-Z]", "", value.partition("/")[0]) for value, _ in page.arguments]


def is_repeated(page):
    """Whether the last value of a command may be written several times."""
    return bool(page.arguments) and page.arguments[-1][0].endswith("...")


def options_of(page):
    """Each option of a command: its name, what its value is called, and what it does."""
    found = [(re.search(r"--([a-z-]+)(?: <([A-Z]+)>)?", option), text) for option, text in page.options]
    return [(match.group(1), match.group(2), text) for match, text in found]


def with_options(text, pages, between):
    """The text with the options that have a value: those of files for FILED, and the others for VALUED."""
    valued = {f"--{option}": value in NO_FILES for _, page in pages for option, value, _ in options_of(page) if value}
    for word, of_files in (("FILED", False), ("VALUED", True)):
        text = text.replace(word, between.join(option for option, other in valued.items() if other == of_files))
    return text


def in_bash(pages):
    """The completion for bash. Commands that are completed alike are one case."""
    found = {}
    for name, page in pages:
        options = " ".join(f"--{option}" for option, _, _ in options_of(page))
        values = " ".join(values_of(page)) + ("..." if is_repeated(page) else "")
        found.setdefault(f"{values}:{options}", []).append(name)
    cases = "\n".join(f"    {'|'.join(names)}) echo '{words}' ;;" for words, names in found.items())
    choices = "\n".join(f"    {value}) _ssimdesk_found -W '{words}' ;;" for value, words in CHOICES.items())
    text = IN_BASH.replace("LISTED", LISTED).replace("NAMES", " ".join(name for name, _ in pages)).replace("CASES", cases)
    text = text.replace("CHOICES", choices)
    return with_options(text, pages, "|")


def quoted(text):
    """A text between quotes, as zsh and fish read it."""
    return "'" + text.replace("\\", "\\\\").replace("'", "'\\''") + "'"


def zsh_values(page):
    """The values and options of a command, as `_arguments` reads them."""
    for option, value, text in options_of(page):
        about = re.sub(r"([\[\]:])", r"\\\1", text)
        action = "" if not value else f":{value}: " if value in NO_FILES else f":{value}:_files"
        yield quoted(f"{'*' if value in SEVERAL else ''}--{option}[{about}]{action}")
    values = values_of(page)
    for place, value in enumerate(values, 1):
        last = place == len(values) and is_repeated(page)
        action = f" _ssimdesk_of {value}" if value in ("FLIGHT", "STATION") else " " if value in NO_FILES else "_files"
        action = f"({CHOICES[value]})" if value in CHOICES else action
        yield quoted(f"{'*' if last else place}:{value}:{action}")


def in_zsh(pages):
    """The completion for zsh."""
    names = "\n".join(f"        {quoted(name + ':' + page.about)}" for name, page in pages)
    cases = "\n".join(f"    {name}) _arguments {' '.join(zsh_values(page))} ;;" for name, page in pages)
    return with_options(IN_ZSH.replace("LISTED", LISTED).replace("NAMES", names).replace("CASES", cases), pages, "|")


def fish_lines(name, page):
    """The lines of a command for fish."""
    yield f"complete -c ssimdesk -n __fish_use_subcommand -a {name} -d {quoted(page.about)}"
    yield f"complete -c ssimdesk -n '__fish_seen_subcommand_from help' -a {name}"
    seen = f"-n '__fish_seen_subcommand_from {name}'"
    for option, value, text in options_of(page):
        action = "" if not value else " -x" if value in NO_FILES else " -r -F"
        yield f"complete -c ssimdesk {seen} -l {option} -d {quoted(text)}{action}"
    values = values_of(page)
    for place, value in enumerate(values):
        end = 1000000 if place + 1 == len(values) and is_repeated(page) else place + 1
        if value in ("FLIGHT", "STATION"):
            yield f"complete -c ssimdesk -n '__ssimdesk_at {name} {place} {end}' -a '(__ssimdesk_listed {value})'"
        elif value in CHOICES:
            yield f"complete -c ssimdesk -n '__ssimdesk_at {name} {place} {end}' -a '{CHOICES[value]}'"
        elif value not in NO_FILES:
            yield f"complete -c ssimdesk -n '__ssimdesk_at {name} {place} {end}' -F"


def in_fish(pages):
    """The completion for fish."""
    text = IN_FISH.replace("LINES", "\n".join(line for name, page in pages for line in fish_lines(name, page)))
    return with_options(text, pages, " ")


def made(program):
    """The text of each file."""
    whole = Page(printed(program, "--help"))
    pages = [(name, Page(printed(program, name, "--help"))) for name in whole.commands]
    version = printed(program, "--version").split()[-1]
    return {MANUAL: manual(version, whole, pages), BASH: in_bash(pages), ZSH: in_zsh(pages), FISH: in_fish(pages)}


def write(folder, files):
    """Writes the files."""
    for name, text in files.items():
        with open(os.path.join(folder, name), "w", encoding="utf-8", newline="\n") as file:
            file.write(text)


def main():
    program = os.path.abspath(sys.argv[1])
    write(sys.argv[2], made(program))


if __name__ == "__main__":
    main()
