"""`tidy` and `check` of small data sets, whole and broken ones, beside another program.

Each is given to both programs by name and on standard input. Status and every byte on standard output and standard error have to
agree. What was tidied is tidied again, which has to give the same bytes.
"""
import small

KINDS = ["whole", "broken"]


def make(rng, room, kind):
    _, data = small.made(rng, kind == "broken")
    room.write("data", data)
    return data


def compared(_, room, data):
    for words in ("check", "data"), ("check", "-"), ("tidy", "-"), ("tidy", "data"):
        answer = room(*words, given=data)
        yield " ".join(words), answer, room.peer(*words, given=data)
    room.counts[" ".join(answer.err.split()[:3]) or "done"] += 1
    if answer.status == 0:
        yield "tidy of what was tidied", room("tidy", "-", given=answer.out), answer
