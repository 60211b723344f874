"""`merge --since` beside a plain model of the messages that three desks hold.

OLD, DESK and OTHER have one data set. OLD is brought a few messages; DESK and OTHER come from it, each withdraws some and is brought others, some
of which come to both, and some have the reference of one that was withdrawn. In some cases the three have nothing to do with each other, OLD is
empty, or it or OTHER has another base. OUT has to hold what both hold, and what one of them holds and OLD does not, or the refusal that comes
first has to be printed, and then no file may change. Which of the two is named first makes no difference to what is kept; and if OTHER is OLD,
what is kept is what DESK holds.
"""
import carry
from carry import Desk, bring, printed, refused
from messages import written
from room import Answer

KINDS = ["branches"] * 5 + ["strangers", "no ancestor", "older base", "other base", "same as older", "broken", "occupied"]


def kept_of(one, other, older):
    """The texts of one desk that stay: of those that the older one held, those that the other still holds."""
    return {reference: text for reference, text in one.items() if older.get(reference) != text or other.get(reference) == text}


def merged(mine, theirs, older):
    """The answer and what is kept."""
    if older and older.head != mine.head or theirs.head != mine.head:
        return refused("61 OtherBase"), None
    before = older.held if older else {}
    here, there = kept_of(mine.held, theirs.held, before), kept_of(theirs.held, mine.held, before)
    both = sorted(reference for reference in here if there.get(reference, here[reference]) != here[reference])
    if both:
        return refused(f"60 Conflict {printed(both[0])}"), None
    mine.held = {**here, **there}
    return Answer(0, written([f"held {len(mine.held)}"]), ""), mine.bytes()


# ---- the files of a case

def texts_of(rng, base, count):
    return [carry.text_of(rng, (base, base)) for _ in range(rng.randrange(count))]


def with_other_text(rng, text):
    """The text, or another one of its reference."""
    return text + b"//\nSI OTHER\n" if rng.random() < 0.3 and b"\nSI" not in text else text


def branch(rng, room, name, texts):
    """A desk that comes from OLD: it withdraws some messages and is brought others."""
    room.copy("OLD", name)
    held = sorted(Desk(room.read("OLD")).held.items())
    gone = [(reference, text) for reference, text in held if rng.random() < 0.4]
    if gone:
        answer = room("withdraw", name, name, *(printed(reference) for reference, _ in gone))
        assert not answer.status, answer.err
    again = [with_other_text(rng, text) for _, text in gone if rng.random() < 0.4]
    bring(room, name, [with_other_text(rng, text) for text in texts if rng.random() < 0.6] + again)


def make(rng, room, kind):
    base, other = carry.two_bases(rng, "dates")
    carry.start(rng, room, "OLD", base, [1, 2])
    bring(room, "OLD", texts_of(rng, base, 8))
    texts = texts_of(rng, base, 6)
    for name in ["DESK", "OTHER"]:
        branch(rng, room, name, texts)
    if kind == "strangers":
        for name in ["OLD", "OTHER"]:
            head = Desk(room.read("DESK"))
            head.held = {}
            room.write(name, head.bytes())
            bring(room, name, [text for text in texts if rng.random() < 0.7] + texts_of(rng, base, 3))
    elif kind == "no ancestor":
        room.write("OLD", b"")
    elif kind in ["older base", "other base"]:
        carry.start(rng, room, "OLD" if kind == "older base" else "OTHER", other, [1, 3])
    elif kind == "same as older":
        room.copy("OLD", "OTHER")
    return kind


# ---- what is compared

def broken(rng, room):
    """Cuts some of the desk files. The refusal of the first that is cut."""
    cut = rng.choice([["OLD"], ["DESK"], ["OTHER"], ["OLD", "DESK"], ["OLD", "OTHER"], ["DESK", "OTHER"]])
    for name in cut:
        data = room.read(name)
        room.write(name, data[: rng.randrange(12, len(data))])
    return room("findings", cut[0])


def compared(rng, room, kind):
    name = rng.choice(["DESK", "OTHER", "OUT", "OLD"])
    if kind == "occupied":
        name = "season"
        wanted, kept = refused("93 Occupied season"), None
    elif kind == "broken":
        wanted, kept = broken(rng, room), None
    else:
        older = room.read("OLD")
        wanted, kept = merged(Desk(room.read("DESK")), Desk(room.read("OTHER")), Desk(older) if older else None)
    turned = room("merge", "OTHER", "DESK", "TURNED", "--since", "OLD") if kind not in ["broken", "other base"] else None
    own = kind == "same as older" and Desk(room.read("DESK")).bytes()
    before = room.files()
    answer = room("merge", "--since", "OLD", "DESK", "OTHER", name)
    room.counts[" ".join(answer.err.split()[:2]) or "kept"] += 1
    yield "merge --since", answer, wanted
    yield "files", room.files(), {**before, **({name: kept} if kept else {})}
    if turned and kept and kind != "occupied":
        yield "turned", (turned, room.read("TURNED")), (wanted, kept)
    if own:
        yield "same as older", room.read(name), own
