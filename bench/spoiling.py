"""Journals that differ from others in one place, for the scripts beside this file: such that are spoiled by it, and such
that aren't."""
import collections
import re

# How many places of a journal are tried for each kind at most.
PLACES = 5
NUMBERS = {
    "a value": r"(?<= )-?\d+(?= @)",
    "a stamp": r"(?<=@)\d+",
    "the stamp of the send": r"(?<=<)\d+",
    "a point": r"(?<= )\d+(?= \w+ -?\d+ @)",
    "how many are undone": r"(?<=undone )\d+(?=:)",
    "how many a recovery keeps": r"(?<=[a-zA-Z_] )\d+(?= |$)",
    "how many are kept at the end": r"(?<= kept )\d+(?= raw)",
    "how many were made": r"(?<= raw )\d+",
}
ENTRIES = ("send", "recv", "crash", "recover")


def is_step(line):
    return line.startswith(("send ", "recv "))


def are_ends(one, other):
    """Says whether the lines are a send and a receive that may be of one message: of one point, value and stamp."""
    if not (one.startswith("send ") and other.startswith("recv ")):
        return False
    return re.sub(r"^send \w+", "", one).split(" @") == re.sub(r"^recv \w+| @\d+", "", other).split(" <")


def numbers(kind, lines, chance):
    """Yields journals in which one number of this kind is changed."""
    wanted = "recover" if kind == "how many a recovery keeps" else ""
    places = []
    for at, line in enumerate(lines):
        if line.startswith(wanted):
            places += [(at, match) for match in re.finditer(NUMBERS[kind], line)]
    for at, match in chance.sample(places, min(PLACES, len(places))):
        changed = int(match[0]) + chance.choice([1, -1])
        yield [*lines[:at], lines[at][: match.start()] + str(changed) + lines[at][match.end() :], *lines[at + 1 :]]


def exchanged(lines, i, j):
    changed = list(lines)
    changed[i], changed[j] = changed[j], changed[i]
    return changed


def with_one_more(lines, at, chance):
    """Returns the recovery at this place with one role more, which keeps all it has; itself where none is left."""
    kept = collections.Counter()
    for line in lines[:at]:
        words = line.split(" ")
        kept[words[1]] += is_step(line)
        if words[0] == "recover":
            kept.update({name: int(count) - kept[name] for name, count in zip(words[4::2], words[5::2])})
    words = lines[at].split(" ")
    named = dict(zip(words[4::2], words[5::2]))
    roles = [line.split(" ")[1] for line in lines if line.startswith("role ")]
    others = [role for role in roles if role not in named]
    if others:
        role = chance.choice(others)
        named[role] = kept[role]
    return " ".join(words[:4] + [f"{role} {named[role]}" for role in roles if role in named])


def spoiled(lines, chance):
    """Yields kinds of faults, and journals that have one."""
    for kind in NUMBERS:
        for changed in numbers(kind, lines, chance):
            yield kind, changed
    entries = [at for at, line in enumerate(lines) if line.split(" ")[0] in ENTRIES]
    some = lambda places: chance.sample(places, min(PLACES, len(places)))
    for at in some(entries):
        yield "an entry left out", lines[:at] + lines[at + 1 :]
        yield "an entry twice", lines[: at + 1] + lines[at:]
    of_role = collections.defaultdict(list)
    for at in entries:
        of_role[lines[at].split(" ")[1]].append(at)
    for role, places in of_role.items():
        pairs = [(i, j) for i, j in zip(places, places[1:]) if lines[i] != lines[j]]
        for i, j in some(pairs):
            yield "two of a role exchanged", exchanged(lines, i, j)
        yield "a crash more", [*lines[: places[-1] + 1], f"crash {role}", *lines[places[-1] + 1 :]]
    ends = [(i, j) for i, j in zip(entries, entries[1:]) if are_ends(lines[i], lines[j])]
    for i, j in some(ends):
        yield "a message received before it is sent", exchanged(lines, i, j)
    for at in some([at for at in entries if lines[at].startswith("recover ")]):
        yield "a concerned role less", [*lines[:at], re.sub(r" \w+ \d+$", "", lines[at]), *lines[at + 1 :]]
        yield "a concerned role more", [*lines[:at], with_one_more(lines, at, chance), *lines[at + 1 :]]
    yield "another end", [*lines[:-1], "limited" if lines[-1] == "completed" else "completed"]
    yield "no end", lines[:-1]
    yield "a line too many", [*lines, lines[-1]]
    word = {"done": "waits", "limit": "done", "waits": "limit"}[lines[-2].split(" ")[-1]] if len(lines) > 1 else None
    if word:
        yield "another word of a role", [*lines[:-2], " ".join([*lines[-2].split(" ")[:-1], word]), lines[-1]]


def reordered(lines, chance):
    """Yields journals in which two entries that don't touch each other changed places."""
    places = []
    for at, (one, other) in enumerate(zip(lines, lines[1:])):
        if is_step(one) and is_step(other) and one.split(" ")[1] != other.split(" ")[1]:
            if not are_ends(one, other):
                places.append(at)
    for at in chance.sample(places, min(PLACES, len(places))):
        yield exchanged(lines, at, at + 1)
