"""Journals in lines and in JSON, each made of the other, for the scripts beside this file. It is written from
docs/FORMATS.md alone."""
import re

SEND = re.compile(r"(send) (\w+) (\d+) (\w+) (-?\d+) @(\d+)")
RECV = re.compile(r"(recv) (\w+) (\d+) (\w+) (-?\d+) @(\d+) <(\d+)")
CRASH = re.compile(r"(crash) (\w+)")
RECOVER = re.compile(r"(recover) (\w+) undone (\d+):((?: \w+ \d+)+)")
ROLE = re.compile(r"role (\w+) kept (\d+) raw (\d+) (\w+)")


def value_of(word):
    """Returns a word of a line as it stands in JSON."""
    return int(word) if re.fullmatch(r"-?\d+", word) else word


def entry_of(line):
    """Returns what an entry's line is in JSON."""
    for form in (SEND, RECV, CRASH):
        match = form.fullmatch(line)
        if match:
            return [value_of(word) for word in match.groups()]
    word, role, undone, cuts = RECOVER.fullmatch(line).groups()
    words = cuts.split()
    return [word, role, int(undone), [[name, int(kept)] for name, kept in zip(words[::2], words[1::2])]]


def role_of(line):
    """Returns what a role's line is in JSON."""
    name, kept, raw, word = ROLE.fullmatch(line).groups()
    return [name, int(kept), int(raw), word]


def journal_of(text):
    """Returns what a journal is in JSON."""
    *lines, last = text.split("\n")[:-1]
    return {
        "entries": [entry_of(line) for line in lines if not line.startswith("role ")],
        "limited": last.split()[1:],
        "roles": [role_of(line) for line in lines if line.startswith("role ")],
    }


def line_of(entry):
    """Returns the line of an entry in JSON."""
    if entry[0] == "send":
        return "send {1} {2} {3} {4} @{5}".format(*entry)
    if entry[0] == "recv":
        return "recv {1} {2} {3} {4} @{5} <{6}".format(*entry)
    if entry[0] == "crash":
        return "crash {1}".format(*entry)
    return "recover {1} undone {2}:".format(*entry) + "".join(f" {name} {kept}" for name, kept in entry[3])


def text_of(journal):
    """Returns the lines of a journal in JSON."""
    lines = [line_of(entry) for entry in journal["entries"]]
    lines += ["role {} kept {} raw {} {}".format(*role) for role in journal["roles"]]
    lines.append(" ".join(["limited", *journal["limited"]]) if journal["limited"] else "completed")
    return "".join(line + "\n" for line in lines)
