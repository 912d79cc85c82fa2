"""Whether a text is a journal of the form, for the scripts beside this file. It is written from docs/FORMATS.md alone,
and shares no code with the program."""
import re

NUMBER = r"(0|[1-9][0-9]*)"
SEND = re.compile(rf"send (\w+) {NUMBER} (\w+) (0|-?[1-9][0-9]*) @{NUMBER}", re.ASCII)
RECV = re.compile(rf"recv (\w+) {NUMBER} (\w+) (0|-?[1-9][0-9]*) @{NUMBER} <{NUMBER}", re.ASCII)
CRASH = re.compile(r"crash (\w+)", re.ASCII)
RECOVER = re.compile(rf"recover (\w+) undone {NUMBER}:((?: \w+ {NUMBER})+)", re.ASCII)
ROLE = re.compile(rf"role (\w+) kept {NUMBER} raw {NUMBER} (done|limit|waits)", re.ASCII)
LIMITED = re.compile(r"limited((?: \w+)+)", re.ASCII)
ENTRIES = ("send ", "recv ", "crash ", "recover ")


def are_small(words, bits=32):
    """Says whether numbers without a sign fit so many bits."""
    return all(int(word) < 2**bits for word in words)


def are_in_order(setup, names):
    """Says whether these are declared roles, each once and in order."""
    places = [setup.roles.index(name) if name in setup.roles else -1 for name in names]
    return places == sorted(set(places)) and places[0] >= 0


def is_event(setup, match):
    """Says whether a line of this match sends or receives: stamps stand behind its value."""
    role, point, label, value, *stamps = match.groups()
    at = int(point)
    known = role in setup.roles and 1 <= at < len(setup.points) and setup.points[at].label == label
    return known and -(2**63) <= int(value) < 2**63 and are_small(stamps, 64)


def is_entry(setup, line):
    """Says whether a line is of the form of an entry."""
    match = SEND.fullmatch(line) or RECV.fullmatch(line)
    if match:
        return is_event(setup, match)
    match = CRASH.fullmatch(line)
    if match:
        return match[1] in setup.roles
    match = RECOVER.fullmatch(line)
    if not match:
        return False
    words = match[3].split(" ")[1:]
    return match[1] in setup.roles and are_small([match[2], *words[1::2]]) and are_in_order(setup, words[::2])


def is_role(line, name):
    """Says whether a line says how the role with this name ended."""
    match = ROLE.fullmatch(line)
    return bool(match) and match[1] == name and are_small([match[2], match[3]])


def is_last(setup, line):
    """Says whether a line says how a session ended."""
    match = LIMITED.fullmatch(line)
    return line == "completed" or (bool(match) and are_in_order(setup, match[1].split(" ")[1:]))


def wrong_line(setup, text):
    """Returns the number of the first line at which a text isn't of the form, from 1, or None where it is."""
    *lines, rest = text.split("\n")
    at = 0
    while at < len(lines) and lines[at].startswith(ENTRIES) and is_entry(setup, lines[at]):
        at += 1
    for name in setup.roles:
        if at == len(lines) or not is_role(lines[at], name):
            return at + 1
        at += 1
    if at == len(lines) or not is_last(setup, lines[at]):
        return at + 1
    return None if at + 1 == len(lines) and not rest else at + 2


def entries_in(text):
    """Returns how many entries a text of the form has."""
    lines = text.split("\n")
    return next(at for at, line in enumerate(lines) if not line.startswith(ENTRIES))
