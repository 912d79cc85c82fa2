#!/usr/bin/env python3
"""Inputs of sessions for several workers: bench/sessions.py NAME [LIMIT [ROOM]] writes one to standard output.

NAME is `pipeline`, `ring8`, `star`, `lanes` or `token`, which have work in their `send` lines, a sum of 2,000 terms in
each, so that what the roles compute takes the time; or one of them behind `on_`, as `on_pipeline`, with that work in its
`on` lines; or behind `plain_`, without work, so that what is handed on takes it. But for `token` there is something to
share. All are loops that nobody leaves: they end where each role has come to the limit or waits for one that has. LIMIT
is 4000 and ROOM 64 where none is given. It needs Python 3.8 and nothing else."""
import argparse
import sys

TERMS = 2000

# Where the work stands: in what is sent, in what a role does behind it, or nowhere.
SEND, ON, NOWHERE = "send", "on", "nowhere"


def loop(messages):
    """Returns a loop of messages: triples of a label and its ends."""
    body = "".join(f"    {label}(Int) from R{sender} to R{receiver};\n" for label, sender, receiver in messages)
    return f"  rec X {{\n{body}    continue X;\n  }}\n"


def sum_of(terms):
    """Returns a sum of so many terms, which grows with each event of the role."""
    return "n+" + "+".join(["1"] * (terms - 1))


def lines_of(label, work):
    """Returns what a role's script says of a message that it sends with its work."""
    sent = sum_of(TERMS) if work == SEND else "n"
    behind = sum_of(TERMS if work == ON else 2)
    return f"send {label} = {sent}; on {label} set n = {behind};"


def bundle(messages, workers, limit, room, work, body=None):
    """Returns the input of messages among eight roles, which go round in one loop where no body is given. `workers` says
    which roles work for what they send; the others send 0."""
    roles = ", ".join(f"role R{i}" for i in range(8))
    text = f"module sessions;\n\nglobal protocol Session({roles}) {{\n{body or loop(messages)}}}\n%% scripts\n"
    for role in workers:
        lines = " ".join(lines_of(label, work) for label, sender, _ in messages if sender == role)
        text += f"role R{role} {{ var n = 0; {lines} }}\n"
    return f"{text}%% plan\nlimit {limit}\nroom {room}\n".encode()


def pipeline(limit=4000, room=64, work=SEND):
    """Eight roles in a row: each hands a number to the next, and all but the last have work. They only wait for one
    another where a channel is full or empty."""
    messages = [(f"m{i}", i, i + 1) for i in range(7)]
    return bundle(messages, range(7), limit, room, work)


def ring8(limit=4000, room=64, work=SEND):
    """Eight roles in a ring, the last first in the text: so each but R0 sends before it receives, and in each lap seven
    work side by side."""
    messages = [(f"m{i}", i, (i + 1) % 8) for i in reversed(range(8))]
    return bundle(messages, range(8), limit, room, work)


def star(limit=4000, room=64, work=SEND):
    """One role in the middle gives each of seven others a number and hears from each; the seven have the work."""
    messages = [(f"task{i}", 0, i) for i in range(1, 8)] + [(f"done{i}", i, 0) for i in range(1, 8)]
    return bundle(messages, range(1, 8), limit, room, work)


def lanes(limit=4000, room=64, work=SEND):
    """Four lanes of two roles: in each, one gives the other numbers and hears back, and both have work. No lane waits for
    another one."""
    pairs = [[(f"task{i}", i, i + 1), (f"done{i}", i + 1, i)] for i in (0, 2, 4, 6)]
    body = "  par {\n" + "  } and {\n".join(loop(pair) for pair in pairs) + "  }\n"
    return bundle([message for pair in pairs for message in pair], range(8), limit, room, work, body)


def token(limit=4000, room=64, work=SEND):
    """Eight roles in a ring, the first first in the text: so one role at a time has something to do, and nothing can be
    shared."""
    messages = [(f"m{i}", i, (i + 1) % 8) for i in range(8)]
    return bundle(messages, range(8), limit, room, work)


SHAPES = {"pipeline": pipeline, "ring8": ring8, "star": star, "lanes": lanes, "token": token}
WORK = {"": SEND, "on_": ON, "plain_": NOWHERE}
NAMES = {before + name: (shape, work) for before, work in WORK.items() for name, shape in SHAPES.items()}


def main():
    words = argparse.ArgumentParser(description=__doc__, formatter_class=argparse.RawDescriptionHelpFormatter)
    words.add_argument("name", choices=NAMES, metavar="NAME")
    words.add_argument("limit", nargs="?", type=int, default=4000)
    words.add_argument("room", nargs="?", type=int, default=64)
    given = words.parse_args()
    shape, work = NAMES[given.name]
    sys.stdout.buffer.write(shape(given.limit, given.room, work))


if __name__ == "__main__":
    main()
