#!/usr/bin/env python3
"""Writes the journal of one worker: bench/alone.py INPUT [--sessions K] [--json]

INPUT is a file with an input that the program takes. The journal is made by the states of bench/legal.py: so it is
written from docs/SEMANTICS.md and docs/FORMATS.md alone, shares no code with the program, and is a second reading of
what the program writes. One worker makes the recovery of the least crashed role, else the crash of the least due one,
else the step of the least role that can act, until nobody is able to. With `--sessions K`, from 2 to 64, it is the
journals of K sessions, in each of which each crash line's count is one more than in the one before, or the refusal that
they are too much. Ends with the status of the program. It needs Python 3.8 and nothing else."""
import argparse
import json
import sys

sys.dont_write_bytecode = True

import legal
from json_lines import journal_of

COMPLETED, REFUSED, LIMITED = 0, 2, 3
# So many events may all sessions have together.
MOST_EVENTS = 3_200_000


def entry(state):
    """Returns the line of the next entry, and adds the entry, or None where nobody is able to."""
    roles = range(len(state.setup.roles))
    crashed = next((q for q in roles if state.crashed[q]), None)
    if crashed is not None:
        line = state.recover_line(crashed)
        state.recover(crashed)
        return line
    due = next((q for q in roles if state.due(q)), None)
    if due is not None:
        legal.crash(state, due)
        return f"crash {state.setup.roles[due]}"
    for q in roles:
        event = state.act(q)
        if event and state.has_room(q, event):
            line = state.event_line(q, event)
            state.add(q, event)
            return line
    return None


def journal(setup):
    """Returns status and text of the journal that one worker makes of a session."""
    state, lines = legal.State(setup), []
    line = entry(state)
    while line is not None:
        lines.append(line)
        line = entry(state)
    lines += state.last_lines()
    return COMPLETED if lines[-1] == "completed" else LIMITED, "".join(f"{line}\n" for line in lines)


def in_json(text):
    """Returns a journal's text as the line of JSON that says the same."""
    return json.dumps(journal_of(text), separators=(",", ":")) + "\n"


def later(given, by):
    """Returns the session of an input whose crash lines have counts that are so many more."""
    setup = legal.Setup(given)
    setup.crashes = [[count + by for count in counts] for counts in setup.crashes]
    return setup


def answer(given, sessions, as_json):
    """Returns status and output of a run of so many sessions."""
    setup = legal.Setup(given)
    if sessions > 1 and len(setup.roles) * setup.limit * sessions > MOST_EVENTS:
        return REFUSED, "refused 55 TooMuch\n"
    status, output = COMPLETED, ""
    for number in range(sessions):
        ended, text = journal(later(given, number))
        status = max(status, ended)
        heading = f"session {number + 1}\n" if sessions > 1 and not as_json else ""
        output += heading + (in_json(text) if as_json else text)
    return status, output


def main():
    words = argparse.ArgumentParser(description=__doc__, formatter_class=argparse.RawDescriptionHelpFormatter)
    words.add_argument("input")
    words.add_argument("--sessions", type=int, default=1)
    words.add_argument("--json", action="store_true")
    given = words.parse_args()
    with open(given.input, "rb") as file:
        status, output = answer(file.read(), given.sessions, given.json)
    sys.stdout.write(output)
    return status


if __name__ == "__main__":
    sys.setrecursionlimit(100000)
    sys.exit(main())
