#!/usr/bin/env python3
"""Two buyers and a seller, and one is killed: two_buyer.py [--runs N] [--kills K] [--guide PROGRAM] [SEED]

Runs the session undisturbed, and then N times, 5 by default, with one of the three roles, or now and then the guide
itself, killed by SIGKILL at a drawn moment; or with K such kills. The end states have to be those of the undisturbed
run each time: they have all that each role sent and received. Prints who died and who went back. Ends with 1 where a
result differs. The guide is `rcv-guide`, or PROGRAM; what is drawn a generator of random numbers says that begins at
SEED, 1 where none is given."""
import argparse
import os
import random
import sys
import time

import rcv_guide

# The text of the example that `rcv run` plays with scripts: here the roles choose for themselves.
with open(os.path.join(os.path.dirname(os.path.abspath(__file__)), "../../examples/two_buyer.rcv")) as example:
    TEXT = example.read()


class Person(rcv_guide.Role):
    """A role that notes all it sends and receives, and saves its state now and then."""

    first = ()
    every = 1

    def behind(self, state, label, value):
        time.sleep(0.002)  # its work
        return state + ((label, value),)

    def saves(self, state, count):
        return count % self.every == 0

    def heard(self, state, label):
        return next(value for name, value in state if name == label)


class First(Person):
    every = 2

    def value(self, state, label):
        return 7 if label == "title" else self.heard(state, "quote") - 30


class Second(Person):
    every = 3

    def choose(self, state, points):
        wanted = "ok" if self.heard(state, "share") <= 60 else "quit"
        return next((point for point in points if point.label == wanted), points[0])

    def value(self, state, label):
        return 12 if label == "address" else 0


class Seller(Person):
    every = 4

    def value(self, state, label):
        return 80 if label == "quote" else 25


# The guide dies, too, but less often.
VICTIMS = [*"ABSABSABS", "guide"]
ROLES = {"A": First(), "B": Second(), "S": Seller()}


def run(command, kills=()):
    """Runs the session, and kills roles, each when so many seconds have gone. Returns the end states, the recoveries,
    and how many seconds it took."""
    left = sorted(kills)
    with rcv_guide.Session(TEXT, ROLES, command) as session:
        begin = time.monotonic()
        while not session.over():
            if left and time.monotonic() - begin >= left[0][0]:
                {**session.process, "guide": session.guide.process}[left.pop(0)[1]].kill()  # SIGKILL
            session.step(0.001)
        return session.states, session.recoveries, time.monotonic() - begin


def main():
    words = argparse.ArgumentParser(description=__doc__, formatter_class=argparse.RawDescriptionHelpFormatter)
    words.add_argument("seed", nargs="?", type=int, default=1)
    words.add_argument("--runs", type=int, default=5)
    words.add_argument("--kills", type=int, default=1)
    words.add_argument("--guide", default="rcv-guide")
    given = words.parse_args()
    command = [given.guide, "--told"]
    chance, wrong, late = random.Random(given.seed), 0, 0
    tries = [run(command) for _ in range(3)]
    wanted, seconds = tries[0][0], min(seconds for _, _, seconds in tries)
    for _ in range(given.runs):
        kills = [(chance.random() * seconds, chance.choice(VICTIMS)) for _ in range(given.kills)]
        states, recoveries, _ = run(command, kills)
        wrong += states != wanted
        late += not recoveries
        for name, back in recoveries:
            whom = ", ".join(f"{other} behind {count}" for other, (count, _) in sorted(back.items()))
            print(f"{name} was killed; back: {whom}{'' if states == wanted else '; another result'}")
    print(f"{given.runs} runs, {late} without a death of a role, {wrong} with another result")
    sys.exit(1 if wrong else 0)


if __name__ == "__main__":
    main()
