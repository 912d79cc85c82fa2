"""told.py LIBRARY REPOSITORY: sessions told by ctypes: that of docs/GUIDE.md, as lines and as numbers; the journals of examples/;
random events, each judged as the same line is; and the refusals of examples/."""
import os
import random
import re
import sys

sys.dont_write_bytecode = True

import rcv

LIB = rcv.load(sys.argv[1])
ROOT = sys.argv[2]


def read(path):
    with open(os.path.join(ROOT, path), "rb") as file:
        return file.read()


def roles_of(text):
    found = re.search(rb"global\s+protocol\s+\w+\s*\(([^)]*)\)", text).group(1).decode()
    return [word.split()[1] for word in found.split(",")]


def by_numbers(session, roles, line):
    """What the call of an event answers, as the line's answer begins."""
    words = line.split()
    role, kind = roles.index(words[1]), words[0]
    marks = {word[0]: int(word[1:]) for word in words[2:] if word[0] in "<#"}
    sent, incarnation = marks.get("<", rcv.NONE), marks.get("#", rcv.NONE)
    if kind == "send":
        status, stamp = session.sent(role, int(words[2]), int(words[4]), incarnation)
    elif kind == "recv":
        status, stamp = session.received(role, int(words[2]), int(words[4]), sent, incarnation)
    else:
        status, stamp = session.saved(role, int(words[2]), incarnation), 0
    if status == rcv.DONE:
        return f"done @{stamp}" if stamp else "done"
    return {rcv.ILLEGAL: "illegal", rcv.STALE: "stale", rcv.MEMORY: "memory"}[status]


def begins_so(answer, start):
    return answer == start or answer.startswith(start + " ")


def the_guides():
    page = read("docs/GUIDE.md").decode()
    block = page.split("## A session")[1].split("```")[1].strip("\n").split("\n")
    block = [line.split("//")[0].rstrip() for line in block]
    start = block.index("> %% events")
    text = "".join(line[2:] + "\n" for line in block[:start]).encode()
    told, answers = [], []
    for line in block[start + 2 :]:  # (behind `ready`, which is the program's)
        if line.startswith("> "):
            told.append(line[2:])
            answers.append([])
        else:
            answers[-1].append(line)
    roles = roles_of(text)
    with rcv.Session(LIB, text) as session:
        for line, answer in zip(told, answers):
            assert session.tell(line) == "\n".join(answer), line
    with rcv.Session(LIB, text) as session:
        for line, answer in zip(told, answers):
            if line.split()[0] in ("send", "recv", "save"):
                assert begins_so(answer[0], by_numbers(session, roles, line)), line
            else:
                assert session.tell(line) == "\n".join(answer), line
    return len(told)


def journals():
    """Each event of the examples' journals is taken, as a number and as a line."""
    count = 0
    for name in sorted(os.listdir(os.path.join(ROOT, "examples"))):
        if not name.endswith(".journal"):
            continue
        text = read(f"examples/{name[:-8]}.rcv")
        lines = read(f"examples/{name}").decode().split("\n")
        roles = roles_of(text)
        with rcv.Session(LIB, text) as one, rcv.Session(LIB, text) as other:
            for line in lines:
                kind = line.split(" ")[0]
                if kind in ("send", "recv"):
                    plain = " ".join(word for word in line.split() if word[0] != "@")
                    said = by_numbers(one, roles, plain)
                    assert said.startswith("done") and begins_so(other.tell(line), said), (name, line, said)
                elif kind in ("crash", "recover"):
                    answer = other.tell(line)
                    assert answer.startswith("done") and one.tell(line) == answer, (name, line, answer)
                else:
                    continue
                count += 1
            assert one.tell("kept") == other.tell("kept")
    return count


def at_random(sessions, seed):
    """Random events, told as numbers in one session and as lines in another: both answer the same."""
    chance = random.Random(seed)
    taken = told = 0
    names = [it for it in sorted(os.listdir(os.path.join(ROOT, "examples"))) if it.endswith(".journal")]
    for name in names:
        text = read(f"examples/{name[:-8]}.rcv")
        roles = roles_of(text)
        for _ in range(sessions):
            by_plan = chance.random() < 0.5
            with rcv.Session(LIB, text, by_plan) as one, rcv.Session(LIB, text, by_plan) as other:
                points = [line.split()[1:3] for line in other.tell("points").split("\n")[1:]]
                for _ in range(150):
                    told += 1
                    role, (point, label) = chance.choice(roles), chance.choice(points)
                    kind = chance.choice(["send"] * 6 + ["recv"] * 6 + ["save", "fail"])
                    marks = f" #{chance.choice([0, 0, 0, 1, 2])}" if chance.random() < 0.3 else ""
                    if kind == "fail":
                        line = f"fail {role}={chance.randrange(4)}"
                        assert one.tell(line) == other.tell(line), line
                        continue
                    if kind == "save":
                        line = f"save {role} {chance.randrange(5)}{marks}"
                    else:
                        ahead = other.tell(f"next {role}").split()
                        if len(ahead) > 3 and chance.random() < 0.8:
                            point = chance.choice(ahead[3:])
                            label = dict(points)[point]
                            kind = "send" if ahead[2] == "sends" else "recv"
                        if kind == "recv" and chance.random() < 0.3:
                            marks = f" <{chance.randrange(12)}" + marks
                        line = f"{kind} {role} {point} {label} 0{marks}"
                    answer, said = other.tell(line), by_numbers(one, roles, line)
                    assert begins_so(answer, said), (name, line, answer, said)
                    taken += answer.startswith("done")
                assert one.tell("kept") == other.tell("kept") and one.tell("line") == other.tell("line")
    return told, taken


def refusals():
    """Each refused example says what its file does."""
    count = 0
    for name in sorted(os.listdir(os.path.join(ROOT, "examples"))):
        if not name.endswith(".refused"):
            continue
        words = read(f"examples/{name}").decode().split()
        status, why = rcv.check(LIB, read(f"examples/{name}.rcv"))
        if status == rcv.DONE:  # refused by what stands behind its text
            continue
        assert status == rcv.REFUSED and why.code == int(words[1]), name
        if words[3] == "line":
            assert (why.line, why.length) == (int(words[4]), 0), name
        else:
            assert (why.line, why.role, why.number) == (0, words[3], int(words[4])), name
        count += 1
    return count


def cases():
    """The worked dialogues of rcv_guide_cases, line by line, but for those with marks of their own, or with lines that are cut."""
    count = 0
    folder = "crates/rcv_guide_cases/data"
    for name in sorted(os.listdir(os.path.join(ROOT, folder))):
        told, _, wanted = read(f"{folder}/{name}").decode().partition("\n== status 0\n")
        words, _, told = told.partition("$ rcv-guide")[2].partition("\n")
        text, events, lines = told.partition("\n%% events\n")
        if not wanted or not events or "==" in told or "{{" in told:
            continue
        lines = lines.split("\n")
        with rcv.Session(LIB, text.encode() + b"\n", words.strip() == "--told") as session:
            said = []
            for line in lines:
                said.append(session.tell(line))
                if line == "end":
                    break
            assert "\n".join(said).strip("\n") == wanted.partition("\n")[2].strip("\n"), (name, said, wanted)
        count += len(said)
    return count


assert LIB.rcv_version() == 1
print(f"GUIDE.md: {the_guides()} lines")
print(f"journals: {journals()} lines")
print(f"cases: {cases()} lines")
print("random: %d told, %d taken" % at_random(6, 1))
print(f"refused: {refusals()}")
