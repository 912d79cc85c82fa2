"""What the two programs answer to each example and to each of its crashes: the data of web/rcv.html.

An example is a text of examples/, also a refused one. With it come the text without its `crash` lines, and, of each
role and each of the events that it makes then, the text with a crash behind that event. The text that the page offers
to begin with, web/page/new.rcv, is one more. The answers are those of the programs that are named, byte for byte.

The data, in JSON: `lines` has each line of a text or an answer once, in one string, and a text or an answer is a list
of numbers of lines, from 0. A call is a program with its words. Of each text, `texts` has its lines, the place of the
text without a crash, which has the answers that no crash changes, and then, by turns, a call and the answer to it."""
import base64
import concurrent.futures
import glob
import gzip
import json
import os
import re
import subprocess
import sys

ROOT = os.path.dirname(os.path.dirname(os.path.abspath(__file__)))
NEW = "web/page/new.rcv"
SECONDS = 120
PLAN = "%% plan"
CRASH = re.compile(r"\s*(crash \w+ \d+)(\s*(?://.*)?)")
# Where a role saves its state after each event a crash takes nothing back: so each is tried with this line, too.
SAVED_SELDOM = 10
# What a program may answer with: a text, a refusal, a session that came to a limit.
ANSWERS = (0, 2, 3)


class Failure(Exception):
    """Why there is no data."""


# ---- the texts: web/page/plan.js changes them in the same way


def parts_of(text):
    """Returns the lines before the plan, and those of the plan behind its head, or None where there is none."""
    lines = text.split("\n")
    if PLAN not in lines:
        return lines, None
    at = lines.index(PLAN)
    return lines[:at], lines[at + 1 :]


def crashes_in(text):
    """Returns the `crash` lines of a text, by their places in its plan. Each has a line of its own."""
    plan = parts_of(text)[1] or []
    found = {at: line for at, line in enumerate(plan) if CRASH.fullmatch(line)}
    if len(found) != len(re.findall(r"\bcrash\b", re.sub(r"//.*", "", "\n".join(plan)))):
        raise Failure(f"a crash has no line of its own in\n{text}")
    return found


def calm(text):
    """Returns a text without its crashes, and without a plan that had nothing else."""
    before, plan = parts_of(text)
    crashes = crashes_in(text)
    if not crashes:
        return text
    plan = [line for at, line in enumerate(plan) if at not in crashes]
    if any(line.strip() for line in plan):
        return "\n".join([*before, PLAN, *plan])
    return "\n".join(before).rstrip("\n") + "\n"


def with_crash(text, words):
    """Returns a text with these words in the place of its crashes, or else at its end."""
    before, plan = parts_of(text)
    if plan is None:
        return f"{text}\n{PLAN}\n{words}\n"
    first, *others = [*crashes_in(text)] or [None]
    if first is None:
        return text + ("" if text.endswith("\n") else "\n") + words + "\n"
    plan[first] = words + CRASH.fullmatch(plan[first])[2]
    return "\n".join([*before, PLAN, *(line for at, line in enumerate(plan) if at not in others)])


def crash_words(text, role, number):
    """Yields the words by which a role crashes after so many events."""
    yield f"crash {role} {number}"
    if not re.search(rf"^ *every {role} ", "\n".join(parts_of(text)[1] or []), re.M):
        yield f"every {role} {SAVED_SELDOM} crash {role} {number}"


def moments(text, ends):
    """Yields the texts with one crash each, by the lines with which the journal of the calm text ends."""
    for line in crashes_in(text).values():
        yield with_crash(text, CRASH.fullmatch(line)[1])
    for role, count in ends:
        for number in range(1, count + 1):
            for words in crash_words(text, role, number):
                yield with_crash(text, words)


# ---- the answers


class Programs:
    """The two programs, and what they answered."""

    def __init__(self, rcv, rcv_show):
        self.paths = {"rcv": os.path.abspath(rcv), "rcv-show": os.path.abspath(rcv_show)}
        for path in self.paths.values():
            if not os.access(path, os.X_OK):
                raise Failure(f"there is no program {path}")

    def answer(self, call, given):
        """Returns the status and the output of a call, which is a program and its words."""
        program, *words = call.split(" ")
        words = [self.paths[program], *words]
        try:
            done = subprocess.run(words, input=given.encode(), capture_output=True, timeout=SECONDS)
        except subprocess.TimeoutExpired:
            raise Failure(f"{call}: no end after {SECONDS} seconds") from None
        if done.stderr or done.returncode not in ANSWERS:
            raise Failure(f"{call}: status {done.returncode}, {done.stderr[:200]!r}, of\n{given}")
        return done.returncode, done.stdout.decode()

    def refusal(self, text, line):
        """Returns what is answered to a text that is refused by this line."""
        called = ("rcv-show points", "rcv-show explain --code " + line.split(" ")[1])
        return {"rcv check": (2, line), **{call: self.answer(call, text) for call in called}}

    def session(self, text):
        """Returns the journal of a text, and its picture."""
        status, journal = self.answer("rcv run", text)
        drawing = self.answer("rcv-show journal", behind(text, journal))
        return {"rcv run": (status, journal), "rcv-show journal": drawing}

    def rest(self, text, checked, roles):
        """Returns what else is answered to a text that is accepted, whatever its plan says."""
        called = ["rcv table", "rcv-show table", "rcv-show protocol", "rcv-show points"]
        called += [f"{call} --role {role}" for role in roles for call in ("rcv project", "rcv-show role")]
        return {"rcv check": checked, **{call: self.answer(call, text) for call in called}}


def behind(text, journal):
    """Returns a text with a journal behind it, as `rcv-show journal` reads it."""
    return text + ("" if text.endswith("\n") else "\n") + "%% journal\n" + journal


def ends_of(journal):
    """Returns each role of a journal, and how many events it made."""
    return [(role, int(raw)) for role, raw in re.findall(r"^role (\w+) kept \d+ raw (\d+) \w+$", journal, re.M)]


# ---- all of it


def read(path):
    with open(os.path.join(ROOT, path), encoding="utf-8", newline="") as file:
        return file.read()


def shows():
    """Returns what examples/README.md says of each example, as short as it is clear."""
    rows = re.findall(r"^\| (\w+) \| (.*) \|$", read("examples/README.md"), re.M)
    return {name: re.split(r"; | \(|\. ", said)[0].replace("`", "") for name, said in rows}


def group_of(name, text):
    if name.endswith(".refused"):
        return "Refused"
    return "With a crash" if crashes_in(text) else "Without a crash"


def examples():
    """Returns the name, the group, what is said of it, and the text of each example."""
    said = shows()
    order = {name: at for at, name in enumerate(said)}
    found = []
    for path in sorted(glob.glob(os.path.join(ROOT, "examples/*.rcv"))):
        name = os.path.basename(path)[: -len(".rcv")]
        text = read(f"examples/{name}.rcv")
        short = name.split(".")[0]
        refused = os.path.exists(os.path.join(ROOT, f"examples/{name}.refused.rcv"))
        told = f"what repairs {name}.refused" if refused else said.get(short, "")
        found.append((order.get(short, len(order)), name, group_of(name, text), told, text))
    return [it[1:] for it in sorted(found)]


def answered(programs, pool, text):
    """Returns the texts of an example, each with its calls and answers, and with the text that has the other answers.

    A plan is used by `run` alone: the other calls are answered of the text without a crash."""
    checked = programs.answer("rcv check", text)
    if checked[0] == 2:
        return {text: (text, programs.refusal(text, checked[1]))}
    quiet = calm(text)
    first = programs.session(quiet)
    ends = ends_of(first["rcv run"][1])
    others = [it for it in dict.fromkeys([text, *moments(text, ends)]) if it != quiet]
    rest = pool.submit(programs.rest, quiet, programs.answer("rcv check", quiet), [role for role, _ in ends])
    found = {it: (quiet, session) for it, session in zip(others, pool.map(programs.session, others))}
    found[quiet] = (quiet, {**first, **rest.result()})
    return found


def made(programs):
    """Returns the examples, and each text with its calls and answers."""
    own = read(NEW)
    if programs.answer("rcv check", own)[0] != 0:
        raise Failure(f"{NEW} isn't accepted")
    listed = examples()
    answers = {}
    with concurrent.futures.ThreadPoolExecutor(os.cpu_count()) as pool:
        for text in [own, *(text for *_, text in listed)]:
            answers.update(answered(programs, pool, text))
    return {"new": own, "examples": listed, "answers": answers}


# ---- the form in which the page has it


def packed(data):
    """Returns the data in the page's form: JSON, zipped, in letters."""
    outputs = [output for _, called in data["answers"].values() for _, output in called.values()]
    # Sorted lines are zipped best.
    lines = sorted({line for text in [*data["answers"], *outputs] for line in text.split("\n")})
    numbers = {line: at for at, line in enumerate(lines)}
    places = {text: at for at, text in enumerate(data["answers"])}
    calls, answers, texts = {}, {}, []

    def numbered(text):
        return [numbers[line] for line in text.split("\n")]

    for text, (quiet, called) in data["answers"].items():
        row = [numbered(text), places[quiet]]
        for call, answer in called.items():
            row += [calls.setdefault(call, len(calls)), answers.setdefault(answer, len(answers))]
        texts.append(row)
    whole = {
        "new": places[data["new"]],
        "examples": [[name, group, said, places[text]] for name, group, said, text in data["examples"]],
        "calls": list(calls),
        "answers": [[status, *numbered(output)] for status, output in answers],
        "texts": texts,
        "lines": "\n".join(lines),
    }
    text = json.dumps(whole, separators=(",", ":"), ensure_ascii=False)
    return base64.b64encode(gzip.compress(text.encode(), 9, mtime=0)).decode()


def unpacked(letters):
    """Returns what `packed` was given."""
    whole = json.loads(gzip.decompress(base64.b64decode(letters)))
    lines = whole["lines"].split("\n")

    def text_of(numbers):
        return "\n".join(lines[number] for number in numbers)

    answers = [(status, text_of(numbers)) for status, *numbers in whole["answers"]]
    texts = [text_of(row[0]) for row in whole["texts"]]
    called = [{whole["calls"][call]: answers[at] for call, at in zip(row[2::2], row[3::2])} for row in whole["texts"]]
    called = [(texts[row[1]], it) for row, it in zip(whole["texts"], called)]
    return {
        "new": texts[whole["new"]],
        "examples": [(name, group, said, texts[at]) for name, group, said, at in whole["examples"]],
        "answers": dict(zip(texts, called)),
    }
