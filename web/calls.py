"""The calls by which web/test compares the programs: which program, with which words, on which input."""
import collections
import glob
import importlib.machinery
import importlib.util
import os
import re
import sys

ROOT = os.path.dirname(os.path.dirname(os.path.realpath(__file__)))
# How many bytes an input may have.
MOST = 1 << 20

Call = collections.namedtuple("Call", "name program words input")


def file_at(path):
    with open(f"{ROOT}/{path}", "rb") as it:
        return it.read()


def gate_module(name):
    """Returns the module in a file of .ci/, whose name has no ending."""
    folder = f"{ROOT}/.ci"
    if folder not in sys.path:
        sys.path.insert(0, folder)
    loader = importlib.machinery.SourceFileLoader(name, f"{folder}/{name}")
    module = importlib.util.module_from_spec(importlib.util.spec_from_loader(name, loader))
    loader.exec_module(module)
    return module


def examples():
    """Yields the name and the text of each example."""
    for path in sorted(glob.glob(f"{ROOT}/examples/*.rcv")):
        name = os.path.basename(path)
        yield name[: -len(".rcv")], file_at(f"examples/{name}")


def roles_of(text):
    """Returns the roles that an example declares."""
    return [it.decode() for it in re.findall(rb"role (\w+)", re.search(rb"protocol[^{]*", text)[0])]


def calls_on(name, text, roles):
    """Yields a call of each command that reads a text."""
    words = [("rcv", it.split()) for it in ("check", "table", "run", "run --json")]
    words += [("rcv", ["project", "--role", it]) for it in roles]
    words += [("rcv-show", [it]) for it in ("points", "table", "protocol", "journal")]
    words += [("rcv-show", ["role", "--role", it]) for it in roles]
    for program, own in words:
        yield Call(f"{' '.join(own)} of {name}", program, own, text)


def with_journal(text, journal):
    """Returns the input for which rcv-show draws a journal."""
    return text + (b"" if text.endswith(b"\n") else b"\n") + b"%% journal\n" + journal


def drawing_of(name, text, native):
    """Yields the call that draws the journal of a text's session, unless the text is refused."""
    ran = native.answer(Call("", "rcv", ["run"], text))
    if ran.status in (0, 3):
        yield Call(f"journal of {name}", "rcv-show", ["journal"], with_journal(text, ran.output))


def example_calls(native):
    """Yields a call of each command on each example, refused ones too."""
    for name, text in examples():
        yield from calls_on(name, text, roles_of(text))
        yield from drawing_of(name, text, native)


def without_crashes(text):
    """Returns a text without the crashes of its plan, and with a plan, if an empty one."""
    bundle, _, plan = text.partition(b"%% plan\n")
    bundle += b"" if bundle.endswith(b"\n") else b"\n"
    return bundle + b"%% plan\n" + re.sub(rb"\bcrash\s+\w+\s+\d+", b"", plan)


def crash_calls(native):
    """Yields each example with a crash of one role behind each event that it makes where nobody crashes."""
    for name, text in examples():
        calm = without_crashes(text)
        journal = native.answer(Call("", "rcv", ["run"], calm)).output
        for role, count in re.findall(rb"^role (\w+) kept \d+ raw (\d+)", journal, re.M):
            for number in range(1, int(count) + 1):
                crashed = calm + b"crash %s %d\n" % (role, number)
                told = f"{name}, crash {role.decode()} {number}"
                yield Call(f"run of {told}", "rcv", ["run"], crashed)
                yield from drawing_of(told, crashed, native)


def case_calls():
    """Yields the cases of the gate, and each other command on their refused texts."""
    for name, words, text, status, _ in gate_module("cases").cases():
        yield Call(f"case {name}", "rcv", words, text)
        if status == 2:
            yield from calls_on(name, text, [])


def picture_calls():
    """Yields the gate's calls of rcv-show, and the explanation of each code that there is, and of some more."""
    gate = gate_module("pictures")
    for calls in gate.word_calls, gate.code_calls, gate.chart_calls, gate.journal_calls, gate.example_calls:
        for name, words, text, *_ in calls():
            yield Call(f"picture {name}", "rcv-show", words, text)
    for code in range(10, 52):
        yield Call(f"explain {code}", "rcv-show", ["explain", "--code", str(code)], b"")


def input_calls():
    """Yields calls on inputs that are no texts, or as long as a text may be."""
    ping = file_at("examples/ping.rcv")
    texts = {
        "nothing": b"",
        "zeros": bytes(1000),
        "each byte": bytes(range(256)) * 64,
        "bytes that are no UTF-8": ping.replace(b"ping", b"\xff\xfe\xc3\x28"),
        "letters that aren't ASCII": ping.replace(b"ping", "p\u00eeng".encode()),
        "the longest text": ping + b" " * (MOST - len(ping)),
        "a text too long": ping + b" " * (MOST - len(ping) + 1),
        "the longest word": b"A" * MOST,
        "the most lines": b"\n" * MOST,
        "the most blocks": b"module m;" + b"{" * (MOST - 9),
    }
    for name, text in texts.items():
        yield from calls_on(name, text, ["A", "Nobody"])


def word_calls():
    """Yields calls with words that are no command, and with some that are."""
    ping = file_at("examples/ping.rcv")
    words = ["", "run", "--json", "--workers", "9", "--role", "A", "--role=A", "--number", "7", "--code", "explain"]
    pairs = [[first, second] for first in words for second in words]
    for program in ("rcv", "rcv-show"):
        for own in [*pairs, ["r\u00f4le", "\U0001f600"], ["x" * 100000]]:
            yield Call(f"words {' '.join(own)[:40]}", program, own, ping)


def all_calls(native):
    """Returns all calls, each once."""
    parts = example_calls(native), crash_calls(native), case_calls(), picture_calls(), input_calls(), word_calls()
    calls = {}
    for call in (it for part in parts for it in part):
        calls.setdefault((call.program, tuple(call.words), call.input), call)
    return [*calls.values()]


def greatest_text():
    """Returns a text whose session comes to every limit: eight roles in a ring that nobody leaves."""
    roles = "ABCDEFGH"
    head = f"module m;\nglobal protocol P({', '.join(f'role {it}' for it in roles)}) {{\nrec X {{\n"
    ring = "".join(f"go(int) from {a} to {b};\n" for a, b in zip(roles, roles[1:] + roles[0]))
    plan = "%% plan\nlimit 100000 room 1024\n" + "".join(f"crash {it} 99990\n" for it in roles)
    return f"{head}{ring}continue X;\n}}\n}}\n{plan}".encode()
