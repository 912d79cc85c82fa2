"""What web/programs.js promises of `Programs`, as expressions of a page: web/test asks the page for each."""
import base64
import gzip

# ---- programs that go wrong, as modules


def leb(number):
    """Returns a number below 128 times 128 as a module has it."""
    return bytes([number]) if number < 128 else bytes([number & 127 | 128, number >> 7])


def vector(items):
    return leb(len(items)) + b"".join(items)


def section(number, items):
    content = vector(items)
    return bytes([number]) + leb(len(content)) + content


def named(name, kind, index):
    """Returns an export."""
    return leb(len(name)) + name.encode() + bytes([kind, index])


def module_of(run, room):
    """Returns a module, zipped, with the functions of a program; all but two do nothing."""
    nothing, minus_one, zero = b"", b"\x41\x7f", b"\x42\0"
    types = [b"\x60\0\0", b"\x60\1\x7e\1\x7e", b"\x60\2\x7e\x7e\0", b"\x60\0\1\x7f", b"\x60\0\1\x7e"]
    functions = {
        "run": (0, run), "room": (1, room), "words": (2, nothing), "input": (2, nothing),
        "status": (3, minus_one), "output": (4, zero), "output_length": (4, zero),
    }  # fmt: skip
    exports = [named(name, 0, index) for index, name in enumerate(functions)]
    bodies = [leb(len(code) + 2) + b"\0" + code + b"\x0b" for _, code in functions.values()]
    parts = [
        b"\0asm\1\0\0\0",
        section(1, types),
        section(3, [leb(kind) for kind, _ in functions.values()]),
        section(5, [b"\4\1"]),
        section(7, [*exports, named("memory", 2, 0)]),
        section(10, bodies),
    ]
    return base64.b64encode(gzip.compress(b"".join(parts), mtime=0)).decode()


SOME_ROOM, NO_ROOM = b"\x42\x20", b"\x42\0"
TRAPS, CALLS_ITSELF, RETURNS = b"\0", b"\x10\0", b""


def stopped(run, room=SOME_ROOM):
    """Returns an expression for what such a program's call is told, and the call behind it."""
    return f"""(async () => {{
        const wrong = await Programs.open({{ wrong: bytesOf('{module_of(run, room)}') }});
        const told = () => wrong.answer('wrong', [], '').then(() => 'it answered', (error) => error.message);
        const faults = [await told(), await told()];
        wrong.end();
        return faults.join(' / ');
    }})()"""


# ---- browsers that lack something


def without(name, other="undefined"):
    """Returns an expression for what is told where a browser has something else under a name."""
    return f"""(async () => {{
        const real = {name};
        try {{
            {name} = {other};
            await Programs.open({{}});
            return 'it opened';
        }} catch (error) {{
            return error.message;
        }} finally {{
            {name} = real;
        }}
    }})()"""


# ---- the promises

GEN = "const gen = (number) => programs.answer('rcv', ['gen', '--number', `${number}`], '');"
FAULT = "(error) => error.message"

# Of each promise the expression, and what it comes to: a value, or a pattern where that is a text.
PROMISES = {
    "calls are answered in their order": (
        f"""(async () => {{
            {GEN}
            const order = [];
            await Promise.all([400, 1, 2].map((number) => gen(number).then(() => order.push(number))));
            return order;
        }})()""",
        [400, 1, 2],
    ),
    "what waits ends with the worker, and the next call is answered": (
        f"""(async () => {{
            {GEN}
            const told = [gen(4000), gen(4000)].map((it) => it.then(() => false, (error) => error instanceof Ended));
            programs.end();
            return [...await Promise.all(told), (await programs.answer('rcv', [], '')).status];
        }})()""",
        [True, True, 1],
    ),
    "a call that is at work ends, too": (
        f"""(async () => {{
            {GEN}
            const all = Array.from({{ length: 50 }}, () => gen(4000));
            const told = all.map((it) => it.then(() => false, (error) => error instanceof Ended));
            await all[0];
            programs.end();
            return (await Promise.all(told)).pop();
        }})()""",
        True,
    ),
    "a text and its bytes are one input, and the bytes stay the caller's": (
        """(async () => {
            const text = 'module h\\u00e9;', bytes = new TextEncoder().encode(text);
            const check = async (input) => {
                const answer = await programs.answer('rcv', ['check'], input);
                return `${answer.status},${textOf(answer.bytes)}`;
            };
            const told = [await check(text), await check(bytes)];
            return [bytes.length, ...told];
        })()""",
        [11, *["2," + base64.b64encode(b"refused 10 Letter line 1\n").decode()] * 2],
    ),
    "an input too long for a journal is taken": (
        """programs.answer('rcv-show', ['journal'], new Uint8Array((1 << 27) + 1))
            .then((it) => [it.status, it.bytes.length])""",
        [7, 0],
    ),
    "there is no other program": (f"programs.answer('run', [], '').catch({FAULT})", r"There is no program run\."),
    "a word has no zero": (f"programs.answer('rcv', ['\\0'], '').catch({FAULT})", r"A word can have no zero in it\."),
    "what is no module isn't opened": (
        f"Programs.open({{ wrong: new Uint8Array(9) }}).catch({FAULT})", r"This browser can't compile wrong: .+"
    ),
    "a trap is told": (stopped(TRAPS), r"(wrong was stopped: unreachable)( / \1)"),
    "calls without end are told": (stopped(CALLS_ITSELF), r"(.* gave wrong too little memory: [^/]+)( / \1)"),
    "want of memory is told": (stopped(RETURNS, NO_ROOM), r"(.*the browser gave no memory for the input)( / \1)"),
    "want of workers is told": (without("Worker"), r"This browser can't run .* no workers\."),
    "want of what unzips is told": (without("DecompressionStream"), r"This browser can't run .* no Decompression.*"),
    "want of 64-bit memories is told": (
        without("WebAssembly.validate", "() => false"), r"This browser can't run .* no .* with 64-bit memories\."
    ),
}  # fmt: skip
