"""Protocols, and plans for them that are drawn at random, for the scripts beside this file.

With several workers a session of cheap scripts is finished by one of them behind its first few turns. So some protocols
have dear scripts, whose sessions are made by several workers to their ends, and some are long enough for many turns."""
import legal

PING = """module ping; global protocol Ping(role A, role B) { ping() from A to B; pong() from B to A; }
"""
TWO_BUYER = """module shop; global protocol TwoBuyer(role A, role B, role S) {
  title(Int) from A to S; quote(Int) from S to A, B; share(Int) from A to B;
  choice at B { ok() from B to A, S; address(Int) from B to S; date(Int) from S to B; } or { quit() from B to A, S; }
}
%% scripts
role A { var q = 0; send title = 7; on quote set q = value; send share = q - 30; }
role B { var s = 0; on share set s = value; pick ok when s <= 60; pick quit; send address = 12; }
role S { send quote = 80; send date = 25; }
"""
LOOP = """module stream; global protocol Stream(role A, role B, role C) {
  rec X {
    choice at A {
      more(Int) from A to B; copy(Int) from B to C; continue X;
    } or { stop() from A to B; stop() from B to C; }
  }
}
%% scripts
role A { var n = 0; send more = n * n; on more set n = n + 1; pick more when n < 40; pick stop; }
role B { var s = 0; on more set s = s + value; send copy = s; }
"""
RING = """module ring; global protocol Ring(role A, role B, role C, role D) {
  rec X {
    choice at A {
      lap(Int) from A to B; lap(Int) from B to C; lap(Int) from C to D; back(Int) from D to A; continue X;
    } or { stop() from A to B; stop() from B to C; stop() from C to D; }
  }
}
%% scripts
role A {
  var n = 0; var v = 0; send lap = v; on lap set n = n + 1; on back set v = value + 1; pick lap when n < 25; pick stop;
}
role B { var v = 0; on lap set v = value; send lap = v; }
role C { var v = 0; on lap set v = v + value; send lap = v; }
role D { var v = 0; on lap set v = value; send back = v; }
"""
PAIRS = """module pairs; global protocol Pairs(role A, role B, role C, role D) {
  a(Int) from A to B; b(Int) from B to A; c(Int) from C to D; d(Int) from D to C;
  a2(Int) from A to B; b2(Int) from B to A; c2(Int) from C to D; d2(Int) from D to C;
  a3(Int) from A to B, D; c3(Int) from C to D, B;
}
%% scripts
role A { var n = 3; send a = n; on b set n = n * value; send a2 = n; on b2 set n = n - value; send a3 = n; }
role B { var n = 5; on a set n = n + value; send b = n; on a2 set n = n - value; send b2 = n; }
role C { var n = 7; send c = n; on d set n = n * value; send c2 = n; on d2 set n = n - value; send c3 = n; }
role D { var n = 9; on c set n = n + value; send d = n; on c2 set n = n - value; send d2 = n; }
"""
ENDLESS = """module lanes; global protocol Lanes(role A, role B, role C, role D) {
  rec X { m(Int) from A to B; n(Int) from C to D; o(Int) from B to C; continue X; }
}
%% scripts
role A { var n = 0; send m = n; on m set n = n + 1; }
role B { var s = 0; on m set s = s + value; send o = s; }
role C { var s = 1; send n = s; on o set s = s - value; }
"""
BESIDE = """module beside; global protocol Beside(role A, role B, role C, role D) {
  start(Int) from A to C;
  par {
    rec X { choice at A { more(Int) from A to B; sum(Int) from B to A; continue X; } or { last(Int) from A to B; } }
  } and {
    c(Int) from C to D; d(Int) from D to C; c2(Int) from C to D; d2(Int) from D to C;
  }
  end(Int) from B to D; both(Int) from D to A, C;
}
%% scripts
role A { var n = 4; send start = n; on sum set n = n - 1; send more = n; send last = 0; pick more when n > 0; pick last; }
role B { var s = 0; on more set s = s + value; send sum = s; send end = s; }
role C { var n = 1; on start set n = value; on d set n = n * value; send c = n; send c2 = n; }
role D { var n = 9; on c set n = n + value; send d = n; on c2 set n = n - value; send d2 = n; on end set n = n + value; send both = n; }
"""


LONG = LOOP.replace("n < 40", "n < 400")

# What makes an expression dear, and changes no number: more operators than a cheap script has.
DEAR = " + 0" * 250


def dear(text, *lines):
    """Returns a protocol in whose scripts the expressions of these lines are dear."""
    for line in lines:
        assert text.count(f"{line};") == 1
        text = text.replace(f"{line};", f"{line}{DEAR};")
    return text


class Shape:
    """A protocol with its roles, and how many events a role of it makes at most without a crash."""

    def __init__(self, name, text, events):
        self.name, self.text, self.events = name, text, events
        self.roles = legal.Setup(text.encode()).roles


SHAPES = [
    Shape("ping", PING, 2),
    Shape("two buyers", TWO_BUYER, 8),
    Shape("a loop with a choice", LOOP, 82),
    Shape("a ring", RING, 51),
    Shape("two pairs", PAIRS, 6),
    Shape("endless", ENDLESS, None),
    Shape("lanes", BESIDE, 11),
    Shape("two buyers, dear", dear(TWO_BUYER, "send share = q - 30", "send quote = 80"), 8),
    Shape("a loop with a choice, dear", dear(LOOP, "send more = n * n", "send copy = s"), 82),
    Shape("a ring, dear", dear(RING, "on lap set v = v + value", "on back set v = value + 1"), 51),
    Shape("two pairs, dear", dear(PAIRS, "on a set n = n + value", "on b set n = n * value"), 6),
    Shape("endless, dear", dear(ENDLESS, "on m set n = n + 1", "on o set s = s - value"), None),
    Shape("lanes, dear", dear(BESIDE, "send sum = s", "send c = n"), 11),
    Shape("a long loop", LONG, 802),
    Shape("a long loop, dear", dear(LONG, "send copy = s"), 802),
]


def plan(shape, chance, small=False):
    """Returns a plan for a protocol. With several workers it hangs on who was faster how often an event is undone, and
    so does who comes to a small limit: unless such limits are asked for, a protocol that ends has one that nobody comes
    to, or no crashes."""
    lines, crashes = [], chance.random() < 0.85
    events = shape.events or 60
    for role in shape.roles:
        if chance.random() < 0.7:
            lines.append(f"every {role} {chance.choice([1, 2, 3, 5, 10, 100])}")
        if crashes:
            many = 12 if events > 100 else min(5, events)
            counts = chance.sample(range(2 * events), chance.choice([0, 0, 1, 1, 2, many]))
            lines += [f"crash {role} {count}" for count in counts]
    hosts = list(shape.roles)
    chance.shuffle(hosts)
    while len(hosts) >= 2 and chance.random() < 0.4:
        size = chance.randint(2, len(hosts))
        lines.append(f"host h{len(hosts)} = {', '.join(hosts[:size])}")
        hosts = hosts[size:]
    if chance.random() < 0.6:
        lines.append(f"room {chance.choice([1, 1, 2, 3, 64, 1024])}")
    if shape.events is None:
        lines.append(f"limit {chance.randint(1, 200)}")
    elif (small or not crashes) and chance.random() < 0.5:
        lines.append(f"limit {chance.randint(1, 2 * events)}")
    chance.shuffle(lines)
    return "".join(f"{line}\n" for line in lines)
