#!/usr/bin/env python3
"""Judges told events line by line: bench/guide.py [--told]

Answers the dialogue of docs/GUIDE.md over standard input and output, as `rcv-guide` does. It is written from that page
over bench/legal.py, and shares no code with the program. It takes a text that the program takes: of the refusals it
knows 57 alone. It keeps every event, so its memory grows; it takes no snapshot, and gives none: their lines are illegal
to it. It needs Python 3.8 and nothing else."""
import bisect
import contextlib
import re
import sys

sys.dont_write_bytecode = True

import legal

LONGEST_LINE, LONGEST_TEXT = 2048, 1048576
DONE, USAGE, REFUSED, WRITE_FAULT, TOO_LONG, HALF = 0, 1, 2, 5, 7, 9
UNSIGNED, SIGNED = re.compile(r"0|[1-9][0-9]*"), re.compile(r"0|-?[1-9][0-9]*")


class Wrong(Exception):
    """A line isn't of the grammar: at which of its words, from 1, and what would have to stand there."""


class Illegal(Exception):
    """A line that may not come, and its cause."""


class Stale(Exception):
    """A line tells what was taken back or received before, and which of both."""


class Refused(Exception):
    """The text isn't one of a guide: the answer."""


class Words:
    """The words of a line, from the first one on."""

    def __init__(self, line, setup):
        self.list, self.at, self.setup = line.split(" "), 0, setup

    def front(self):
        return self.list[self.at] if self.at < len(self.list) else None

    def wrong(self, wanted):
        return Wrong(f"{self.at + 1} {wanted}")

    def take(self, words, wanted):
        """Takes one of these, and returns it."""
        word = self.front()
        if word not in words:
            raise self.wrong(wanted)
        self.at += 1
        return word

    def end(self):
        if self.front() is not None:
            raise self.wrong("end")

    def role(self):
        return self.setup.roles.index(self.take(self.setup.roles, "role"))

    def number(self, wanted, mark=""):
        """Takes an unsigned number with a mark in front."""
        word = self.front() or ""
        if not word.startswith(mark) or not is_number(word[len(mark) :]):
            raise self.wrong(wanted)
        self.at += 1
        return int(word[len(mark) :])

    def marked(self, wanted, mark):
        """Takes a number with a mark, where it is in front, else answers None."""
        return self.number(wanted, mark) if (self.front() or "").startswith(mark) else None

    def message(self):
        """Takes a point, its label and a value."""
        points = self.setup.points
        point = int(self.take([str(number) for number in range(1, len(points))], "point"))
        self.take([points[point].label], "label")
        word = self.front() or ""
        if not SIGNED.fullmatch(word) or not legal.LEAST <= int(word) <= legal.GREATEST:
            raise self.wrong("value")
        self.at += 1
        return point, int(word)

    def failed(self):
        """Takes a role, and behind `=` how many of its events it has saved, or None."""
        name, sign, count = (self.front() or "").partition("=")
        if name not in self.setup.roles:
            raise self.wrong("role")
        if sign and not is_number(count):
            raise self.wrong("count")
        self.at += 1
        return self.setup.roles.index(name), int(count) if sign else None

    def all_failed(self, ends=()):
        """Takes roles with their counts, each once, to the end or to one of these words behind the first role."""
        found = dict([self.failed()])
        while self.front() is not None and self.front() not in ends:
            if len(found) == len(self.setup.roles):
                raise self.wrong("end")
            role, count = self.failed()
            if role in found:
                self.at -= 1
                raise self.wrong("role")
            found[role] = count
        return found

    def recovery(self):
        """Takes `undone N:`, and each concerned role with its count, in order; and returns these words."""
        begin, found = self.at, []
        self.take(["undone"], "undone")
        word = self.front() or ""
        if not word.endswith(":") or not is_number(word[:-1]):
            raise self.wrong("undone")
        self.at += 1
        while self.front() is not None or not found:
            if len(found) == len(self.setup.roles):
                raise self.wrong("end")
            role = self.role()
            if found and role <= found[-1]:
                self.at -= 1
                raise self.wrong("role")
            self.number("count")
            found.append(role)
        return " ".join(self.list[begin:])


def is_number(word):
    """Says whether a word is an unsigned number of 64 bits."""
    return bool(UNSIGNED.fullmatch(word)) and int(word) < 2**64


def again(words):
    """Takes what stands behind `again`."""
    kind = words.take(AGAIN, "again")
    AGAIN[kind](words)
    words.end()


def again_session(words):
    for name in ("told", "room"):
        words.take([name], name)
        words.number("count")


def again_role(words):
    words.role()
    for name in ("kept", "raw"):
        words.take([name], name)
        words.number("count")
    words.take(["at"], "at")
    words.take(list(map(str, range(len(words.setup.points)))), "point")
    words.take(["clock"], "clock")
    words.number("stamp")
    words.take(["attempt"], "attempt")
    words.number("count")
    words.take(["up", "down"], "up")
    words.number("incarnation", "#")


def again_flight(words):
    words.role()
    again_send(words)


def again_send(words):
    words.role()
    words.message()
    words.number("stamp", "@")


def again_recv(words):
    again_send(words)
    words.number("sent", "<")


def again_save(words):
    words.role()
    words.number("count")


AGAIN = {
    "session": again_session,
    "role": again_role,
    "flight": again_flight,
    "send": again_send,
    "recv": again_recv,
    "save": again_save,
}


class Guide(legal.State):
    """A session whose roles run elsewhere. Where `told` is set, they have saved what is told; else they also save behind
    each multiple of their `every`."""

    def __init__(self, setup, told):
        super().__init__(setup)
        self.told = told
        self.incarnation = [0 for _ in setup.roles]
        self.saves = [[] for _ in setup.roles]  # told counts, ascending
        self.found = {}  # what was found to be saved, while a failure is told
        self.ended = False

    def saved(self, role, count):
        if role in self.found:
            return min(self.found[role], count)
        told = self.saves[role][: bisect.bisect_right(self.saves[role], count)]
        return max(0 if self.told else super().saved(role, count), told[-1] if told else 0)

    # Answers. The first line, and further ones.

    def answer(self, line):
        """Returns the lines of the answer to a line."""
        words = Words(line, self.setup)
        try:
            word = words.take(ANSWERS, "line")
            first, *more = ANSWERS[word](self, words) or ["done"]
        except Wrong as reason:
            return [f"wrong {reason}"]
        except Illegal as reason:
            return [f"illegal {reason}"]
        except Stale as reason:
            return [f"stale {reason}"]
        return [f"{first} +{len(more)}" if more or word in LISTS else first, *more]

    # Told events.

    def check_incarnation(self, role, told):
        if told is not None and told < self.incarnation[role]:
            raise Stale(f"incarnation {self.incarnation[role]}")
        if told is not None and told > self.incarnation[role]:
            raise Illegal(f"incarnation {self.incarnation[role]}")

    def check_up(self, role):
        if self.crashed[role]:
            raise Illegal("down")

    def turn(self, role):
        """Returns what is next for a role, in words."""
        points = self.next_points(role)
        if not points:
            return "over"
        sends = self.setup.points[points[0]].sender == role
        return " ".join(["sends" if sends else "receives", *map(str, points)])

    def check_turn(self, role, point, end):
        if point not in self.next_points(role) or end != role:
            raise Illegal(f"turn {self.turn(role)}")

    def check_front(self, role, point, value, sent):
        """Returns the message that is received, or says what lies there."""
        front = self.front(self.setup.points[point].sender, role)
        if front is None:
            raise Illegal("front none")
        if (front.point, front.value) != (point, value) or sent not in (None, front.stamp):
            raise Illegal(f"front {self.message_words(front)}")
        return front

    def is_old(self, role, point, sent):
        """Says whether a message with this stamp was received before or taken back: stamps grow in a channel."""
        sender = self.setup.points[point].sender
        front = self.front(sender, role)
        return sent < front.stamp if front else sent <= self.clock[sender]

    def send(self, words):
        role = words.role()
        point, value = words.message()
        stamp = words.marked("stamp", "@")
        incarnation = words.marked("incarnation", "#")
        words.end()
        self.check_incarnation(role, incarnation)
        self.check_up(role)
        self.check_turn(role, point, self.setup.points[point].sender)
        self.check_stamp(stamp, self.clock[role] + 1)
        self.add(role, legal.Event(True, point, value, self.clock[role] + 1, None, None))
        return [f"done @{self.clock[role]}"]

    def recv(self, words):
        role = words.role()
        point, value = words.message()
        stamp = words.marked("stamp", "@")
        sent = words.marked("sent", "<")
        incarnation = words.marked("incarnation", "#")
        words.end()
        self.check_incarnation(role, incarnation)
        self.check_up(role)
        if self.setup.points[point].receiver == role and sent is not None and self.is_old(role, point, sent):
            raise Stale("message")
        self.check_turn(role, point, self.setup.points[point].receiver)
        front = self.check_front(role, point, value, sent)
        self.check_stamp(stamp, max(self.clock[role], front.stamp) + 1)
        stamp = max(self.clock[role], front.stamp) + 1
        self.add(role, legal.Event(False, point, value, stamp, front.stamp, None))
        return [f"done @{stamp} <{front.stamp}"]

    def check_stamp(self, told, stamp):
        if told not in (None, stamp):
            raise Illegal(f"stamp {stamp}")

    def save(self, words):
        role = words.role()
        count = words.number("count")
        incarnation = words.marked("incarnation", "#")
        words.end()
        self.check_incarnation(role, incarnation)
        self.check_up(role)
        if count > len(self.kept[role]):
            raise Illegal(f"count {len(self.kept[role])}")
        place = bisect.bisect_left(self.saves[role], count)
        if self.saves[role][place : place + 1] != [count]:
            self.saves[role].insert(place, count)

    # Told failures.

    def crash(self, words):
        role = words.role()
        words.end()
        self.check_up(role)
        self.crashed[role] = True

    def recover_told(self, words):
        found = words.all_failed(ends=["undone"])
        told = words.recovery() if words.front() is not None else None
        role = next(iter(found))
        if not self.crashed[role]:
            raise Illegal("up")
        if not set(found) <= self.setup.group[role]:
            raise Illegal("host")
        self.check_line(found)
        with self.finding(found):
            keeps, concerned = self.recovery(role)
        line = self.undone_words(keeps, concerned, map(len, self.kept))
        if told not in (None, line):
            raise Illegal(f"recovery {line}")
        return self.taken_back([role], found)

    def fail(self, words):
        found = words.all_failed()
        self.check_line(found)
        return self.taken_back(found, found)

    def check_line(self, found):
        line = self.stable_line()
        for role, count in found.items():
            if count is not None and count < line[role]:
                raise Illegal(f"line {self.setup.roles[role]} {line[role]}")

    @contextlib.contextmanager
    def finding(self, found):
        """Within it these roles have saved what was found, where a count stands there."""
        self.found = {role: count for role, count in found.items() if count is not None}
        yield
        self.found = {}

    def taken_back(self, failed, found):
        """Takes back what these failures do, one behind another, and returns the answer. A role fails with its host."""
        before, incarnations = [len(events) for events in self.kept], list(self.incarnation)
        concerned, gone = set(), set()
        for role in failed:
            if role not in gone:
                gone |= self.setup.group[role]
                with self.finding(found):
                    concerned |= self.fail_one(role)
        keeps = [len(events) for events in self.kept]
        back = [q for q, old in enumerate(incarnations) if self.incarnation[q] > old]
        answer = [f"done {self.undone_words(keeps, concerned, before)}"]
        answer += [f"back {self.setup.roles[q]} {keeps[q]} #{self.incarnation[q]}" for q in back]
        return answer + self.in_flight(back)

    def fail_one(self, role):
        """Takes back what the failure of a role does, and returns whom it concerns."""
        counts = [len(events) for events in self.kept]
        concerned = self.recovery(role)[1]
        self.recover(role)
        for q, count in enumerate(counts):
            if q in self.setup.group[role] or len(self.kept[q]) < count:
                self.incarnation[q] += 1
                del self.saves[q][bisect.bisect_right(self.saves[q], len(self.kept[q])) :]
        return concerned

    def undone_words(self, keeps, concerned, before):
        names = "".join(f" {self.setup.roles[q]} {keeps[q]}" for q in sorted(concerned))
        return f"undone {sum(before) - sum(keeps)}:{names}"

    def restore(self, words):
        again(words)
        raise Illegal("again")

    # Questions.

    def in_flight(self, receivers):
        """Returns the messages to these roles that are on their way: by receiver, then by sender, then in order."""
        found = []
        for receiver in sorted(receivers):
            for sender in range(len(self.setup.roles)):
                sent, taken = self.sent[sender, receiver], self.taken[sender, receiver]
                for place in sent[len(taken) :]:
                    event = self.kept[sender][place]
                    names = f"{self.setup.roles[sender]} {self.setup.roles[receiver]}"
                    found.append(f"flight {names} {self.message_words(event)}")
        return found

    def message_words(self, event):
        return f"{event.point} {self.setup.points[event.point].label} {event.value} @{event.stamp}"

    def ask_next(self, words):
        role = words.role()
        words.end()
        return [f"next {self.setup.roles[role]} {'down' if self.crashed[role] else self.turn(role)}"]

    def ask_kept(self, words):
        words.end()
        return [self.counted("kept", map(len, self.kept))]

    def ask_line(self, words):
        words.end()
        return [self.counted("line", self.stable_line())]

    def counted(self, word, counts):
        return " ".join([word, *(f"{name} {count}" for name, count in zip(self.setup.roles, counts))])

    def ask_role(self, words):
        role = words.role()
        words.end()
        return [f"{self.role_line(role)} #{self.incarnation[role]}"]

    def role_line(self, role):
        word = "down" if self.crashed[role] else "waits" if self.next_points(role) else "done"
        return f"role {self.setup.roles[role]} kept {len(self.kept[role])} raw {self.raw[role]} {word}"

    def ask_flight(self, words):
        receivers = {words.role()} if words.front() is not None else set(range(len(self.setup.roles)))
        words.end()
        return ["flight", *self.in_flight(receivers)]

    def ask_points(self, words):
        words.end()
        roles = self.setup.roles
        lines = [f"{n} {p.label} {roles[p.sender]} {roles[p.receiver]}" for n, p in enumerate(self.setup.points) if p]
        return ["points", *(f"point {line}" for line in lines)]

    def ask_table(self, words):
        words.end()
        return ["table", *table(self.setup)]

    def ask_end(self, words):
        words.end()
        self.ended = True
        lines = [self.role_line(q) for q in range(len(self.setup.roles))]
        return ["end", *lines, "completed" if all(line.endswith(" done") for line in lines) else "open"]


LISTS = {
    "flight": Guide.ask_flight,
    "points": Guide.ask_points,
    "table": Guide.ask_table,
    "end": Guide.ask_end,
}
ANSWERS = {
    "send": Guide.send,
    "recv": Guide.recv,
    "save": Guide.save,
    "crash": Guide.crash,
    "recover": Guide.recover_told,
    "fail": Guide.fail,
    "again": Guide.restore,
    "next": Guide.ask_next,
    "kept": Guide.ask_kept,
    "line": Guide.ask_line,
    "role": Guide.ask_role,
    **LISTS,
}


def table(setup):
    """Returns the lines of the table of a protocol."""
    lines = []
    for role, name in enumerate(setup.roles):
        for point in range(1, len(setup.points)):
            if setup.is_of(role, point):
                found = restarts(setup, role, point)
                whom = "".join(f" {setup.roles[q]}={','.join(map(str, sorted(found[q])))}" for q in sorted(found))
                lines.append(f"fail {name} {point}:{whom}")
    return lines


def restarts(setup, role, point):
    """Returns for each role that is marked along some walk from the point the points at which it is marked first."""
    found, seen, left = {role: {point}}, set(), [(point, frozenset([role]))]
    while left:
        p, marks = left.pop()
        ends = setup.points[p]
        if ends.sender in marks and ends.receiver not in marks:
            found.setdefault(ends.receiver, set()).add(p)
            marks |= {ends.receiver}
        if (p, marks) not in seen:
            seen.add((p, marks))
            left += [(q, marks) for q in setup.offers[p] or setup.behind[setup.lane_of[p]]]
    return found


def read_text(source):
    """Returns the text in front of the line `%% events`, or None where it is too long."""
    text = b""
    while len(text) <= LONGEST_TEXT:
        line = source.readline(LONGEST_TEXT + 2)
        if not line:
            raise Refused("refused 57 NoEvents")
        if line in (b"%% events\n", b"%% events\r\n"):
            return text
        text += line
    return None


def read_line(source):
    """Returns the next line without its end; an empty text at the end of the input, and a half line as it stands."""
    line = source.readline(LONGEST_LINE + 1)
    if len(line) <= LONGEST_LINE or line.endswith(b"\n"):
        return line
    while True:
        more = source.readline(65536)
        if not more:
            return b"x"  # a half line
        if more.endswith(b"\n"):
            return line + b"\n"


def write(sink, lines):
    sink.write("".join(f"{line}\n" for line in lines).encode("latin-1"))
    sink.flush()


def dialogue(guide, source, sink):
    """Answers lines to the end, and returns the status."""
    while not guide.ended:
        line = read_line(source)
        if not line:
            return DONE
        if not line.endswith(b"\n"):
            return HALF
        if len(line) > LONGEST_LINE + 1:
            write(sink, ["wrong long"])
            continue
        write(sink, guide.answer(line[:-1].decode("latin-1")))
    return DONE


def main():
    sys.setrecursionlimit(100000)
    source, sink = sys.stdin.buffer, sys.stdout.buffer
    if sys.argv[1:] not in ([], ["--told"]):
        write(sink, ["usage: rcv-guide [--told]"])
        return USAGE
    try:
        text = read_text(source)
        if text is None or len(text) > LONGEST_TEXT:
            return TOO_LONG
        guide = Guide(legal.Setup(text), len(sys.argv) == 2)
    except Refused as reason:
        write(sink, [str(reason)])
        return REFUSED
    except legal.Unreadable as reason:
        write(sink, [f"refused: {reason}"])
        return REFUSED
    try:
        write(sink, [" ".join(["ready 1", *guide.setup.roles])])
        return dialogue(guide, source, sink)
    except BrokenPipeError:
        sys.stdout = None
        return WRITE_FAULT


if __name__ == "__main__":
    sys.exit(main())
