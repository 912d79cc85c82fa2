"""Roles as processes, and who goes back where one dies: a module over `rcv-guide`.

`Guide` talks to a guide process by the dialogue of docs/GUIDE.md. `Session` runs the roles of a protocol as processes
of `multiprocessing`, carries their messages, keeps their saved states, and does what the guide says where one dies. It
needs Python 3.8 and nothing else, and a system with `fork`."""
import collections
import multiprocessing
import multiprocessing.connection
import subprocess

# How a guide is started, if nobody says otherwise: one whose roles have saved what they tell.
COMMAND = ("rcv-guide", "--told")
# So many lines that were taken are kept at least, before a snapshot takes their place.
FEW = 1000

# The guide


class Illegal(Exception):
    """A role broke the protocol, or a line was told in a wrong order: the line and the guide's answer."""


class Stale(Exception):
    """What was told is old news, to be dropped."""


class TooMany(Exception):
    """A role died too often: its name."""


class Refused(Exception):
    """The guide doesn't take the text: its refusal, as docs/FORMATS.md has it."""


Point = collections.namedtuple("Point", "number label sender receiver")
Message = collections.namedtuple("Message", "sender receiver point label value stamp")
Back = collections.namedtuple("Back", "count incarnation")


class Guide:
    """A guide process. Each call is a line of the dialogue. Use it in a `with`, or `close` it."""

    def __init__(self, text, command=COMMAND):
        """Starts a guide of a text: a protocol, and a plan with `host` lines if you like. Raises `Refused`."""
        self.text, self.command = text.encode(), command
        self.taken = []  # what a new guide is told, should this one die
        self.most = FEW  # so many lines of that are kept
        self._start()
        words = [line.split(" ") for line in self.tell("points")[1:]]
        self.points = {int(number): Point(int(number), label, s, r) for _, number, label, s, r in words}

    def tell(self, line):
        """Tells a line, and returns the lines of the answer. Raises `Illegal`, `Stale`, `ValueError` or `MemoryError`.
        A guide that has died is followed by a new one, which is told all that was taken, and then the line."""
        try:
            answer = self._ask(line)
        except (EOFError, OSError):
            self._close()
            self._start()
            answer = self._ask(line)
        kind, _, rest = answer[0].partition(" ")
        if kind == "illegal":
            raise Illegal(f"{line}: {rest}")
        if kind == "stale":
            raise Stale(rest)
        if kind == "wrong":
            raise ValueError(f"{line}: {answer[0]}")
        if kind == "memory":
            raise MemoryError(line)
        if kind == "done":
            self.taken.append(line)
            self._shorten()
        return answer

    def _shorten(self):
        """Keeps a snapshot in place of lines that were taken, where these are many."""
        if len(self.taken) < self.most:
            return
        try:
            first, *lines = self._ask("snapshot")
        except (EOFError, OSError):
            return  # it has died: what was taken is told to the next one
        if first.startswith("snapshot "):
            self.taken = lines
        self.most = FEW + 2 * len(self.taken)

    def _start(self):
        pipe = subprocess.PIPE
        self.process = subprocess.Popen(self.command, stdin=pipe, stdout=pipe)
        self.process.stdin.write(self.text + b"\n%% events\n")
        self.process.stdin.flush()
        first = self._read()
        if not first.startswith("ready 1 "):
            self._close()
            raise Refused(first)
        self.roles = first.split(" ")[2:]
        for line in self.taken:
            self._ask(line)

    def _ask(self, line):
        self.process.stdin.write(f"{line}\n".encode())
        self.process.stdin.flush()
        first = self._read()
        words = first.split(" ")
        more = int(words[-1][1:]) if words[-1].startswith("+") else 0
        return [first, *(self._read() for _ in range(more))]

    def _read(self):
        line = self.process.stdout.readline()
        if not line.endswith(b"\n"):
            raise EOFError("the guide has ended")
        return line[:-1].decode()

    def _close(self):
        for pipe in (self.process.stdin, self.process.stdout):
            try:
                pipe.close()
            except OSError:
                pass  # what was written to a guide that has died
        self.process.wait()

    def send(self, role, point, value, incarnation):
        """Tells that a role sends a message. Returns the stamp that goes with it."""
        label = self.points[point].label
        return int(self.tell(f"send {role} {point} {label} {value} #{incarnation}")[0].split("@")[1])

    def recv(self, message, incarnation):
        """Tells that a message is received by its receiver, in this incarnation of it."""
        what = f"{message.point} {message.label} {message.value} <{message.stamp}"
        self.tell(f"recv {message.receiver} {what} #{incarnation}")

    def save(self, role, count, incarnation):
        """Tells that a role has saved its state behind so many events."""
        self.tell(f"save {role} {count} #{incarnation}")

    def fail(self, failed):
        """Tells that these roles failed, each with how many events it had saved, or None for the last save that was
        told. Returns who goes back: a `Back` for each role."""
        words = [role if count is None else f"{role}={count}" for role, count in failed.items()]
        lines = self.tell(" ".join(["fail", *words]))[1:]
        words = [line.split(" ") for line in lines if line.startswith("back ")]
        return {role: Back(int(count), int(incarnation[1:])) for _, role, count, incarnation in words}

    def next(self, role):
        """Returns `sends`, `receives` or `over`, and the points that are next for a role."""
        _, _, kind, *points = self.tell(f"next {role}")[0].split(" ")
        return kind, [self.points[int(point)] for point in points]

    def in_flight(self, role):
        """Returns the messages that are on their way to a role, those of each sender in order."""
        words = [line.split(" ") for line in self.tell(f"flight {role}")[1:]]
        return [Message(s, r, int(p), label, int(value), int(stamp[1:])) for _, s, r, p, label, value, stamp in words]

    def close(self):
        """Ends the guide."""
        self._close()

    def __enter__(self):
        return self

    def __exit__(self, *_):
        self.close()


# Roles


class Role:
    """What a role does. A state is any value that can be pickled, and isn't changed in place."""

    first = None

    def choose(self, state, points):
        """Returns which of these messages the role sends."""
        return points[0]

    def value(self, state, label):
        """Returns the number that goes with a message."""
        return 0

    def behind(self, state, label, value):
        """Returns the state behind a message that was sent or received."""
        return state

    def saves(self, state, count):
        """Says whether the role saves its state, behind so many events."""
        return True


def play(role, link, others, count, incarnation, state):
    """Plays a role in its own process, from a state on. It asks for each step, and may be told to go back each time."""
    for other in others:
        other.close()
    states = {count: state}
    while True:
        link.send(("want", incarnation))
        order, *rest = link.recv()
        if order == "choose":
            point = role.choose(states[count], rest[0])
            label, value = point.label, role.value(states[count], point.label)
            link.send(("send", incarnation, point.number, value))
            order, *rest = link.recv()
        elif order == "take":
            label, value = rest
        if order == "tell":
            link.send(("state", incarnation, states[count]))
            order, *rest = link.recv()
        if order == "stop":
            return
        if order == "back":
            count, incarnation, saved = rest
            if count not in states:  # it began behind that
                states[count] = saved
            continue
        state = role.behind(states[count], label, value)
        count += 1
        states[count] = state
        if role.saves(state, count):
            link.send(("save", incarnation, count, state))


# Sessions


class Session:
    """A session whose roles are processes of their own. `states` has the end states, once it is `over`."""

    def __init__(self, text, roles, command=COMMAND, intensity=10):
        """Starts a guide and a process for each role; `roles` has a `Role` for each name of the text. A role that dies
        more often than `intensity` says raises `TooMany`: one whose code has a fault would die for ever."""
        self.intensity, self.deaths = intensity, collections.Counter()
        self.guide, self.roles, self.context = Guide(text, command), roles, multiprocessing.get_context("fork")
        self.saved = {name: {0: role.first} for name, role in roles.items()}
        self.inbox = {name: collections.defaultdict(collections.deque) for name in roles}
        self.process, self.link, self.began, self.incarnation = {}, {}, {}, {}
        self.waits, self.states, self.recoveries = set(), {}, []
        for name in roles:
            self._start(name, Back(0, 0))

    def over(self):
        """Says whether each role has come to its end."""
        return len(self.states) == len(self.roles)

    def step(self, seconds=None):
        """Does what the roles ask for, and waits so long for that at most."""
        names = {link: name for name, link in self.link.items()}
        for link in multiprocessing.connection.wait(list(names), seconds):
            if self.link[names[link]] is link:
                self._hear(names[link], link)
        for name in sorted(self.waits):
            self._serve(name)

    def run(self):
        """Runs the session to its end, and returns the end states."""
        while not self.over():
            self.step()
        return self.states

    def close(self):
        """Ends the processes of the roles, and the guide."""
        for name in self.process:
            self._order(name, "stop")
            self.link[name].close()
            self.process[name].join()
        self.guide.close()

    def __enter__(self):
        return self

    def __exit__(self, *_):
        self.close()

    def _start(self, name, back):
        """Starts a process of a role, from the state that it saved behind so many events."""
        ours, theirs = self.context.Pipe()
        others = [ours, *self.link.values(), self.guide.process.stdin, self.guide.process.stdout]
        what = (self.roles[name], theirs, others, back.count, back.incarnation, self.saved[name][back.count])
        self.process[name] = self.context.Process(target=play, args=what, daemon=True)
        self.process[name].start()
        theirs.close()
        self.link[name], self.began[name], self.incarnation[name] = ours, back.count, back.incarnation

    def _order(self, name, *order):
        try:
            self.link[name].send(order)
        except OSError:
            pass  # it is dead: the end of its pipe is heard next

    def _hear(self, name, link):
        """Does what a role asks for, or what its death asks for."""
        try:
            word, incarnation, *rest = link.recv()
        except (EOFError, OSError):
            self._die(name)
            return
        try:
            if word == "send":
                self._send(name, incarnation, *rest)
            elif word == "save":
                self.guide.save(name, rest[0], incarnation)
                self.saved[name][rest[0]] = rest[1]
            elif incarnation == self.incarnation[name] and word == "want":
                self.waits.add(name)
            elif incarnation == self.incarnation[name]:
                self.states[name] = rest[0]
        except Stale:
            pass  # the role went back meanwhile, and hears it with its next order

    def _send(self, name, incarnation, number, value):
        """Tells the guide, and puts the message on its way behind that."""
        stamp, point = self.guide.send(name, number, value, incarnation), self.guide.points[number]
        self.inbox[point.receiver][name].append(Message(name, point.receiver, number, point.label, value, stamp))
        self._order(name, "done")

    def _serve(self, name):
        """Gives a role that waits what is next for it, if that is there."""
        kind, points = self.guide.next(name)
        if kind == "over":
            self.waits.discard(name)
            self._order(name, "tell")
        elif kind == "sends":
            self.waits.discard(name)
            self._order(name, "choose", points)
        else:
            messages = self.inbox[name][points[0].sender]
            while messages and name in self.waits:
                message = messages.popleft()
                try:
                    self.guide.recv(message, self.incarnation[name])
                except Stale:
                    continue
                self.waits.discard(name)
                self._order(name, "take", message.label, message.value)

    def _die(self, name):
        """Does what the guide says where a process has died."""
        self.link[name].close()
        self.process[name].join()
        self.deaths[name] += 1
        if self.deaths[name] > self.intensity:
            raise TooMany(name)
        failed, back = {name: None}, {}
        while failed:
            back.update(self.guide.fail(failed))
            # Who hasn't the state to which it is to go has failed, too, and goes to an earlier one.
            failed = {}
            for other, (count, _) in back.items():
                if count not in self.saved[other] and (other == name or count < self.began[other]):
                    failed[other] = max(saved for saved in self.saved[other] if saved < count)
        self.recoveries.append((name, back))
        for other in back:
            self._go_back(other, back[other], other == name)

    def _go_back(self, name, back, is_dead):
        self.waits.discard(name)
        self.states.pop(name, None)
        self.saved[name] = {count: state for count, state in self.saved[name].items() if count <= back.count}
        self.inbox[name].clear()
        for message in self.guide.in_flight(name):
            self.inbox[name][message.sender].append(message)
        if is_dead:
            self._start(name, back)
        else:
            self.incarnation[name] = back.incarnation
            saved = self.saved[name][back.count] if back.count < self.began[name] else None
            self.began[name] = min(self.began[name], back.count)
            self._order(name, "back", back.count, back.incarnation, saved)
