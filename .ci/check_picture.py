#!/usr/bin/env python3
"""Checks the picture of a journal against the journal's text: .ci/check_picture.py PICTURE JOURNAL

Written from what docs/PICTURES.md promises, naively, from the lines alone; it shares no code with the program. Prints
each fault, and ends with 1 where there is one. `.ci/pictures` runs it on each example.

- The picture is well-formed XML, with no script and no link.
- In the order of the document its marks and folds are the entries, each once; a mark's title is its entry's line.
- A mark is undone exactly where its event isn't kept at the end, and a fold's title counts what is in it.
- The arrows are exactly the messages of which an end has a mark, and undone exactly where the Recv is.
- A Recover's mark says of each role, from left to right, whether it goes back, stays or goes on, at which event, what comes
  next for it, and how many events are undone. A Recv's says `again` exactly where its message was received before. The
  messages that a Recover drops, and those that wait at the end, are drawn as such, and no others.
- Marks and folds stand below those before them, and nothing stands outside the picture.
- No two texts stand on each other.
- No upright piece of a message's way lies on one of another message.

Of the picture of a protocol or of a role's machine `.ci/pictures` checks what `protocol_faults` and `role_faults` say."""
import re
import sys
import xml.etree.ElementTree as tree

SVG = "{http://www.w3.org/2000/svg}"
# How wide a letter is at most, by the class of its text.
WIDE = {"head": 7.4, "big": 8.5, "bold": 6.9, "note": 5.9, "small": 5.9, "count": 5.9, "point": 5.3}
HIGH = 8


class Journal:
    """The entries of a journal: their lines, which of them are kept at the end, and the messages."""

    def __init__(self, text):
        lines = text.decode().split("\n")
        self.lines = [line for line in lines if line.split(" ")[0] in ("send", "recv", "crash", "recover")]
        self.roles = [line.split(" ")[1] for line in lines if line.startswith("role ")]
        stacks, self.messages, sends = {role: [] for role in self.roles}, {}, {}
        # The Recvs of messages that were received before; the messages that each Recover drops; and what it says.
        self.again, self.dropped, self.told = set(), set(), {}
        for place, line in enumerate(self.lines):
            words = line.split(" ")
            if words[0] in ("send", "recv"):
                stacks[words[1]].append(place)
            if words[0] == "send":
                sends[words[2], words[5][1:]] = place
            if words[0] == "recv":
                send = sends[words[2], words[6][1:]]
                if send in self.messages.values():
                    self.again.add(place)
                self.messages[place] = send
            if words[0] == "recover":
                keeps = {role: int(kept) for role, kept in zip(words[4::2], words[5::2])}
                received = {self.messages[place] for stack in stacks.values() for place in stack if place in self.messages}
                lost = {role for role in keeps if keeps[role] < len(stacks[role])}
                undone = {sent for role in lost for sent in stacks[role][keeps[role] :] if self.lines[sent].startswith("send")}
                self.dropped |= {(sent, place) for sent in undone - received}
                self.told[place] = [self.returns(role, keeps, lost) for role in self.roles]
                for role in lost:
                    del stacks[role][keeps[role] :]
        self.kept = {place for stack in stacks.values() for place in stack}
        self.waiting = {place for place in self.kept if self.lines[place].startswith("send")}
        self.waiting -= {self.messages[place] for place in self.kept if place in self.messages}

    def returns(self, role, keeps, lost):
        """Returns what a Recover's mark says of a role, in one of these ways."""
        if role not in keeps:
            return ["goes on"]
        verb, count = "back to" if role in lost else "stays at", keeps[role]
        return [f"{verb} event {count}", f"{verb} {count}"] if count else [f"{verb} start"]

    def point_behind(self, role, place):
        """Returns the point of a role's next event behind a place, unless it goes back before."""
        for later in range(place + 1, len(self.lines)):
            words = self.lines[later].split(" ")
            if words[0] in ("send", "recv") and words[1] == role:
                return words[2]
            if later in self.told and self.told[later][self.roles.index(role)][0].startswith("back to"):
                return None
        return None

    def is_undone(self, place):
        """Returns whether an entry is an event that isn't kept at the end."""
        return self.lines[place].startswith(("send", "recv")) and place not in self.kept

    def counts(self, first, end):
        """Returns what the title of a fold says of these entries."""
        run = range(first, end)
        words = [self.lines[place].split(" ")[0] for place in run]
        sums = [words.count(word) for word in ("send", "recv", "crash", "recover")] + [sum(map(self.is_undone, run))]
        return "entries %d to %d: %d sent, %d received, %d crashes, %d recoveries; %d undone" % (first + 1, end, *sums)


def classes(element):
    return (element.get("class") or "").split()


def title_of(group):
    title = group.find(SVG + "title")
    return None if title is None else title.text


def told_faults(root, journal):
    """Yields what the marks, folds and arrows tell wrongly."""
    place, shown, arrows = 0, set(), {}
    for group in root.iter(SVG + "g"):
        kind, name = classes(group), group.get("id") or ""
        if "mark" in kind:
            if name != f"e{place + 1}" or place >= len(journal.lines):
                yield f"the mark {name} in the place of e{place + 1}"
                return
            if title_of(group) != journal.lines[place]:
                yield f"{name} has the title {title_of(group)!r}"
            if ("undone" in kind) != journal.is_undone(place):
                yield f"{name} is undone: {'undone' in kind}"
            shown.add(place)
            place += 1
        elif "fold" in kind:
            ends = re.fullmatch(r"f(\d+)-(\d+)", name)
            if not ends or int(ends[1]) != place + 1 or not place < int(ends[2]) <= len(journal.lines):
                yield f"the fold {name} in the place of one from {place + 1}"
                return
            if title_of(group) != journal.counts(place, int(ends[2])):
                yield f"{name} has the title {title_of(group)!r}"
            place = int(ends[2])
        elif "arrow" in kind:
            ends = re.fullmatch(r"e(\d+)-e(\d+)", name)
            if not ends or name in arrows:
                yield f"the arrow {name}"
                return
            arrows[name] = (int(ends[1]) - 1, int(ends[2]) - 1, "undone" in kind)
    yield from recover_faults(root, journal, shown)
    yield from message_faults(root, journal, shown)
    if place != len(journal.lines):
        yield f"{place} of {len(journal.lines)} entries are drawn"
    wanted = {
        (send, got, journal.is_undone(got)) for got, send in journal.messages.items() if send in shown or got in shown
    }
    for send, got, undone in set(arrows.values()) ^ wanted:
        yield f"the arrow from {send + 1} to {got + 1}, undone: {undone}"


def marks(root, journal, places):
    """Yields the marks of these entries: their places, lines, and their texts from left to right and from above to below."""
    for group in root.iter(SVG + "g"):
        name = group.get("id") or ""
        if "mark" in classes(group) and int(name[1:]) - 1 in places:
            texts = [text for text in group.iter(SVG + "text") if "point" not in classes(text)]
            texts.sort(key=lambda text: numbers(text, "x", "y"))
            yield int(name[1:]) - 1, journal.lines[int(name[1:]) - 1], [text.text for text in texts[1:]]


def recover_faults(root, journal, shown):
    """Yields what the marks of recoveries say wrongly."""
    for place, line, texts in marks(root, journal, shown & set(journal.told)):
        said = [text for text in texts if text.startswith(("back to", "stays at", "goes on"))]
        told = journal.told[place]
        if len(said) != len(told) or any(text not in ways for text, ways in zip(said, told)):
            yield f"e{place + 1} says {said}, in the place of {told}"
        count = int(line.split(" ")[3][:-1])
        wanted = f"{count} event{'' if count == 1 else 's'} undone"
        if texts[-1] != wanted or not texts[-2].endswith(" recovers"):
            yield f"e{place + 1} says {texts[-2:]}, in the place of {wanted!r}"
        concerned = [role for role, ways in zip(journal.roles, told) if ways != ["goes on"]]
        following = [text for text in texts if text == "nothing left" or text.startswith("next ")]
        if len(following) != len(concerned):
            yield f"e{place + 1} says {following} of {concerned}"
            continue
        for role, text in zip(concerned, following):
            point = journal.point_behind(role, place)
            if point and not text.endswith(" more") and point not in re.findall(r"(?:next|or) (\d+)", text):
                yield f"e{place + 1} says {text!r} of {role}, and {point} comes"


def message_faults(root, journal, shown):
    """Yields what is said wrongly of messages that are received again, dropped, or wait."""
    receipts = {place for place in shown if journal.lines[place].startswith("recv")}
    for place, _, texts in marks(root, journal, receipts):
        if any(text.endswith(" again") for text in texts) != (place in journal.again):
            yield f"e{place + 1} says {texts}"
    titles = [title_of(group) or "" for group in root.iter(SVG + "g") if not group.get("id")]
    loose = sorted(title for title in titles if title.startswith("sent by entry "))
    dropped = [f"sent by entry {send + 1}, dropped by entry {recover + 1}" for send, recover in journal.dropped if send in shown]
    waiting = [f"sent by entry {send + 1}, not received" for send in journal.waiting if send in shown]
    if loose != sorted(dropped + waiting):
        yield f"loose messages: {loose} in the place of {sorted(dropped + waiting)}"
    words = sum(text.text == "dropped" for text in root.iter(SVG + "text"))
    if words != len({recover for send, recover in journal.dropped if send in shown}):
        yield f"`dropped` stands there {words} times"


def numbers(element, *names):
    return [float(element.get(name)) for name in names]


def box(element):
    """Returns the left, upper, right and lower end of a shape."""
    kind = element.tag[len(SVG) :]
    if kind == "line":
        x, y, x2, y2 = numbers(element, "x1", "y1", "x2", "y2")
        return min(x, x2), min(y, y2), max(x, x2), max(y, y2)
    if kind == "rect":
        x, y, width, height = [float(element.get(name) or 0) for name in ("x", "y", "width", "height")]
        return x, y, x + width, y + height
    if kind == "circle":
        x, y, r = numbers(element, "cx", "cy", "r")
        return x - r, y - r, x + r, y + r
    if kind == "path":
        at = [float(number) for number in re.findall(r"[\d.]+", element.get("d"))]
        return min(at[::2]), min(at[1::2]), max(at[::2]), max(at[1::2])
    x, y = numbers(element, "x", "y")
    wide = len(element.text or "") * next((WIDE[name] for name in classes(element) if name in WIDE), 6.7)
    left = x - {"end": wide, "middle": wide / 2}.get(element.get("text-anchor"), 0)
    return left, y - HIGH, left + wide, y


def drawn(root):
    """Yields the shapes that are drawn, with their groups."""
    for group in root.iter(SVG + "g"):
        for element in group:
            if element.tag[len(SVG) :] in ("line", "rect", "circle", "path", "text"):
                yield group, element


def uprights(root):
    """Yields the upright pieces of the ways of messages: where, from which height to which, and of which message."""
    for group, element in drawn(root):
        if element.tag == SVG + "path":
            at = [float(number) for number in re.findall(r"[\d.]+", element.get("d"))]
            turns = list(zip(at[::2], at[1::2]))
            for (x, y), (x2, y2) in zip(turns, turns[1:]):
                if x == x2 and y != y2:
                    yield x, min(y, y2), max(y, y2), group.get("id") or title_of(group)


def upright_faults(root):
    """Yields upright pieces that lie on each other."""
    pieces = sorted(uprights(root))
    for number, (x, top, bottom, name) in enumerate(pieces):
        for x2, top2, bottom2, other in pieces[number + 1 :]:
            if x2 - x >= 1:
                break
            if max(top, top2) + 1 < min(bottom, bottom2):
                yield f"one way on another: {name} and {other}"


def layout_faults(root):
    """Yields what stands wrongly."""
    width, height = numbers(root, "width", "height")
    last, rows, texts = 0.0, set(), []
    for group, element in drawn(root):
        left, top, right, bottom = box(element)
        if left < -1 or top < -1 or right > width + 1 or bottom > height + 1:
            yield f"outside: {element.attrib} {element.text or ''}"
        if element.tag == SVG + "text" and element.text:
            texts.append((bottom, left, right, element.text))
        if group.get("id") and group.get("id") not in rows and {"mark", "fold"} & set(classes(group)):
            rows.add(group.get("id"))
            middle = (top + bottom) / 2
            if middle <= last:
                yield f"{group.get('id')} isn't below what is before it"
            last = middle
    texts.sort()
    for number, (y, left, right, text) in enumerate(texts):
        for y2, left2, right2, other in texts[number + 1 :]:
            if y2 - y >= HIGH - 1:
                break
            if left + 1 < right2 and left2 + 1 < right:
                yield f"on each other: {text!r} and {other!r}"


def document(picture):
    """Returns the root of a picture, or a fault."""
    try:
        root = tree.fromstring(picture)
    except tree.ParseError as error:
        return None, [f"not well formed: {error}"]
    found = [f"a {word}" for word in (b"<script", b"href", b"<image", b"@import") if word in picture]
    if root.tag != SVG + "svg" or root.get("role") != "img":
        found.append("no picture")
    return root, found


def chart_faults(picture):
    """Returns what is wrong with a picture that isn't one of a journal."""
    root, found = document(picture)
    return found if root is None else found + list(layout_faults(root))


def first_box(group):
    """Returns the ends of the first shape of a group."""
    return next(box(element) for element in group if element.tag != SVG + "title")


def reach(title):
    """Returns the points that the title of a frame or a block says that it holds."""
    numbers = [int(number) for number in re.findall(r"\d+", title.rpartition(":")[2])]
    return list(range(numbers[0], numbers[-1] + 1)) if numbers else []


def protocol_faults(picture):
    """Returns what is wrong with the picture of a protocol: its messages stand in the order of their points, each frame stands
    around just the messages that its title says, and each `continue` stands in a frame of its `rec`."""
    root, found = document(picture)
    if root is None:
        return found
    groups = [(title_of(group), first_box(group)) for group in root.iter(SVG + "g") if title_of(group)]
    messages = [(int(title[6 : title.index(":")]), ends) for title, ends in groups if title.startswith("point ")]
    if [point for point, _ in messages] != list(range(1, len(messages) + 1)):
        found.append(f"messages in the order {[point for point, _ in messages]}")
    frames = [(title, ends) for title, ends in groups if re.match("choice at|rec |par:", title)]
    for title, (left, top, right, bottom) in frames:
        held = [point for point, (x, y, x2, _) in messages if left <= x and x2 <= right and top < y < bottom]
        if held != reach(title):
            found.append(f"{title!r} holds {held}")
    for title, (left, top, right, bottom) in groups:
        if title.startswith("continue "):
            around = [ends for frame, ends in frames if frame.startswith(f"rec {title[9:]}: ")]
            if not any(x <= left and y < top and bottom < y2 for x, y, _, y2 in around):
                found.append(f"{title!r} stands in none of its frames")
        elif not re.match(r"point \d+: |choice at |rec |par: |or: |and: ", title):
            found.append(f"a title {title!r}")
    return found + list(layout_faults(root))


def role_faults(picture):
    """Returns what is wrong with the picture of a role's machine: each place stands in one box, and from each step one wire leads
    from its box to the one that has the place behind its point."""
    root, found = document(picture)
    if root is None:
        return found
    boxes, steps, wires = {}, [], []
    for group in root.iter(SVG + "g"):
        title = title_of(group) or ""
        if title.startswith("places "):
            words = [text.text for text in group.iter(SVG + "text")]
            boxes[title] = first_box(group)
            steps += [(title, re.match(r"\d+", word)[0]) for word in words if re.match(r"\d+ [!?] ", word)]
        elif title.startswith("from "):
            start, _, point = title[5:].rpartition(" by point ")
            way = next(element for element in group if element.tag == SVG + "path")
            wires.append((start, point, [float(number) for number in re.findall(r"[\d.]+", way.get("d"))]))
        elif title:
            found.append(f"a title {title!r}")
    places = [place for title in boxes for place in title[7:].split(", ")]
    if len(places) != len(set(places)) or "0" not in places:
        found.append(f"boxes of places {places}")
    if sorted(steps) != sorted((start, point) for start, point, _ in wires):
        found.append("not one wire for each step")
    for start, point, way in wires:
        goal = next((title for title in boxes if point in title[7:].split(", ")), None)
        for title, (x, y) in ((start, way[:2]), (goal, way[-2:])):
            left, top, right, bottom = boxes.get(title, (0, 0, 0, 0))
            if x not in (left, right) or not top <= y <= bottom:
                found.append(f"the wire of point {point} from {start} isn't at {title}")
    return found + list(layout_faults(root))


def journal_faults(picture, text):
    """Returns what is wrong with the picture of a journal."""
    root, found = document(picture)
    return found if root is None else found + [*told_faults(root, Journal(text)), *layout_faults(root), *upright_faults(root)]


def main():
    if len(sys.argv) != 3:
        sys.exit(__doc__)
    with open(sys.argv[1], "rb") as picture, open(sys.argv[2], "rb") as journal:
        found = journal_faults(picture.read(), journal.read())
    print(*found, sep="\n")
    sys.exit(1 if found else 0)


if __name__ == "__main__":
    main()
