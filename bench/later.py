"""The input of a later one of several sessions, for the scripts beside this file."""
import legal

# The greatest number that a plan's crash line may have, and as many events as a role may make at most.
GREATEST = 100_000
PLAN = "%% plan"


def shifted(item, by):
    """Returns the words of a plan's item with a crash's count raised, and none where nobody can come to the count."""
    if item[0] != "crash":
        return item
    count = int(item[2].lstrip("0") or "0") + by
    return [*item[:2], str(count)] if count <= GREATEST else []


def items(tokens):
    """Yields the words of each item of a plan."""
    while tokens.front() is not None:
        item = [tokens.next(), tokens.next()]
        if item[0] in ("every", "crash"):
            item.append(tokens.next())
        if item[0] == "host":
            item += [tokens.next(), tokens.next()]
            while tokens.has(","):
                item += [",", tokens.next()]
        yield item


def later(given, by):
    """Returns the input of a later session: its crash lines have counts that are so many more."""
    lines = given.decode("latin-1").split("\n")
    bare = [line[:-1] if line.endswith("\r") else line for line in lines]
    if by == 0 or PLAN not in bare:
        return given
    at = bare.index(PLAN) + 1
    moved = [" ".join(shifted(item, by)) for item in items(legal.Tokens("\n".join(lines[at:])))]
    return "\n".join([*lines[:at], *moved, ""]).encode("latin-1")
