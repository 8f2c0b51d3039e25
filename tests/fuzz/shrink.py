"""Looks for smaller inputs that also fail: leaves out pieces, as long as the input still fails."""


def pieces(items):
    """The sequence without one piece, the larger pieces first."""
    size = len(items)
    while size >= 1:
        for at in range(0, len(items), size):
            yield items[:at] + items[at + size:]
        size //= 2


def programs(given):
    """Smaller programs: with fewer lines, and with shorter lines."""
    lines = given.split(b"\n")
    yield from (b"\n".join(it) for it in pieces(lines))
    for at, line in enumerate(lines):
        for it in pieces(line):
            yield b"\n".join(lines[:at] + [it] + lines[at + 1:])
    for at, line in enumerate(lines):
        for place, sign in enumerate(line):
            if sign not in b"ab01 ,=":
                yield b"\n".join(lines[:at] + [line[:place] + b"a" + line[place + 1:]] + lines[at + 1:])


def groups(given, sizes):
    """Smaller groups of rows: with fewer rows, arguments and characters. `sizes` has the number of texts in an argument."""
    first, *more = given
    yield from ([first, *it] for it in pieces(more))
    for at, (call, texts) in enumerate(given):
        step = sizes.get(call)
        if step:
            items = [texts[i:i + step] for i in range(0, len(texts), step)]
            for it in pieces(items):
                yield given[:at] + [(call, sum(it, []))] + given[at + 1:]
        for place, text in enumerate(texts):
            for it in pieces(text):
                yield given[:at] + [(call, texts[:place] + [it] + texts[place + 1:])] + given[at + 1:]
