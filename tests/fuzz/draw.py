"""Draws random texts: trace states, keys, values, and the lines of programs. All use the generator that is passed in."""
# Characters near the limits of valid texts: blanks, delimiters, control characters, and two to four bytes of UTF-8.
SIGNS = list(" \t=,;@%\"\\#+-_*/.~!{}AZaz09\r\0\x01\x7f\x85\xa0\xe9\u2003\u200b\u212a\u4f60\ufeff\U0001f6ab")
KEY_SIGNS = list("abcz019_-*/")
NAME_SIGNS = list("!\"#=,;@~AZaz09")
KEYS = ["a", "b", "c", "d", "k", "0", "a@b", "t@", "t@abcdefghijklm", "foo", "a_-*/z"]
BAD_KEYS = ["", "A", "@a", "a@b@c", "a@-b", "t@abcdefghijklmn", " a", "a b", "\xe9", "_a", "a\0", "k" * 257]
VALUES = ["", "1", "2", "value", " 1", "\xe9", "a b", "\"", ";", "@", "\x01"]
LONG_VALUES = ["x" * 255, "x" * 256, "\xe9" * 128]


def some(rng, signs, most):
    return "".join(rng.choices(signs, k=rng.randint(0, most)))


def number(rng):
    """A number, mostly small."""
    return rng.randint(0, rng.choice([3, 3, 12, 30]))


def state_key(rng):
    if rng.random() < 0.5:
        return rng.choice(KEYS)
    return rng.choice("abcz09") + some(rng, KEY_SIGNS, 255 if rng.random() < 0.02 else 8)


def state_value(rng):
    """A valid value that doesn't end in a blank."""
    if rng.random() < 0.5:
        return rng.choice(LONG_VALUES if rng.random() < 0.05 else VALUES)
    signs = [it for it in SIGNS if it not in ",="]
    return some(rng, signs, 60 if rng.random() < 0.02 else 6).rstrip(" \t")


def any_key(rng):
    return rng.choice(BAD_KEYS) if rng.random() < 0.2 else state_key(rng)


def any_value(rng):
    if rng.random() < 0.15:
        return rng.choice([some(rng, SIGNS, 6), "x" * 257, "1=2", "1,2", "\xe9" * 128, "\xe9" * 129])
    return state_value(rng)


def blanks(rng):
    return some(rng, " \t", 2) if rng.random() < 0.3 else ""


def member(rng, key, value):
    equals = "=" * rng.choice([1, 1, 1, 1, 2, 5])
    return blanks(rng) + key(rng) + equals + value(rng) + blanks(rng)


def state_text(rng, key=state_key, value=state_value):
    """Members joined by commas, some of them empty. It can be read if keys and values are valid, except for a value that begins
    with `=`."""
    count = rng.randint(28, 40) if rng.random() < 0.03 else rng.choice([0, 1, 1, 2, 3, 5])
    pieces = [blanks(rng) if rng.random() < 0.1 else member(rng, key, value) for _ in range(count)]
    return ",".join(pieces)


def any_state_text(rng):
    if rng.random() < 0.1:
        return some(rng, SIGNS, 30)
    text = state_text(rng, any_key, any_value)
    return mutated(rng, text) if rng.random() < 0.2 else text


def mutated(rng, text, signs=SIGNS):
    """The text with some places changed."""
    for _ in range(rng.randint(1, 3)):
        at = rng.randint(0, len(text))
        to = min(len(text), at + rng.choice([0, 1, 1, 4]))
        text = text[:at] + rng.choice(["", rng.choice(signs), text[at:to] * 2]) + text[to:]
    return text


# Programs.

def name(rng):
    if rng.random() < 0.7:
        return rng.choice("abcdefgh")
    return rng.choice(NAME_SIGNS) + some(rng, NAME_SIGNS, rng.choice([3, 8, 300]))


def detach(rng, attaches):
    """A detach of an attached context, mostly, or of any other number."""
    if rng.random() < 0.8:
        it = rng.randint(0, max(attaches - 1, 0))
    else:
        it = rng.choice([attaches, attaches + 1, 65535, 65536, 2 ** 32, 2 ** 63, 2 ** 64 - 1, rng.randint(0, 99)])
    return f"detach {'0' * rng.choice([0] * 9 + [5])}{it}"


def line(rng, attaches):
    """A valid line, and whether it is an attach."""
    drawn = rng.random()
    if drawn < 0.05:
        return "", False
    if drawn < 0.5:
        return detach(rng, attaches), False
    if drawn < 0.75:
        return f"attach {name(rng)}", True
    text = state_text(rng).replace("\n", "")
    return f"attach {name(rng)} {text}", True


def faulty_line(rng):
    return rng.choice([
        lambda: rng.choice(["attach", "detach", "Attach a", " attach a", "attach\ta", "detach\t0", "push a", "\r"]),
        lambda: rng.choice(["attach ", "attach  v=1", "attach a\r", "attach \xe9", "attach a\x7f b=1"]),
        lambda: rng.choice(["detach ", "detach x", "detach +1", "detach -1", "detach 1 ", "detach 1.0", f"detach {2 ** 64}"]),
        lambda: f"attach {name(rng)} {any_state_text(rng)}",
        lambda: mutated(rng, line(rng, 5)[0]),
        lambda: some(rng, SIGNS, 12),
    ])()


def bad_bytes(rng, given):
    """The bytes with some inserted that aren't UTF-8, or with a truncated character."""
    at = rng.randint(0, len(given))
    return given[:at] + rng.choice([b"\xff", b"\x80", b"\xc3", b"\xed\xa0\x80", b"\xf5\x80\x80\x80", b"\xc0\x80"]) + given[at:]


def program(rng):
    """The bytes of a program. Half of them are valid."""
    lines, attaches = [], 0
    for _ in range(rng.randint(0, 150) if rng.random() < 0.02 else number(rng)):
        it, is_attach = line(rng, attaches)
        attaches += is_attach
        lines.append(it)
    if rng.random() < 0.4:
        for _ in range(rng.randint(1, 2)):
            lines.insert(rng.randint(0, len(lines)), faulty_line(rng))
    given = ("\n".join(lines) + rng.choice(["\n", "\n", ""])).encode()
    return bad_bytes(rng, given) if rng.random() < 0.03 else given


# Headers.

def hexadecimal(rng, digits):
    """Mostly not 0, and sometimes of another length."""
    if rng.random() < 0.1:
        return some(rng, "0123456789abcdefABCDEFg-", digits + 1)
    return rng.choice(["0" * digits, "f" * digits] + ["".join(rng.choices("0123456789abcdef", k=digits))] * 8)


def parent(rng):
    it = f"{rng.choice(['00'] * 9 + ['01'])}-{hexadecimal(rng, 32)}-{hexadecimal(rng, 16)}-{hexadecimal(rng, 2)}"
    return blanks(rng) + (mutated(rng, it) if rng.random() < 0.1 else it) + blanks(rng)


def baggage_member(rng):
    key = rng.choice(["k", "K", "a", "b", "a b", "", "!#$%&'*+-.^_`|~", "\xe9", some(rng, "abk~!", 3)])
    value = some(rng, [*SIGNS, "%20", "%2C", "%c3%A9", "%C3", "%ff", "%", "%%", "%2", "%g0", "a"], 6).replace("\n", "")
    if rng.random() < 0.01:
        value = rng.choice("x%") * rng.choice([4095, 8190, 8191, 8192])
    metadata = ";" + some(rng, [it for it in SIGNS if it != ","], 5) if rng.random() < 0.3 else ""
    equals = rng.choice(["=", "=", "=", "==", ""])
    return "".join([blanks(rng), key, blanks(rng), equals, blanks(rng), value, blanks(rng), metadata])


def baggage(rng):
    count = rng.randint(60, 70) if rng.random() < 0.03 else rng.randint(0, 5)
    return ",".join(baggage_member(rng) for _ in range(count))


def headers(rng):
    """The bytes of lines `KEY=VALUE`."""
    lines = [("traceparent", parent), ("tracestate", any_state_text), ("baggage", baggage)]
    lines = [f"{key.upper() if rng.random() < 0.1 else key}={draw(rng)}" for key, draw in lines if rng.random() < 0.9]
    return "\n".join(line.replace("\n", "") for line in lines).encode()
