"""A plain model of the program and of the values behind the rows, written independently of the port.

Texts are cut by regular expressions, a stack is a list of positions, and a baggage is a dictionary. The model assumes ample
memory, and no more attaches than there are positions.
"""
import re
from urllib.parse import quote, unquote_to_bytes

# The empty context's name, and the text printed for it.
BASE = "base"
# A key of a trace state, except for its length.
KEY = re.compile(r"[a-z0-9][a-z0-9_*/-]*(?:@(?:[a-z0-9][a-z0-9_*/-]{0,12})?)?")
# A token of RFC 7230, section 3.2.6.
TOKEN = re.compile(r"[!#$%&'*+\-.^_`|~0-9A-Za-z]+")
NAME = re.compile(r"[!-~]+")
PARENT = re.compile(r"00-([0-9a-f]{32})-([0-9a-f]{16})-([0-9a-f]{2})")
# White_Space of Unicode.
SPACES = "".join(map(chr, [*range(9, 14), 32, 0x85, 0xa0, 0x1680, *range(0x2000, 0x200b), 0x2028, 0x2029, 0x202f, 0x205f,
                           0x3000]))
MOST_MEMBERS, MOST_BYTES = 32, 256
MOST_PAIRS, MOST_WEIGHT = 64, 8192
MOST_NUMBER = 2 ** 64 - 1


class Fault(Exception):
    """The reason why a text, a key or a value is refused: the kind, and the text at fault."""

    def __init__(self, kind, text=""):
        super().__init__(kind, text)
        self.kind, self.text = kind, text


def size(text):
    return len(text.encode())


# Trace states: lists of keys and values.

def checked(pairs):
    """The pairs, if each is valid, without pairs whose key an earlier one has."""
    for key, value in pairs:
        if not KEY.fullmatch(key) or size(key) > MOST_BYTES:
            raise Fault("key", key)
        if "," in value or "=" in value or size(value) > MOST_BYTES:
            raise Fault("value", value)
    return once(pairs)


def once(pairs):
    first = {}
    for key, value in pairs:
        first.setdefault(key, value)
    return list(first.items())


def read_state(text):
    members = [it.strip(" \t") for it in text.split(",")[:MOST_MEMBERS]]
    members = [it for it in members if it]
    for it in members:
        if "=" not in it:
            raise Fault("list", it)
    cut = (it.split("=", 1) for it in members)
    return checked([(key, rest.lstrip("=")) for key, rest in cut])


def state_of(pairs):
    return checked(pairs[:MOST_MEMBERS])


def insert(pairs, key, value):
    checked([(key, value)])
    return [(key, value)] + without(pairs, key)[:MOST_MEMBERS - 1]


def delete(pairs, key):
    checked([(key, "")])
    return without(pairs, key)


def without(pairs, key):
    return [it for it in pairs if it[0] != key]


def header(pairs, entry="=", between=","):
    return between.join(key + entry + value for key, value in pairs)


# Baggages: dictionaries from keys to values and metadata.

def weight(baggage):
    return sum(size(key) + size(value) + size(metadata) for key, (value, metadata) in baggage.items())


def put(baggage, key, value, metadata):
    """The baggage with the member, if it is accepted."""
    more = {**baggage, key: (value, metadata)}
    is_taken = key in baggage or (TOKEN.fullmatch(key) and len(baggage) < MOST_PAIRS)
    return more if is_taken and weight(more) <= MOST_WEIGHT else baggage


def kept(metadata):
    return metadata.strip(SPACES)


def printed(baggage):
    return ",".join(f"{key}={quote(value, safe='')}{';' * bool(metadata)}{metadata}"
                    for key, (value, metadata) in baggage.items())


def read_baggage(text):
    baggage = {}
    for member in text.split(","):
        front, _, metadata = member.partition(";")
        key, equals, value = front.partition("=")
        if equals:
            try:
                value = unquote_to_bytes(value.strip(" \t")).decode()
            except UnicodeDecodeError:
                continue
            baggage = put(baggage, key.strip(" \t"), value, kept(metadata))
    return baggage


# Headers: dictionaries of texts.

def parent_header(trace_id, span_id, flags):
    return f"00-{trace_id:032x}-{span_id:016x}-{flags:02x}"


def passed_on(headers):
    """The headers injected from the context that is extracted from these headers."""
    found = PARENT.fullmatch(headers.get("traceparent", "").strip(" \t"))
    ids = [int(it, 16) for it in found.groups()] if found else [0, 0, 0]
    given = {"baggage": printed(read_baggage(headers.get("baggage", "")))}
    if ids[0] and ids[1]:
        try:
            state = read_state(headers.get("tracestate", ""))
        except Fault:
            state = []
        given |= {"traceparent": parent_header(*ids), "tracestate": header(state)}
    return given


def lines_of(headers):
    return [f"{key}={value}" for key, value in sorted(headers.items())]


def headers(given):
    """The output of the driver for the lines of headers, and its status: the headers passed on, and these passed on again, which
    must be the same."""
    try:
        text = given.decode()
    except UnicodeDecodeError:
        text = ""
    lines = (line.partition("=") for line in text.split("\n"))
    once = lines_of(passed_on({lower(key): value for key, equals, value in lines if equals}))
    return "".join(f"{it}\n" for it in once + once).encode(), 0


# Ids.

def id_of(text, bits):
    """The number of the text in hexadecimal digits."""
    digits = text[1:] if text.startswith("+") else text
    if not text:
        raise Fault("empty")
    if not re.fullmatch("[0-9a-fA-F]+", digits):
        # The number is found to be too large before a later wrong digit is read.
        whole = re.match("[0-9a-fA-F]*", digits)[0]
        raise Fault("overflow" if whole and int(whole, 16) >> bits else "digit")
    if int(digits, 16) >> bits:
        raise Fault("overflow")
    return int(digits, 16)


# Carriers: dictionaries of texts.

def lower(key):
    return re.sub("[A-Z]", lambda found: found[0].lower(), key)


# The program.

def event_of(line, attaches):
    """The attach of a name and of a trace state, or the number of a detach. An attach is the number-th."""
    if line.startswith("attach "):
        name, space, state = line[len("attach "):].partition(" ")
        if not NAME.fullmatch(name):
            raise Fault("bad name")
        try:
            return "attach", name, read_state(state) if space else None
        except Fault as fault:
            raise Fault("bad trace state") from fault
    if line.startswith("detach "):
        digits = line[len("detach "):]
        if not re.fullmatch("[0-9]+", digits) or int(digits) > MOST_NUMBER:
            raise Fault("bad number")
        return "detach", int(digits)
    raise Fault("unknown command")


def events_of(text):
    events, attaches = [], 0
    for number, line in enumerate(text.split("\n"), 1):
        if line:
            try:
                events.append(event_of(line, attaches))
            except Fault as fault:
                raise Fault(f"line {number}: {fault.kind}") from fault
    return events


def stand(events):
    """The positions of the attaches in order, and the live attachments at the end: each a number, a name and a trace state."""
    positions, live = [], []
    for event in events:
        if event[0] == "attach":
            positions.append(live[-1][0] + 1 if live else 1)
            live.append((positions[-1], len(positions), *event[1:]))
        else:
            live = [it for it in live if it[1] != event[1] + 1]
    return positions, [it[1:] for it in live]


def current(live):
    """The lines about the current context: its name, the injected texts, and the context extracted from them."""
    number, name, state = live[-1] if live else (0, None, None)
    headers = {"baggage": ""} | ({"context-name": name} if live else {})
    if state is not None:
        headers |= {"traceparent": parent_header(number, number, 1), "tracestate": header(state)}
    extracted = "none" if state is None else f"{number:032x} {number:016x}"
    return [f"current: {name if live else BASE}", *lines_of(headers), f"extracted: {extracted}"]


def program(given):
    """The output of the program for this input, and its status."""
    try:
        text = given.decode()
    except UnicodeDecodeError:
        return b"input: not UTF-8\n", 2
    try:
        positions, live = stand(events_of(text))
    except Fault as fault:
        return f"{fault.kind}\n".encode(), 2
    lines = [f"attach {number}: position {it}" for number, it in enumerate(positions)]
    return "".join(f"{it}\n" for it in lines + current(live)).encode(), 0
