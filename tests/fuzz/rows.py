"""Random rows for the reader of the vectors, each with the answer of the model.

A group is a row without indent and the indented rows below it, which act on its value: a list of calls, each a name and its
texts.
"""
import re

import draw
import model
from model import Fault

# The number of texts in an argument of these calls. The texts of other calls are separate arguments.
PAIRS = {"TraceState::from_key_value": 2, "Baggage::from_key_values": 2, "Baggage::from_key_values_with_metadata": 3}
STATE_ROOTS = "TraceState::from_str", "TraceState::from_key_value"
TOO_LONG = re.compile(r"\*\s*\d{4,}")
# The texts drawn for keys and metadata of a baggage, besides the ones drawn for trace states.
TOKENS = ["k", "K", "key", "!#$%&'*+-.^_`|~", "a b", "a,b", "(a)", "\xe9", ""]


# A row's text.

def escaped(sign):
    plain = {'"': '\\"', "\\": "\\\\", "\n": "\\n", "\t": "\\t"}
    return plain.get(sign) or (sign if " " <= sign <= "~" else f"\\u{{{ord(sign):x}}}")


def quoted(text):
    """The text in quotes, with each long run of one character as a repetition."""
    pieces = [it[0] for it in re.finditer(r"(?s)(.)\1{11,}|(?:(?!(.)\2{11}).)+", text)] or [""]
    runs = len(pieces[0]) >= 12, pieces
    return "+".join(f'"{escaped(it[0])}"*{len(it)}' if len(it) >= 12 and len(set(it)) == 1
                    else '"' + "".join(map(escaped, it)) + '"' for it in runs[1])


def option(text, *more):
    return " ".join(["none"] if text is None else ["some", quoted(text), *map(quoted, more)])


def arguments(call, texts):
    size = PAIRS.get(call)
    if not size:
        return " ".join(map(quoted, texts))
    items = (texts[at:at + size] for at in range(0, len(texts), size))
    return " ".join(" ".join([f"{quoted(it[0])}={quoted(it[1])}", *map(quoted, it[2:])]) for it in items)


# The answers of the model.

def state_answer(made):
    """The answer, and the new state if there is one."""
    try:
        pairs = made()
    except Fault as fault:
        return f"err {fault.kind} {quoted(fault.text)}", None
    return f"ok {quoted(model.header(pairs))}", pairs


def error_text(text):
    try:
        model.read_state(text)
    except Fault as fault:
        kind = "list member" if fault.kind == "list" else fault.kind
        return option(f"{fault.text} is not a valid {kind} in TraceState, see "
                      f"https://www.w3.org/TR/trace-context-2/#{fault.kind} for more details")
    return "none"


def id_answer(text, bits):
    try:
        number = model.id_of(text, bits)
    except Fault as fault:
        return f"err {fault.kind}"
    return f'ok "{number:0{bits // 4}x}" "{number:x}"'


def baggage_of(members):
    baggage = {}
    for key, value, metadata in members:
        baggage = model.put(baggage, key, value, model.kept(metadata))
    return baggage


def begun(call, texts):
    """The answer of a row without indent, and its value."""
    if call == "TraceState::from_str":
        return state_answer(lambda: model.read_state(*texts))
    if call == "TraceState::from_key_value":
        return state_answer(lambda: model.state_of(list(zip(texts[::2], texts[1::2]))))
    if call in ("Baggage::new", "HashMap::new"):
        return "ok", {}
    if call in PAIRS:
        step = PAIRS[call]
        made = baggage_of((*texts[at:at + 2], texts[at + 2] if step == 3 else "") for at in range(0, len(texts), step))
        return quoted(model.printed(made)), made
    alone = {
        "TraceStateError::to_string": lambda: error_text(*texts),
        "TraceId::from_hex": lambda: id_answer(*texts, 128),
        "SpanId::from_hex": lambda: id_answer(*texts, 64),
        "BaggageMetadata::new": lambda: quoted(model.kept(*texts)),
    }
    return alone[call](), None


def on_state(state, call, texts):
    if call in ("insert", "delete"):
        change = model.insert if call == "insert" else model.delete
        answer, made = state_answer(lambda: change(state, *texts))
        return answer, state if made is None else made
    answers = {
        "get": lambda: option(next((value for key, value in state if key == texts[0]), None)),
        "header_delimited": lambda: quoted(model.header(state, *texts)),
        "len": lambda: str(len(state)),
        "equals_none": lambda: str(not state).lower(),
    }
    return answers[call](), state


def on_baggage(baggage, call, texts):
    key = texts[0] if texts else ""
    value, metadata = baggage.get(key, (None, ""))
    if call in ("insert", "insert_with_metadata"):
        more = model.put(baggage, key, texts[1], model.kept(texts[2]) if len(texts) > 2 else "")
        old = (value, metadata) if more is not baggage and value is not None else (None, "")
        return option(*old) if len(texts) > 2 else option(old[0]), more
    if call == "remove":
        return option(value, metadata), {it: baggage[it] for it in baggage if it != key}
    answers = {
        "get_with_metadata": lambda: option(value, metadata),
        "len": lambda: str(len(baggage)),
        "to_string": lambda: quoted(model.printed(baggage)),
        "iter": lambda: " ".join([str(len(baggage)), *(quoted(it) for key, pair in baggage.items() for it in (key, *pair))]),
    }
    return answers[call](), baggage


def on_carrier(texts_held, call, texts):
    if call == "set":
        return "ok", {**texts_held, model.lower(texts[0]): texts[1]}
    if call == "insert":
        return option(texts_held.get(texts[0])), {**texts_held, texts[0]: texts[1]}
    if call == "get":
        return option(texts_held.get(model.lower(texts[0]))), texts_held
    keys = sorted(texts_held, key=lambda it: it.encode())
    return " ".join([str(len(keys)), *map(quoted, keys)]), texts_held


ACTS = {"TraceState": on_state, "Baggage": on_baggage, "HashMap": on_carrier}


def written(group):
    """The rows of the group, or nothing if a row has nothing to act on."""
    (call, texts), *more = group
    answer, subject = begun(call, texts)
    rows = [f"{call} {arguments(call, texts)} => {answer}"]
    for it, texts in more:
        if subject is None:
            return None
        answer, subject = ACTS[call.split("::")[0]](subject, it, texts)
        rows.append(f"  {it} {arguments(it, texts)} => {answer}")
    return rows


# The rows that are drawn.

def token(rng):
    return rng.choice(TOKENS) if rng.random() < 0.5 else draw.some(rng, "abcxyz!~", 3) or "a"


def text(rng):
    if rng.random() < 0.03:
        return rng.choice("x \xe9") * rng.choice([12, 256, 4090, 8190, 8191, 8192])
    return draw.some(rng, draw.SIGNS, 8)


def hexadecimal(rng):
    digits = draw.some(rng, "0123456789abcdefABCDEF", rng.choice([3, 16, 17, 32, 33]))
    it = rng.choice(["", "", "", "+", "-", "++", "0x"]) + rng.choice(["", "", "0" * 20]) + digits
    return draw.mutated(rng, it, list("0aFgG+- \xe9")) if rng.random() < 0.2 else it


def several(rng, most, *parts):
    return [it(rng) for _ in range(rng.randint(0, most)) for it in parts]


ROOTS = [
    lambda rng: ("TraceState::from_str", [draw.state_text(rng)]),
    lambda rng: ("TraceState::from_str", [draw.any_state_text(rng)]),
    lambda rng: ("TraceState::from_key_value", several(rng, rng.choice([3, 3, 40]), draw.state_key, draw.state_value)),
    lambda rng: ("TraceState::from_key_value", several(rng, 3, draw.any_key, draw.any_value)),
    lambda rng: ("TraceStateError::to_string", [draw.any_state_text(rng)]),
    lambda rng: ("Baggage::new", []),
    lambda rng: ("Baggage::from_key_values", several(rng, rng.choice([4, 4, 70]), token, text)),
    lambda rng: ("Baggage::from_key_values_with_metadata", several(rng, 4, token, text, text)),
    lambda rng: ("HashMap::new", []),
    lambda rng: ("TraceId::from_hex", [hexadecimal(rng)]),
    lambda rng: ("SpanId::from_hex", [hexadecimal(rng)]),
    lambda rng: ("BaggageMetadata::new", [text(rng)]),
]

CALLS = {
    "TraceState": [("insert", draw.state_key, draw.state_value), ("insert", draw.any_key, draw.any_value),
                   ("delete", draw.any_key), ("get", draw.any_key), ("header_delimited", text, text), ("len",),
                   ("equals_none",)],
    "Baggage": [("insert", token, text), ("insert_with_metadata", token, text, text), ("remove", token),
                ("get_with_metadata", token), ("len",), ("to_string",), ("iter",)],
    "HashMap": [("set", text, text), ("set", token, text), ("insert", token, text), ("get", token), ("get", text), ("keys",)],
}


def group(rng):
    """A root, rows that act on its value, and for a trace state a row that reads its header again."""
    it = [rng.choice(ROOTS)(rng)]
    kind, subject = it[0][0].split("::")[0], begun(*it[0])[1]
    if subject is not None:
        for _ in range(rng.randint(0, 6)):
            call, *parts = rng.choice(CALLS[kind])
            it.append((call, [part(rng) for part in parts]))
    return it


def again(group):
    """The group that reads the header of the resulting state of this one."""
    (call, texts), *more = group
    if call not in STATE_ROOTS:
        return None
    state = begun(call, texts)[1]
    for it, texts in more:
        state = on_state(state, it, texts)[1]
    if state is None:
        return None
    # A state that was read has a header that reads as the same state. A given value may end in blanks, which are trimmed.
    wanted = [(key, value.rstrip(" \t")) for key, value in state]
    read = model.read_state(model.header(state))
    if read != wanted:
        raise AssertionError(f"the model doesn't read {state} again")
    return [("TraceState::from_str", [model.header(state)])]


def broken(rng, row):
    """The row with some places changed: it may be right, wrong or no row at all."""
    it = draw.mutated(rng, row, list("\"\\#=>+* {}u09afxk"))
    return "" if TOO_LONG.search(it) else it
