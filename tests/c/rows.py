#!/usr/bin/env python3
"""Makes the calls of the rows through the archive's shared object, on trace states and on baggages: rows.py OBJECT FILE..

Each header is read, and each state changed and queried, as the text of a header. Reading trims the blanks at the end of a value,
so the header of a state with such a value isn't equivalent: the rows below that act on it are left out. A baggage belongs to a
context. The values replaced by an insert or a removal are read before. Rows that print a baggage are left out, as are those of a
baggage from one on with metadata that no header can carry, which is refused. The last line is `N passed, M failed`.
"""
import ctypes
import re
import sys

ROOM = 16447
OK, NO_MEMORY, NOT_TEXT, NO_ROOM, ABSENT, KEY, VALUE, LIST = range(8)
UNSENDABLE = 10
ERRORS = {"key": KEY, "value": VALUE, "list": LIST}
# A key that no row has: without it, a state is unchanged.
NO_KEY = b"no_row/has-this*key"
# The answer of a row for nothing.
NONE = "none"
PART = re.compile(r'"((?:[^"\\]|\\.)*)"(?:\*(\d+))?')
ESCAPE = re.compile(r'\\(?:u\{([0-9a-f]+)\}|(.))', re.IGNORECASE)
CUT = re.compile(rb"[ \t](,|$)")
OTHER = {"n": "\n", "t": "\t"}
# What a header can carry.
SENDABLE = re.compile(r"[\t -~]*")


def text(part):
    """The bytes of a quoted text, which may be repeated."""
    plain = ESCAPE.sub(lambda it: chr(int(it[1], 16)) if it[1] else OTHER.get(it[2], it[2]), part[1])
    return plain.encode() * int(part[2] or 1)


def texts(words):
    """The texts of a row's words. Words joined by `+` are one text."""
    found, end = [], None
    for part in PART.finditer(words):
        joined = end is not None and words[end:part.start()].strip() == "+"
        found[-1:] = [found[-1] + text(part)] if joined else [*found[-1:], text(part)]
        end = part.end()
    return found


def sized(parts):
    """Each text with its length."""
    return [it for each in parts for it in (each, ctypes.c_size_t(len(each)))]


def asked(function, *given):
    """The status, and the text if there is one."""
    room, written = ctypes.create_string_buffer(ROOM), ctypes.c_size_t()
    status = function(*given, room, ctypes.c_size_t(ROOM), ctypes.byref(written))
    return status, room.raw[:written.value] if status == OK else None


class TraceStates:
    def __init__(self, functions):
        self.functions, self.state = functions, b""

    def call(self, name, *given):
        return asked(getattr(self.functions, f"otel_trace_state_{name}"), *sized(given))

    def act(self, name, given):
        """The result of the row's call, or None if the row is left out."""
        if name == "TraceState::from_str":
            got = self.call("delete", given[0], NO_KEY)
            self.state = got[1] or b""
            return got
        if name not in ("insert", "delete", "get") or CUT.search(self.state):
            return None
        got = self.call(name, self.state, *given)
        if name != "get" and got[0] == OK:
            self.state = got[1]
        return got

    @staticmethod
    def wanted(answer):
        """The status and the text of `ok TEXT`, `some TEXT`, `none` and `err KIND TEXT`."""
        kind, _, rest = answer.strip().partition(" ")
        if kind == "none":
            return ABSENT, None
        if kind == "err":
            return ERRORS[rest.split()[0]], None
        return OK, texts(rest)[0]


class Baggages:
    def __init__(self, functions):
        self.functions, self.context, self.is_known = functions, ctypes.c_void_p(), False

    def new(self):
        self.functions.otel_context_new(ctypes.byref(self.context))

    def change(self, name, *given):
        """Whether the context now is the one that the call returns."""
        changed, old = ctypes.c_void_p(), self.context
        function = getattr(self.functions, f"otel_baggage_{name}")
        status = function(ctypes.byref(old), *sized(given), ctypes.byref(changed))
        if status == UNSENDABLE and not SENDABLE.fullmatch(given[2].decode().strip()):
            self.is_known = False
        if status != OK:
            return False
        self.context = changed
        self.functions.otel_free(ctypes.byref(old))
        return True

    def found(self, key):
        """The value and the metadata of the key, or `NONE`."""
        value, metadata = (asked(function, ctypes.byref(self.context), *sized([key])) for function in
                           (self.functions.otel_baggage_get, self.functions.otel_baggage_metadata))
        return [value[1], metadata[1]] if value[0] == metadata[0] == OK else NONE

    def length(self):
        length = ctypes.c_size_t()
        self.functions.otel_baggage_length(ctypes.byref(self.context), ctypes.byref(length))
        return str(length.value)

    def act(self, name, given):
        """The result of the row's call, or None if the row is left out."""
        if name.startswith("Baggage::"):
            self.is_known = name in ("Baggage::new", "Baggage::from_key_values_with_metadata")
            self.new()
            for at in range(0, len(given) if self.is_known else 0, 3):
                self.change("set", *given[at:at + 3])
        elif self.is_known and name in ("insert", "insert_with_metadata"):
            old = self.found(given[0])
            is_set = self.change("set", *given, *[b""] * (3 - len(given)))
            if not self.is_known:
                return None
            return old[:len(given) - 1] if is_set and old != NONE else NONE
        elif self.is_known and name == "remove":
            old = self.found(given[0])
            return old if self.change("remove", *given) else "refused"
        elif self.is_known and name == "get_with_metadata":
            return self.found(given[0])
        elif self.is_known and name == "len":
            return self.length()
        return None

    @staticmethod
    def wanted(answer):
        """The texts of `some TEXT..`, or otherwise the word."""
        return texts(answer) if answer.strip().startswith("some") else answer.strip()


def rows(path):
    with open(path, encoding="utf-8") as file:
        lines = re.sub(r"\\\n", " ", file.read()).split("\n")
    for number, line in enumerate(lines, 1):
        if "=>" in line and not line.lstrip().startswith("#"):
            yield number, line


def run(functions, path):
    passed, failed = 0, 0
    acts = Baggages(functions) if "baggage" in path else TraceStates(functions)
    for number, line in rows(path):
        call, answer = line.split("=>", 1)
        got = acts.act(call.split()[0], texts(call))
        if got is None:
            continue
        if got == acts.wanted(answer):
            passed += 1
        else:
            failed += 1
            print(f"{path}:{number}: {got}, not as the row says")
    return passed, failed


def main():
    functions = ctypes.CDLL(sys.argv[1])
    counts = [run(functions, path) for path in sys.argv[2:]]
    passed, failed = (sum(part) for part in zip(*counts))
    print(f"{passed} passed, {failed} failed")
    sys.exit(failed != 0)


if __name__ == "__main__":
    main()
