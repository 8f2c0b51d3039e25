"""Contexts, and the propagator that reads them from headers and sends them on."""
import ctypes
import re
from typing import NamedTuple

from otel_c.library import NO_MEMORY, Handle, MemberTexts, OtelError, SpanContext, ask, call

FIELDS = ("traceparent", "tracestate", "baggage")
# The digits of ids.
DIGITS = re.compile(r"[0-9a-fA-F]*")


class Span(NamedTuple):
    """What identifies a span: hexadecimal ids, the flags, the header of its trace state, and whether it is of another process."""

    trace_id: str
    span_id: str
    flags: int = 0
    trace_state: str = ""
    is_remote: bool = False


class Member(NamedTuple):
    """What a baggage has for a key."""

    value: str
    metadata: str = ""


def id_of(digits, kind):
    """The bytes of an id, as ctypes takes them."""
    if len(digits) != 2 * kind._length_ or not DIGITS.fullmatch(digits):
        raise ValueError(f"an id has {2 * kind._length_} hexadecimal digits, unlike {digits!r}")
    return kind(*bytes.fromhex(digits))


class Context:
    """A span and a baggage. Nothing changes one: `start_child`, `with_span`, `with_trace_state_pair`, `with_member`,
    `with_members`, `without_member` and `without_baggage` make others."""

    def __init__(self):
        self._handle = Handle()
        call("otel_context_new", self._handle)

    def _copy(self):
        made = Context.__new__(Context)
        made._handle = Handle()
        call("otel_context_clone", self._handle, made._handle)
        return made

    @property
    def span(self):
        """The span, or None if there is none with ids other than 0."""
        parts = SpanContext()
        call("otel_context_span", self._handle, parts)
        trace_id, span_id = bytes(parts.trace_id), bytes(parts.span_id)
        if not any(trace_id) or not any(span_id):
            return None
        state = ask("otel_context_trace_state", self._handle).decode()
        return Span(trace_id.hex(), span_id.hex(), parts.flags, state, bool(parts.is_remote))

    @property
    def baggage(self):
        """The members: a dict of `Member`, in their order."""
        count = ctypes.c_size_t()
        call("otel_baggage_length", self._handle, ctypes.byref(count))
        keys = [ask("otel_baggage_key", self._handle, at) for at in range(count.value)]
        return {key.decode(): Member(ask("otel_baggage_get", self._handle, key).decode(),
                                     ask("otel_baggage_metadata", self._handle, key).decode()) for key in keys}

    def with_span(self, span):
        """The context with this span. Raises `OtelError` if its trace state can't be read, or no header can carry it."""
        fields = dict(SpanContext._fields_)
        parts = SpanContext(id_of(span.trace_id, fields["trace_id"]), id_of(span.span_id, fields["span_id"]), span.flags,
                            span.is_remote)
        made = self._copy()
        call("otel_context_set_span", made._handle, parts, span.trace_state.encode())
        return made

    def with_trace_state_pair(self, key, value):
        """The context with the pair in front of the trace state of its span. Raises `OtelError` if it isn't valid."""
        made = self._copy()
        call("otel_context_set_trace_state_pair", made._handle, key.encode(), value.encode())
        return made

    def start_child(self):
        """The context with a child of its span or, without a span, with the first of a trace, which is sampled. New ids are
        random."""
        made = Context.__new__(Context)
        made._handle = Handle()
        call("otel_context_start_child", self._handle, made._handle)
        return made

    def with_member(self, key, value, metadata=""):
        """The context with the member in its baggage. Raises `OtelError` if a baggage can't have it."""
        made = Context.__new__(Context)
        made._handle = Handle()
        call("otel_baggage_set", self._handle, key.encode(), value.encode(), metadata.encode(), made._handle)
        return made

    def with_members(self, members):
        """The context with all of the members, a dict of `Member`, in its baggage. Raises `OtelError` if a baggage can't have
        one of them."""
        texts = [[text.encode() for text in (key, *member)] for key, member in members.items()]
        given = (MemberTexts * len(texts))(*((key, len(key), value, len(value), metadata, len(metadata))
                                             for key, value, metadata in texts))
        made = Context.__new__(Context)
        made._handle = Handle()
        call("otel_baggage_set_all", self._handle, given, len(texts), made._handle, None)
        return made

    def without_member(self, key):
        """The context without the member of the key, if there is one."""
        made = Context.__new__(Context)
        made._handle = Handle()
        call("otel_baggage_remove", self._handle, key.encode(), made._handle)
        return made

    def without_baggage(self):
        """The context without its members."""
        made = Context.__new__(Context)
        made._handle = Handle()
        call("otel_baggage_clear", self._handle, made._handle)
        return made


def values_of(value):
    """The values of a header: one, or several in a list or a tuple."""
    return value if isinstance(value, (list, tuple)) else (value,)


class Propagator:
    """Reads contexts from dicts of headers, and sets the headers that carry them."""

    fields = FIELDS

    def extract(self, headers, context=None):
        """The context with the values of the headers, whose names are read in any case. A value is a str or bytes, or a list of
        them. Other headers, and what can't be read, change nothing."""
        made = context._copy() if context else Context()
        held = Handle()
        call("otel_headers_new", held)
        for name, values in headers.items():
            if name.lower() in FIELDS:
                for value in values_of(values):
                    add(held, name, value)
        call("otel_context_extract", held, made._handle)
        return made

    def inject(self, context, headers):
        """Sets the headers that carry the context in the dict, in place of those of the same names in any case. The dict is
        unchanged if `OtelError` is raised."""
        held = Handle()
        call("otel_headers_new", held)
        call("otel_context_inject", context._handle, held)
        found = {name: ask("otel_headers_get", held, name.encode()) for name in FIELDS}
        for name in [it for it in headers if it.lower() in FIELDS]:
            del headers[name]
        # An empty tracestate or baggage needn't be sent.
        headers.update((name, value.decode("ascii")) for name, value in found.items() if value)


def add(held, name, value):
    """Appends a header. One that no header can have is left out."""
    try:
        call("otel_headers_append", held, name.encode(), value if isinstance(value, bytes) else value.encode(errors="surrogatepass"))
    except OtelError as refused:
        if refused.status == NO_MEMORY:
            raise
