"""The functions of otel.h."""
import ctypes
import ctypes.util
import os

OK, NO_MEMORY, NOT_TEXT, NO_ROOM, ABSENT = range(5)
REASONS = ("done", "out of memory", "a text isn't UTF-8", "the buffer is too short", "no such entry", "the key isn't valid",
           "the value isn't valid", "a member of the trace state has no `=`", "a handle holds another kind of object",
           "headers, a baggage or a stack can't take it", "no header can carry it",
           "the system gives no random bytes")
# The capacity that is tried first.
USUAL = 512


class OtelError(Exception):
    """A call that was refused. `status` is the number in `enum otel_status`."""

    def __init__(self, status):
        super().__init__(REASONS[status] if status < len(REASONS) else f"status {status}")
        self.status = status


class Handle(ctypes.Structure):
    """`otel_handle`. What it holds is freed with it."""

    _fields_ = [("object", ctypes.c_void_p)]

    def __del__(self):
        if self.object:
            library.otel_free(ctypes.byref(self))


class SpanContext(ctypes.Structure):
    """`otel_span_context`."""

    _fields_ = [("trace_id", ctypes.c_uint8 * 16), ("span_id", ctypes.c_uint8 * 8), ("flags", ctypes.c_uint8),
                ("is_remote", ctypes.c_uint8)]


class MemberTexts(ctypes.Structure):
    """`otel_member`."""

    _fields_ = [(f"{name}{part}", kind) for name in ("key", "value", "metadata")
                for part, kind in (("", ctypes.c_char_p), ("_length", ctypes.c_size_t))]


HANDLE, TEXT, SIZE = ctypes.POINTER(Handle), (ctypes.c_char_p, ctypes.c_size_t), ctypes.c_size_t
# A buffer, its capacity, and the length.
OUTPUT = (ctypes.c_void_p, SIZE, ctypes.POINTER(SIZE))
PARAMETERS = {
    "otel_headers_new": (HANDLE,),
    "otel_headers_append": (HANDLE, *TEXT, *TEXT),
    "otel_headers_get": (HANDLE, *TEXT, *OUTPUT),
    "otel_context_new": (HANDLE,),
    "otel_context_extract": (HANDLE, HANDLE),
    "otel_context_inject": (HANDLE, HANDLE),
    "otel_context_clone": (HANDLE, HANDLE),
    "otel_context_span": (HANDLE, ctypes.POINTER(SpanContext)),
    "otel_context_trace_state": (HANDLE, *OUTPUT),
    "otel_context_set_span": (HANDLE, ctypes.POINTER(SpanContext), *TEXT),
    "otel_context_set_trace_state_pair": (HANDLE, *TEXT, *TEXT),
    "otel_context_start_child": (HANDLE, HANDLE),
    "otel_baggage_length": (HANDLE, ctypes.POINTER(SIZE)),
    "otel_baggage_key": (HANDLE, SIZE, *OUTPUT),
    "otel_baggage_get": (HANDLE, *TEXT, *OUTPUT),
    "otel_baggage_metadata": (HANDLE, *TEXT, *OUTPUT),
    "otel_baggage_set": (HANDLE, *TEXT, *TEXT, *TEXT, HANDLE),
    "otel_baggage_set_all": (HANDLE, ctypes.POINTER(MemberTexts), SIZE, HANDLE, ctypes.POINTER(SIZE)),
    "otel_baggage_remove": (HANDLE, *TEXT, HANDLE),
    "otel_baggage_clear": (HANDLE, HANDLE),
}


def load():
    path = os.environ.get("OTEL_C_LIBRARY") or ctypes.util.find_library("otel_c") or "libotel_c.so"
    # A `PyDLL` keeps the interpreter's lock, so that calls are one at a time, as objects that share memory need.
    found = ctypes.PyDLL(path)
    for name, parameters in PARAMETERS.items():
        function = getattr(found, name)
        function.argtypes, function.restype = parameters, ctypes.c_uint32
    found.otel_free.argtypes, found.otel_free.restype = (HANDLE,), None
    return found


library = load()


def arguments(given):
    """The arguments of a call: a handle is passed by its address, and a text with its length."""
    for it in given:
        if isinstance(it, ctypes.Structure):
            yield ctypes.byref(it)
        elif isinstance(it, bytes):
            yield it
            yield len(it)
        else:
            yield it


def call(name, *given):
    """Makes the call. Raises `OtelError` if it was refused."""
    status = getattr(library, name)(*arguments(given))
    if status != OK:
        raise OtelError(status)


def ask(name, *given):
    """The bytes that the call writes, or None if there is no such entry. Raises `OtelError` if it was refused."""
    function, words, length, capacity = getattr(library, name), list(arguments(given)), SIZE(), USUAL
    while True:
        buffer = ctypes.create_string_buffer(capacity)
        status = function(*words, buffer, capacity, ctypes.byref(length))
        if status == OK:
            return buffer.raw[:length.value]
        if status == ABSENT:
            return None
        if status != NO_ROOM:
            raise OtelError(status)
        capacity = length.value
