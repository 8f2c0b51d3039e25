"""Reads and writes the headers traceparent, tracestate and baggage, by the library for C.

    propagator = Propagator()
    context = propagator.extract(received)    # a dict of headers
    propagator.inject(context, sent)          # sets the headers in the dict

The library is the `libotel_c.so` that `make install` installs: the file that the variable OTEL_C_LIBRARY names, or the one that
the system finds. What counts in a header, and what is sent, is said in otel.h at `otel_context_extract` and
`otel_context_inject`.
"""
from otel_c.library import OtelError
from otel_c.propagator import Context, Member, Propagator, Span

__all__ = ["Context", "Member", "OtelError", "Propagator", "Span"]
