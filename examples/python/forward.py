#!/usr/bin/env python3
"""Starts a span below the one of the headers that are received, one `name: value` a line on standard input, and prints the
headers to send on."""
import sys

from otel_c import Propagator

received, sent = {}, {}
for line in sys.stdin:
    name, _, value = line.partition(":")
    received.setdefault(name, []).append(value.strip())
propagator = Propagator()
child = propagator.extract(received).start_child()
propagator.inject(child, sent)
for name, value in sent.items():
    print(f"{name}: {value}")
