"""Builds the program of scenarios: an executable file for this machine, unproved. Its proofs would take long and show little."""
import os
import re
import subprocess
import sys

HERE = os.path.dirname(os.path.abspath(__file__))
sys.dont_write_bytecode = True
sys.path.insert(0, f"{os.path.dirname(HERE)}/tools")
import unproved
from built import crates
from unproved import Failed

NAME = "memory_scenarios"
# The crates that the scenarios call.
CALLED = (
    "otel_appender_log", "otel_examples", "otel_http", "otel_propagators", "otel_sdk", "otel_sdk_base", "otel_sdk_logs",
    "otel_otlp", "otel_proto", "otel_proto_answers", "otel_proto_batches", "otel_waterfall",
)


def lay_program(room):
    """Copies the program next to a copy of the crates below it. Returns its folder."""
    known, found = crates(), list(CALLED)
    for it in found:
        found += [dep for dep in known.get(it, []) if dep not in found]
    folder = f"{unproved.lay_crates(room, [it for it in found if it in known], known, [(NAME, found)])}/{NAME}"
    for path in sources():
        unproved.write(f"{folder}/src/{path}.rt", read(f"{HERE}/src/{path}.rs"))
    return folder


def read(path):
    with open(path, encoding="utf-8") as file:
        return file.read()


def sources():
    """The paths of the program's sources below src/, without their endings."""
    return sorted(os.path.relpath(f"{at}/{name}", f"{HERE}/src")[:-3]
                  for at, _, names in os.walk(f"{HERE}/src") for name in names if name.endswith(".rs"))


def lay_out(folder):
    """The sources that `rt fmt` would change. The ones of the folder are then formatted."""
    said = subprocess.run(["rt", "fmt"], cwd=folder, stdin=subprocess.DEVNULL, stdout=subprocess.PIPE,
                          stderr=subprocess.STDOUT, text=True, errors="replace")
    found = re.findall(r"(?m)^rt: formatted src/(.*)\.rt$", said.stdout)
    if said.returncode:
        raise Failed(f"rt fmt: {said.stdout}")
    return found


def build(room):
    """Builds the program in the room. Returns its path. Raises `Failed` if it doesn't compile."""
    folder = lay_program(f"{room}/copy")
    others = lay_out(folder)
    if others:
        raise Failed(f"`tests/memory/sweep --fmt` lays out otherwise: {' '.join(others)}")
    unproved.build(folder, room, f"{room}/{NAME}")
    return f"{room}/{NAME}"
