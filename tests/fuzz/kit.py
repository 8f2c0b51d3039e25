"""Builds the three programs, the driver of otel_carry, the reader of the vectors' rows and the orders of requests, and runs them on
cases."""
import importlib.machinery
import importlib.util
import os
import re
import shutil
import subprocess
import sys

HERE = os.path.dirname(os.path.abspath(__file__))
TOP = os.path.dirname(os.path.dirname(HERE))
MAIN = "fn main(rt: HostRuntime) -> std::io::Result<()> {\n    driver::play(rt)\n}\n"
# The interpreter, with which `rt try` also runs a program, is too slow for many cases: few steps.
TRY = ["rt", "try", "--steps", "1000", "--seconds", "900"]


def script(path, name):
    """A script of this repository as a module."""
    loader = importlib.machinery.SourceFileLoader(name, path)
    spec = importlib.util.spec_from_loader(name, loader)
    module = importlib.util.module_from_spec(spec)
    loader.exec_module(module)
    return module


def replaced(text, pattern, by):
    """The text with the only match of the pattern replaced."""
    text, count = re.subn(pattern, lambda _: by, text)
    if count != 1:
        sys.exit(f"tests/fuzz: {pattern!r} stands {count} times in main.rt, not once")
    return text


def lay_programs(room):
    """The program otel_carry with another `main`, which runs many inputs with the same `serve`."""
    subprocess.run(["git", "init", "-q", room], check=True)
    shutil.copytree(f"{TOP}/crates", f"{room}/crates", ignore=shutil.ignore_patterns("out", "must-fail"))
    shutil.copy(f"{TOP}/crates.txt", room)
    folder = f"{room}/crates/otel_carry"
    with open(f"{folder}/src/main.rt", encoding="utf-8") as file:
        text = file.read()
    text = replaced(text, r"input: Stdin, output: Stdout", "input: &[u8], output: &mut Vec<u8>")
    text = replaced(text, r"use std::io::\{BufWriter, Stdin, Stdout\};\n", "use std::io::BufWriter;\n")
    text = replaced(text, r"use std::process::ExitCode;\n", "")
    text = replaced(text, r"(?ms)^fn main\(.*\Z", MAIN)
    text = replaced(text, r"(?m)^mod events;$", "mod driver;\nmod events;\nmod headers;")
    with open(f"{folder}/src/main.rt", "w", encoding="utf-8") as file:
        file.write(text)
    for name in ("driver", "headers"):
        shutil.copy(f"{HERE}/src/{name}.rs", f"{folder}/src/{name}.rt")
    return folder


def lay_orders(room):
    """The orders of the tests of opentelemetry, with a `main` that plays many."""
    subprocess.run(["git", "init", "-q", room], check=True)
    shutil.copytree(f"{TOP}/crates", f"{room}/crates", ignore=shutil.ignore_patterns("out", "must-fail"))
    folder = f"{room}/crates/orders"
    os.makedirs(f"{folder}/src")
    shutil.copy(f"{HERE}/src/orders.rs", f"{folder}/src/main.rt")
    for name in ("keeping", "orders", "plain"):
        shutil.copy(f"{TOP}/tests/crates/opentelemetry/src/tracing/{name}.rs", f"{folder}/src/{name}.rt")
    with open(f"{TOP}/crates.txt", encoding="utf-8") as file:
        listed = file.read()
    below = re.search(r"(?m)^otel_examples: (.*)$", listed)[1]
    with open(f"{room}/crates.txt", "w", encoding="utf-8") as file:
        file.write(f"{listed}orders: {below} otel_examples\n")
    return folder


def lay_rows(room):
    return script(f"{TOP}/tests/vectors/run", "vectors_run").lay(room)


def run(folder, cases, room):
    """The output of the folder's program for each case, and whether it ended: a dictionary by the cases' names."""
    shutil.rmtree(room, ignore_errors=True)
    os.makedirs(room)
    for name, given in cases.items():
        with open(f"{room}/{name}", "wb") as file:
            file.write(given)
    ran = subprocess.run([*TRY, "--cases", room], cwd=folder, stdin=subprocess.DEVNULL, capture_output=True)
    text, told = ran.stdout.decode(errors="replace"), ran.stderr.decode(errors="replace")
    ended = dict(re.findall(r"(?m)^case=(\S+) (run=\S+ status=\S+) ", told))
    if set(ended) != set(cases):
        sys.exit(f"tests/fuzz: the program doesn't compile or doesn't run:\n{told[-3000:]}")
    printed = dict(re.findall(r"(?ms)^== (\S+)\n(.*?)(?=^== |\Z)", text))
    return {name: (printed.get(name, ""), ended[name]) for name in cases}
