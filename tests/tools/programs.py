#!/usr/bin/env python3
"""Builds the programs of the repository, proved or not.

    programs.py path NAME     prints the path of the program of crates/NAME: as it was proved and built or, if no proved program
                              of these sources exists, as an unproved build of the same code, which takes half a minute
    programs.py prove         proves and builds all programs, and runs them
    programs.py archive       proves and builds the static library of crates/otel_c, and prints its path

`rt ci` makes the proofs, in a copy with only the required crates and without wrong bodies. It proves crates in parallel, and
reuses the proofs of earlier runs on this machine, such as `make test`. Everything except the results goes to standard error.
"""
import contextlib
import os
import shutil
import subprocess
import sys
import tempfile

sys.dont_write_bytecode = True
import progress
import unproved
from built import KIT, TOP, below, checksum, crates, is_of, keep, words

# The arguments and the input with which `make prove` runs each program. A program without either runs as it is.
SHOWN = {"otel_carry": ([], "examples/first-run"), "otel_service": (["--headers", "--fixed", "--waterfall"], "examples/service"),
         "otel_view": (["--help"], os.devnull)}
STATIC = "otel_c"


def say(text):
    print(text, file=sys.stderr, flush=True)


def programs(known):
    return [it for it in known if os.path.isfile(f"{TOP}/crates/{it}/src/main.rt")]


def path(name):
    """The path of the program, which is built first if needed."""
    known = crates()
    if name not in programs(known):
        sys.exit(f"{name} is none of the programs {' '.join(programs(known))}")
    sources, out = checksum(name, known), f"{TOP}/crates/{name}/out"
    if is_of(f"{out}/{name}", sources):
        say(f"{name}: this is the proved program")
        return f"{out}/{name}"
    try:
        with progress.Progress(f"{name} is compiled, unproved"):
            made = unproved.path(name, known)
    except unproved.Failed as why:
        sys.exit(f"{why}\n{name} isn't compiled")
    say(f"{name}: this is an unproved build; `make prove` proves the program")
    return made


@contextlib.contextmanager
def proved_copy(what, names, known):
    """Returns a copy of these crates and the crates below them, proved and built by `rt ci`. Exits with its status if it
    failed."""
    room = tempfile.mkdtemp(prefix="proved-")
    try:
        needed = list(dict.fromkeys(dep for it in names for dep in [*below(it, known), it]))
        for it in needed:
            shutil.copytree(f"{TOP}/crates/{it}", f"{room}/crates/{it}", ignore=shutil.ignore_patterns("out", "must-fail"))
        with open(f"{TOP}/crates.txt", encoding="utf-8") as file, open(f"{room}/crates.txt", "w", encoding="utf-8") as to:
            to.writelines(line for line in file if (line.split(":")[0].split() or [None])[0] in needed)
        shutil.copy(f"{TOP}/HANDLES", room)
        os.chdir(room)
        status = progress.run(what, ["rt", "ci"], len(needed))
        if status:
            sys.exit(status)
        yield room
    finally:
        os.chdir(TOP)
        shutil.rmtree(room, ignore_errors=True)


def prove():
    """Proves, builds and runs the programs."""
    known = crates()
    names, status = programs(known), 0
    sources = {it: checksum(it, known) for it in names}
    if not all(is_of(f"{TOP}/crates/{it}/out/{it}", sources[it]) for it in names):
        with proved_copy("prove", names, known) as room:
            for it in names:
                keep(f"{room}/crates/{it}/out/{it}", f"{TOP}/crates/{it}/out/{it}", sources[it])
    for it in names:
        arguments, given = SHOWN.get(it, ([], os.devnull))
        say(f"{it}:")
        with open(given, "rb") as file:
            status = subprocess.run([f"{TOP}/crates/{it}/out/{it}", *arguments], stdin=file).returncode or status
    return status


def archive():
    """Proves and builds the static library, and prints its path."""
    known = crates()
    sources, made = checksum(STATIC, known), f"{TOP}/crates/{STATIC}/out/lib{STATIC}.a"
    if not is_of(made, sources):
        with proved_copy(f"prove {STATIC}", [STATIC], known) as room:
            how = ["--crate-type", "staticlib", "--toolchain", f"{KIT}/toolchain", "--backend", "llvm", "-o", f"{room}/archive"]
            os.chdir(f"{room}/crates/{STATIC}")
            status = progress.run(f"build {STATIC}", [f"{KIT}/bin/rattle", "build", *words(room, STATIC, known), *how])
            if status:
                sys.exit(status)
            keep(f"{room}/archive", made, sources)
    print(made)
    return 0


def main(given):
    os.chdir(TOP)
    if given[:1] == ["path"] and len(given) == 2:
        print(path(given[1]))
        return 0
    if given in (["prove"], ["archive"]):
        return prove() if given == ["prove"] else archive()
    print(__doc__, file=sys.stderr)
    return 2


if __name__ == "__main__":
    sys.exit(main(sys.argv[1:]))
