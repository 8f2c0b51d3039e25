#!/usr/bin/env python3
"""Builds a program of the repository unproved: an executable file for this machine, in half a minute.

    unproved.py NAME [--fast]    prints the path of such a build of crates/NAME, which is made first if its sources have changed;
                                 with --fast it is compiled with -O2, which takes longer

Only a proved crate is built by `rt run`. `rt try` compiles a program unproved, but runs it only once, with the checks of
AddressSanitizer, which has its own `malloc`, and deletes it. So `rt try` runs here from a copy of the kit that consists of links,
except for its `clang`: the one here omits these checks, and writes the object file where we need it. `rt try` then ends, since it
misses that file, and `rattle-link` links the program as `rt run` does.

This relies on two things beyond the kit's documented commands: `rt` finds the kit by the path of its own file, and `rt try` calls
`toolchain/bin/clang -c .. -o FILE .. -fsanitize=address` for the module of the program. If a later kit does otherwise, no object
file is written, and `build` says so with the output of `rt try`. The rest of the build is the kit's: the checks of indices, of
arithmetic and of `unwrap` stay in the program, and abort it. During the build, `rt try` also has `rattle check --start` look for
reserved names, which takes as long again; the `rattle` here omits that.

`./new` copies this file and built.py into other repositories, so it imports nothing else of this one.
"""
import os
import shutil
import subprocess
import sys
import tempfile

sys.dont_write_bytecode = True
from built import KIT, TOP, checksum, crates, is_of, keep

# No build takes this long.
SECONDS = 900
CLANG = """#!{python}
import os, sys
words = sys.argv[1:]
if "-fsanitize=address" in words:
    words.remove("-fsanitize=address")
    words[words.index("-o") + 1] = {made!r}
    # Of several levels the last counts.
    words += {more!r}
os.execv({clang!r}, [{clang!r}, *words])
"""
RATTLE = """#!{python}
import os, sys
if "--start" not in sys.argv:
    os.execv({rattle!r}, [{rattle!r}, *sys.argv[1:]])
"""


class Failed(Exception):
    """The reason why there is no program."""


def write(path, text):
    os.makedirs(os.path.dirname(path), exist_ok=True)
    with open(path, "w", encoding="utf-8") as file:
        file.write(text)


def link_all(source, to, apart=()):
    """Makes the folder, with a link to each entry of the source except these."""
    os.makedirs(to)
    for name in os.listdir(source):
        if name not in apart:
            os.symlink(f"{source}/{name}", f"{to}/{name}")


def write_command(path, text, **names):
    write(path, text.format(python=sys.executable, **names))
    os.chmod(path, 0o755)


def lay_kit(room):
    """Makes a copy of the kit in which `rt try` doesn't look for reserved names. Returns its command rt."""
    link_all(KIT, room, ("bin",))
    link_all(f"{KIT}/bin", f"{room}/bin", ("rt", "rtlib.py", "rattle"))
    for name in ("rt", "rtlib.py"):
        shutil.copy(f"{KIT}/bin/{name}", f"{room}/bin/{name}")
    write_command(f"{room}/bin/rattle", RATTLE, rattle=f"{KIT}/bin/rattle")
    return f"{room}/bin/rt"


def lay_clang(room, made, more):
    """Gives the copy of the kit a clang that writes the program's object file, called with more words."""
    os.remove(f"{room}/toolchain")
    link_all(f"{KIT}/toolchain", f"{room}/toolchain", ("bin",))
    link_all(f"{KIT}/toolchain/bin", f"{room}/toolchain/bin", ("clang",))
    write_command(f"{room}/toolchain/bin/clang", CLANG, clang=f"{KIT}/toolchain/bin/clang", made=made, more=more)


def lay_crates(room, names, known, more=()):
    """Copies these crates of the repository into the room, and lists them, and more lines of crates.txt. Returns the folder of
    crates."""
    subprocess.run(["git", "init", "-q", room], check=True)
    for it in names:
        shutil.copytree(f"{TOP}/crates/{it}", f"{room}/crates/{it}", ignore=shutil.ignore_patterns("out", "must-fail"))
    write(f"{room}/crates.txt", "".join(f"{it}: {' '.join(deps)}\n" for it, deps in [*((it, known[it]) for it in names), *more]))
    return f"{room}/crates"


def build(folder, room, program, is_fast=False):
    """Builds the program of the crate in the folder, as this file. Raises `Failed` if it doesn't compile."""
    made = f"{room}/{os.path.basename(program)}.o"
    # The interpreter, with which `rt try` also runs a program, isn't needed: few steps.
    tries = [lay_kit(f"{room}/kit"), "try", "--steps", "1"]
    lay_clang(f"{room}/kit", made, ["-O2"] if is_fast else [])
    tried = subprocess.run([sys.executable, *tries], cwd=folder, stdin=subprocess.DEVNULL, stdout=subprocess.PIPE,
                           stderr=subprocess.STDOUT, errors="replace", timeout=SECONDS)
    if not os.path.isfile(made):
        raise Failed(f"{tried.stdout}\n`rt try` made no object file by way of {KIT}/toolchain/bin/clang")
    words = ["--target", "x86_64-unknown-linux-gnu", "--toolchain", f"{KIT}/toolchain", "-o", program, made]
    words += [f"{KIT}/c/libos_c.a", f"{KIT}/c/liblibc_c.a"]
    linked = subprocess.run([f"{KIT}/bin/rattle-link", *words], stdin=subprocess.DEVNULL, stdout=subprocess.PIPE,
                            stderr=subprocess.STDOUT, text=True, errors="replace")
    if linked.returncode:
        raise Failed(linked.stdout)


def path(name, known, is_fast=False, text=""):
    """The path of an unproved build of the program from its current sources. If there is none, it is made, after the text is
    shown. Raises `Failed` if the program doesn't compile."""
    made, sources = f"{TOP}/crates/{name}/out/{'fast' if is_fast else 'unproved'}/{name}", checksum(name, known)
    if not is_of(made, sources):
        print(text, end="", file=sys.stderr, flush=True)
        with tempfile.TemporaryDirectory(prefix="unproved-") as room:
            build(f"{TOP}/crates/{name}", room, f"{room}/{name}", is_fast)
            keep(f"{room}/{name}", made, sources)
    return made


def main(given):
    if not given or given[1:] not in ([], ["--fast"]):
        print(__doc__, file=sys.stderr)
        return 2
    name, is_fast, known = given[0], bool(given[1:]), crates()
    if name not in known:
        sys.exit(f"{TOP}/crates.txt has no line for {name}")
    try:
        print(path(name, known, is_fast, f"{name} is compiled, unproved, in about a minute\n"))
    except Failed as why:
        sys.exit(f"{why}\n{name} isn't compiled")
    return 0


if __name__ == "__main__":
    sys.exit(main(sys.argv[1:]))
