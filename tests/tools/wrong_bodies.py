"""The wrong bodies of a crate, from its files of edits, and a checksum of all that a trial of them reads.

tests/mutants/CRATE/PATH.edits has the wrong bodies of crates/CRATE/src/PATH.rt, in sections:

    == NAME         `Type.function--fault`
    old: TEXT       a text of one line that occurs in the source exactly once
    new: TEXT       its replacement

Further pairs of a section apply to the result of the earlier ones. `file: src/PATH.rt` before a pair names another source. A
crate's must-fail/ has one file NAME.edit for each wrong body, in the kit's format: `file:` and then the pairs.

tests/mutants/refused has a line `CRATE/src/PATH.rt CHECKSUM` for each source with wrong bodies. The checksum covers the texts on
which their trial depends, see reads.py, and is written once the prover has refused every one of them. While it is up to date, they
needn't be tried again.
"""
import functools
import glob
import hashlib
import os
import subprocess

import reads
from built import TOP, crates
from functions import functions

HERE = os.path.dirname(os.path.abspath(__file__))
MUTANTS = f"{TOP}/tests/mutants"
REFUSED = f"{MUTANTS}/refused"
# The script that decides whether a wrong body is refused.
TRIAL = f"{HERE}/trial.py"


def read(path):
    with open(path, encoding="utf-8") as file:
        return file.read()


class WrongBody:
    """A wrong body: its name, and its edits, each a source, a text of it and its replacement."""

    def __init__(self, name, file=None):
        self.name, self.file, self.pairs, self.old = name, file, [], None

    def take(self, line):
        """Reads a line."""
        word, _, text = line.partition(":")
        text = text.removeprefix(" ")
        if word == "file":
            self.file = text.strip()
        elif word == "old":
            self.old = text
        elif word == "new" and self.file and self.old is not None:
            self.pairs.append((self.file, self.old, text))
        elif line.strip():
            raise ValueError(f"{self.name}: a line of no known form: {line!r}")


def in_file(path, file, kind=WrongBody):
    """The wrong bodies of a file PATH.edits, which edits this source."""
    found = []
    for line in read(path).split("\n"):
        if line.startswith("== "):
            found.append(kind(line[3:].strip(), file))
        elif found:
            found[-1].take(line)
        elif line.strip():
            raise ValueError(f"{os.path.relpath(path, TOP)}: begins with no line `== NAME`")
    return found


def of_kit(path):
    """The wrong body of a file of must-fail/."""
    found = WrongBody(os.path.basename(path).removesuffix(".edit"))
    for line in read(path).split("\n"):
        found.take(line)
    return found


def wrong_bodies(crate):
    """The wrong bodies of the crate, by their names: from tests/mutants, and from must-fail/, which the gate moves there."""
    top, found = f"{MUTANTS}/{crate}", []
    for path in sorted(glob.glob(f"{top}/**/*.edits", recursive=True)):
        found += in_file(path, f"src/{os.path.relpath(path, top).removesuffix('.edits')}.rt")
    for folder in (f"{TOP}/crates/{crate}/must-fail", f"{top}/must-fail"):
        found += map(of_kit, sorted(glob.glob(f"{folder}/*.edit")))
    twice = {it.name for it in found if sum(it.name == other.name for other in found) > 1}
    if twice:
        raise ValueError(f"{crate}: more than one wrong body is named {', '.join(sorted(twice))}")
    return {it.name: it for it in sorted(found, key=lambda it: it.name)}


@functools.cache
def by_source(crate):
    """The wrong bodies of the crate, by the first source that each changes."""
    found = {}
    for it in wrong_bodies(crate).values():
        found.setdefault(it.pairs[0][0] if it.pairs else it.file, []).append(it)
    return found


# Checksums

@functools.cache
def logic():
    """The logic of the kit: the last word of `rt version`."""
    return subprocess.run(["rt", "version"], stdout=subprocess.PIPE, text=True, check=True).stdout.split()[-1]


def sources():
    """Each source with wrong bodies, such as `otel_ids/src/span_id.rt`: its crate, and its path there."""
    return {f"{crate}/{file}": (crate, file) for crate in crates() for file in by_source(crate)}


def checksum(crate, file, changed=lambda path, text: text):
    """The checksum of all that a trial of this source's wrong bodies depends on, with the texts as they are changed."""
    bodies, digest = by_source(crate)[file], hashlib.sha256()
    texts = [reads.texts_of(crate, it) for it in sorted({of for it in bodies for of, _, _ in it.pairs})]
    if not all(is_inside(old, crate, of) for it in bodies for of, old, _ in it.pairs):
        # Of a constant: the functions of other sources that name it are checked.
        texts.append({it: reads.read(it) for it in reads.crate(crate).sources.values()})
    words = [logic(), crates()[crate], read(TRIAL), [it.path for it in functions_of(crate, file)]]
    for word in [*words, *sorted((it.name, it.pairs) for it in bodies)]:
        digest.update(repr(word).encode())
    for path, text in sorted((path, text) for found in texts for path, text in found.items()):
        digest.update(repr((os.path.relpath(path, TOP), changed(path, text))).encode())
    return digest.hexdigest()[:32]


@functools.cache
def functions_of(crate, file):
    return list(functions(file, read(f"{TOP}/crates/{crate}/{file}")))


def is_inside(old, crate, file):
    """Whether this text of a source is inside a function."""
    text = read(f"{TOP}/crates/{crate}/{file}")
    line = text[: max(text.find(old), 0)].count("\n")
    return any(it.begin <= line <= it.end for it in functions_of(crate, file))


def committed(path=REFUSED):
    """The checksums of tests/mutants/refused, by source."""
    lines = (line.split("#")[0].split() for line in read(path).split("\n")) if os.path.isfile(path) else ()
    return {line[0]: line[1] for line in lines if len(line) == 2}


def stale():
    """The sources whose line is out of date, with their crates and paths."""
    lines = committed()
    return {it: of for it, of in sources().items() if lines.get(it) != checksum(*of)}


def write_lines(names):
    """Writes the lines of these sources, which say that every wrong body was refused."""
    known = sources()
    lines = {it: line for it, line in committed().items() if it in known} | {it: checksum(*known[it]) for it in names}
    head = "# Of each source a checksum of all that a trial of its wrong bodies depends on. `make mutants CRATE=NAME` writes it\n" \
           "# if the prover refuses every one of them; `make test` tries only the ones whose line isn't right.\n"
    with open(REFUSED, "w", encoding="utf-8") as file:
        file.write(head + "".join(f"{it} {lines[it]}\n" for it in sorted(lines)))
