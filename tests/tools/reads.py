"""The texts on which a trial of wrong bodies depends: a source with its proofs, and the declarations, definitions, lemmas and
contracts that these name, in the crate and in the crates below.

The prover knows of another function only its contract, and of a file only what is named. So the texts are the source itself and the
proofs of its functions, whole, and of each other file the items that one of the texts names: a type, a trait, a function without its
body, a definition of specs/ or proofs/ with its equations. A function of an `impl` or trait counts as named if its name is a word of
any text and its types are named, since a call doesn't say which type's function it is. One that code can call without a word, of an
`impl` of a trait that isn't ours, such as `Drop` or `From`, counts as named with its types. Of a crate below only what is public can
be named: no private function or field, and of a type's model only its values.
"""
import functools
import glob
import os
import re

import built
from built import TOP, below
from functions import functions

# How a line begins on which no proof depends, by the ending of the file: a comment, a hint, or the derives of a type, since one more
# changes no call that there was.
SKIPPED = {".rt": ("//", "#[inline", "#[derive("), ".antt": "--"}
# An import of a source.
IMPORT = r"(?m)^ *(?:pub(?:\(\w+\))? )?(?:ghost )?use ([^;]*);\n?"
# How the line of a private type or constant begins.
PRIVATE = r"(?:pub\(\w+\) )?(?:struct|enum|union|type|const|static)\b"
# The lists of modules, which grow with the crate.
LIST = "Lib.antt"
# The beginning of an item of a source that has a name.
ITEM = r"(?:pub(?:\(\w+\))? )?(?:final |const |unsafe |ghost |extern \S+ )*(?:fn|struct|enum|union|trait|type|const|static) (\w+)"
# The names of a path, an import of a file of our crates.
PATH = r"\bRattle\.(\w+)((?:\.[\w+-]+)*)(?:\.\{([^}]*)\})?( as \w+)?"


@functools.cache
def read(path):
    """The text of the file, without the lines on which no proof depends."""
    begins = SKIPPED.get(os.path.splitext(path)[1])
    with open(path, encoding="utf-8") as file:
        return "".join(it for it in file if not (begins and it.lstrip().startswith(begins)))


# What other files can name of a file

def without_bodies(file, text):
    """The text of a source without the bodies of its functions."""
    lines = text.split("\n")
    for it in reversed(list(functions(file, text))):
        own = lines[it.begin : it.end + 1]
        indent = re.match(" *", own[0])[0]
        opens = next((at for at, line in enumerate(own) if line == f"{indent}{{" or re.match(rf"{indent}\S.*\{{$", line)), None)
        if opens is not None:
            del lines[it.begin + opens + 1 : it.end]
    return "\n".join(lines)


def is_public(line):
    return line.lstrip().startswith("pub ")


def without_private(file, text):
    """The text of a source without its private functions, types, constants and fields, and without the members of a model but
    `Value`: other crates can name none of these."""
    lines = text.split("\n")
    for it in reversed(list(functions(file, text))):
        if not (it.is_of_trait or is_public(lines[it.begin])):
            del lines[it.begin : it.end + 1]
    kept, block, is_kept = [], "", True
    for line in lines:
        if re.match(r"[^\s})]", line):
            found = re.match(r"pub struct\b|impl\b.*\bModel for\b", line)
            block, is_kept = found[0][:4] if found and line.endswith("{") else "", not re.match(PRIVATE, line)
            while not is_kept and kept and kept[-1].startswith("#["):
                kept.pop()
            line = re.sub(r"^(pub struct \w+[^({]*)\((?!pub ).*", r"\1", line)
        elif block == "pub ":
            is_kept = is_public(line)
        elif block and (member := re.match(r" {4}ghost (\w+)", line)):
            is_kept = member[1] in ("use", "Value")
        if is_kept and line:
            kept.append(line)
    return re.sub(r"(?m)^impl.*\{\n\}\n", "", "\n".join([*kept, ""]))


# Items

@functools.cache
def words(text):
    """The words of a text, as far as a name can be one of them."""
    return frozenset(text.split()) | frozenset(re.split(r"[\s(){}\[\];,.:&<>|!*=]+", text))


class Item:
    """An item of a file: its names, its text and its words. An item without names, such as the head of a module, is named by all.
    An `impl`, and each of its functions, has its header, and so has a function of a trait."""

    def __init__(self, path, names, lines, header=None):
        self.path, self.names, self.header = path, names, header
        self.text = "".join(f"{line}\n" for line in lines if line)
        self.words = words(self.text)


def definitions(path, text):
    """The definitions of a file of specs/ or proofs/, with the names of their cases."""
    found, indent = [], 0
    for line in text.split("\n"):
        own = re.match(r"( *)(?:abbrev |pub |record |data )*(\w[^\s:({]*)", line)
        name = own[2] if own and len(own[1]) in (0, indent) else "unfolding"
        if name in ("module", "mutual", "use"):
            indent = 0 if name == "use" else 2
            found.append((None if name == "use" else set(), [line]))
        elif name != "unfolding":
            indent = len(own[1])
            if not found or name not in (found[-1][0] or ()):
                found.append((set() if "◌" in line.partition("=")[0] else {name}, []))
            found[-1][1].append(line)
        elif found:
            names, lines = found[-1]
            if names and "data " in lines[0]:
                names |= {*re.findall(r"^ +(\w\S*) :", line)}
            lines.append(line)
    items = [Item(path, *it) for it in found if it[0] is not None]
    for it in items:
        # Without the variables of its equations.
        sides = (line.partition("=") for line in it.text.split("\n") if not re.match(r" *abbrev | *pub | {4}", line))
        it.words -= {name for left, equals, _ in sides if equals and ":" not in left for name in words(left) if name[:1].islower()} - it.names
    return items


def blocks(text):
    """The lines of each item of a source, with its attributes."""
    found, begins = [], True
    for line in text.split("\n"):
        is_first = re.match(r"#\[|[A-Za-z]", line) and not line.startswith("where")
        if is_first and begins or not found:
            found.append([])
        begins = not (is_first and line.startswith("#["))
        found[-1].append(line)
    return found


def declarations(path, text):
    """The items of a source: types, constants and functions, each trait, each `impl`, and the functions of these."""
    file, items = path.partition("/src/")[2], []
    for lines in blocks(text):
        first = next((it for it in lines if not it.startswith("#")), "")
        if re.match(r"(?:pub(?:\(\w+\))? )?(?:ghost )?(?:use|mod)\b", first):
            continue
        name = re.match(ITEM, first)
        if not re.match(r"(?:pub(?:\(\w+\))? )?(?:impl|trait)\b", first):
            items.append(Item(path, {name[1]} if name else set(), lines))
            continue
        header = " ".join(lines).partition("{")[0]
        for it in reversed(list(functions(file, "\n".join(lines)))):
            items.append(Item(path, {it.path.rpartition("::")[2]}, lines[it.begin : it.end + 1], header))
            del lines[it.begin : it.end + 1]
        items.append(Item(path, {name[1]} if name else set(), lines, None if name else header))
    return items


@functools.cache
def items(path, is_own):
    """What other files can name of this one: of the same crate, or of the crates above."""
    if not path.endswith(".rt"):
        return definitions(path, read(path))
    file, text = path.partition("/src/")[2], read(path)
    return declarations(path, without_bodies(file, text if is_own else without_private(file, text)))


# Crates, and the files that hold what an import names

@functools.cache
def crates():
    return built.crates()


class Crate:
    """A crate: its folder, its sources by their modules, such as `trace::live`, and the folders of proofs by the end of their paths,
    such as `SpanId/from_hex`."""

    def __init__(self, name):
        self.name, self.folder = name, f"{TOP}/crates/{name}"
        self.sources = {}
        for path in glob.glob(f"{self.folder}/src/**/*.rt", recursive=True):
            file = os.path.relpath(path, f"{self.folder}/src")
            self.sources[re.sub(r"(^|/)(lib|main|mod)$", "", file.removesuffix(".rt")).replace("/", "::")] = path
        self.proofs = {}
        for folder, _, _ in os.walk(f"{self.folder}/proofs"):
            self.proofs.setdefault("/".join(folder.split("/")[-2:]), []).append(folder)

    def module(self, words):
        """The source of the longest module with which this path begins, and the rest of the path."""
        for count in range(len(words), -1, -1):
            if "::".join(words[:count]) in self.sources:
                return "::".join(words[:count]), words[count:]
        raise KeyError(self.name)

    def home(self, words, seen=()):
        """The file that declares the item with this path, through the imports that lead to it."""
        if words[:1] in (["specs"], ["proofs"]) and words[1:2] not in (["declared"], ["contracts"]):
            files = (f"{self.folder}/{'/'.join(words[:count])}.antt" for count in range(len(words), 0, -1))
            return next(filter(os.path.isfile, files), None)
        module, rest = self.module(words[2:] if words[:1] == ["specs"] else words)
        path = self.sources[module]
        if not rest or path in seen or any(rest[0] in it.names for it in items(path, True) if not it.header):
            return path
        for used in imports(path):
            if used.names[-1] == rest[0] and used.crate in crates():
                return crate(used.crate).home([*used.names[:-1], *rest], (*seen, path))
        return path

    def declares(self, module, name):
        """The module of this crate that declares the item that a module exports by this name."""
        path = self.home([*module.split("::"), name])
        return next((it for it, source in self.sources.items() if source == path), module)


@functools.cache
def crate(name):
    return Crate(name)


@functools.cache
def home_of(name, *path):
    return crate(name).home([*path])


@functools.cache
def crate_of(path):
    return os.path.relpath(path, f"{TOP}/crates").split("/")[0]


class Import:
    """An import of a file: the crate and the path in it, and the name by which the file uses it, or none if it is used by others."""

    def __init__(self, crate, names, local):
        self.crate, self.names, self.local = crate, names, local

    def is_used_by(self, words):
        return self.local is None or "◌" in self.local or self.local in words


def leaves(text):
    """The paths of an import, such as `a::{b, c::d as e}`."""
    head, brace, inside = text.partition("{")
    if not brace:
        return [text.strip()]
    found, depth, part = [], 0, ""
    for it in inside.rpartition("}")[0]:
        depth += (it == "{") - (it == "}")
        if it == "," and not depth:
            found, part = [*found, part], ""
        else:
            part += it
    return [head.strip() + leaf for it in [*found, part] if it.strip() for leaf in leaves(it)]


def path_of(text, path):
    """The crate and the names of a path in this source, such as `super::span::SpanId`."""
    name = crate_of(path)
    module = next(it for it, source in crate(name).sources.items() if source == path)
    found, here = re.findall(r"\w+", text), module.split("::") if module else []
    if found[:1] == ["super"]:
        while found[:1] == ["super"]:
            found, here = found[1:], here[:-1]
        found = [name, *here, *found]
    elif found[:1] == ["crate"]:
        found = [name, *found[1:]]
    elif found[:1] == ["self"] or found[:1] and found[0] not in crates() and "::".join([*here, found[0]]) in crate(name).sources:
        found = [name, *here, *(found[1:] if found[0] == "self" else found)]
    return found[0], [it for it in found[1:] if it != "self"]


@functools.cache
def imports(path):
    """The imports of a file. What a source exports is used by others."""
    text, found = read(path), []
    for of, tail, names, alias in re.findall(PATH, text):
        head = tail.strip(".").split(".")
        for leaf in names.split(",") if names else [""]:
            old, _, new = (leaf.strip() or head[-1]).partition(" as ")
            local = new or (old if leaf else alias.removeprefix(" as ") or None)
            found.append(Import(of, [*head, old] if leaf else head, local))
    for it in re.findall(IMPORT, text) if path.endswith(".rt") else ():
        for leaf in () if it.startswith("Rattle.") else leaves(it):
            old, _, new = leaf.partition(" as ")
            found.append(Import(*path_of(old, path), new or (None if old.endswith("*") else old.rpartition("::")[2])))
    return [it for it in found if it.crate in crates() and it.names]


@functools.cache
def declared(path):
    """The types and traits of a source, each with the source."""
    return frozenset((path, it) for it in re.findall(r"(?m)^(?:pub(?:\(\w+\))? )?(?:struct|enum|trait|union) (\w+)", read(path)))


@functools.cache
def types(text, path):
    """The types and traits of our crates that a text in this source names, each with the source that declares it."""
    found, of = {*re.findall(r"\w+", text)}, {it.local: it for it in imports(path)}
    homes = {(home_of(of[it].crate, *of[it].names), of[it].names[-1]) for it in found & of.keys()}
    return frozenset({(path, it) for it in found} & declared(path) | {it for it in homes if it[0] and it in declared(it[0])})


@functools.cache
def is_called_by_name(item):
    """Whether code that calls this function of an `impl` or of a trait names it: not if the trait isn't of our crates."""
    return " for " not in item.header or types(item.header.rpartition(" for ")[0], item.path)


@functools.cache
def paths_in(item):
    """The crates and names of the paths that stand in an item of a source."""
    if not item.path.endswith(".rt"):
        return []
    found = [it for it in re.findall(r"\b[a-z]\w*(?:::\w+)+", item.text) if it.partition("::")[0] in ("crate", "super", *crates())]
    return [path_of(it, item.path) for it in found]


def of_functions(path, of):
    """The files of the proofs of the source's functions."""
    for it in functions(os.path.relpath(path, of.folder), read(path)):
        for folder in of.proofs.get("/".join(it.path.split("::")[-2:]), ()):
            yield from glob.glob(f"{folder}/**/*.antt", recursive=True)
            yield from glob.glob(f"{os.path.dirname(folder)}/+/*.antt")


# What texts name

class Named:
    """The items on which a trial in this crate depends: the ones that have been found, by file, the types and traits among them, and
    the names of the functions that are called, by a source that is tried or in a proof."""

    def __init__(self, name, roots):
        self.name, self.roots, self.called, self.known, self.due = name, roots, set(), set(), []
        sources = [path for it in [*below(name, crates()), name] for path in crate(it).sources.values() if path not in roots]
        self.left = [it for path in sources for it in items(path, crate_of(path) == name) if it.header]
        self.found = {it: set() for it in roots}
        for path in roots:
            item = Item(path, set(), [read(path)])
            self.known |= declared(path)
            self.called |= item.words if path.endswith(".rt") else set()
            self.take(item)
        while self.due or self.take_named():
            self.follow(self.due.pop())

    def take(self, item):
        """Takes the item, and with it the unnamed ones of its file."""
        if item.path not in self.found:
            self.found[item.path] = set()
            self.take_of(item.path, ())
        if item not in self.found[item.path]:
            self.found[item.path].add(item)
            self.known |= {(item.path, it) for it in item.names} & declared(item.path)
            self.due.append(item)

    def take_of(self, path, names):
        """Takes the items of the file that these name, and says whether there is one."""
        found = [it for it in items(path, crate_of(path) == self.name) if not it.header and (not it.names or it.names & {*names})]
        for it in found:
            self.take(it)
        return any(it.names for it in found)

    def follow(self, item):
        """Takes what the words of the item name."""
        if item.path not in self.roots:
            self.take_of(item.path, item.words - item.names)
        used = [(it.crate, it.names) for it in imports(item.path) if it.is_used_by(item.words)]
        for of, names in used + paths_in(item):
            self.called |= {*names} if "contracts" in names else set()
            home = home_of(of, *names)
            if home and home not in self.roots and os.path.basename(home) != LIST and not self.take_of(home, names):
                self.take_of(home, item.words)

    def take_named(self):
        """Takes the `impl`s that are named, and the functions of these and of traits, and says whether there was one."""
        def is_named(item):
            is_called = not item.names or item.names & self.called or not is_called_by_name(item)
            return is_called and types(item.header, item.path) <= self.known
        named = {it for it in self.left if is_named(it)}
        self.left = [it for it in self.left if it not in named]
        for it in named:
            self.take(it)
        return bool(named)


def texts_of(name, file):
    """The texts on which the trial of the wrong bodies of this source depends, by path."""
    own = f"{crate(name).folder}/{file}"
    found = Named(name, {own, *of_functions(own, crate(name))}).found
    order = {it: at for path in found for at, it in enumerate(items(path, crate_of(path) == name))}
    return {path: "".join(it.text for it in sorted(kept, key=lambda it: order.get(it, 0))) for path, kept in sorted(found.items())}
