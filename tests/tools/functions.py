"""The functions of a source, by the paths that a check of the crate uses for them."""
import itertools
import re


def words(text, dropped):
    """The words of a type or a trait as they occur in the name of an `impl`, without its type parameters. `fmt::Display` is Display,
    and `From<io::Error>` is FromIoError."""
    found = re.findall(r"&|\w+", re.sub(r"'\w+", "", re.sub(r"^\s*(?:\w+::)+", "", text)))
    return "".join("Ref" if it == "&" else it[0].upper() + it[1:] for it in found if it not in dropped)


def tuple_of(text):
    """The name of a tuple of type parameters in the name of an `impl`: Unit, or Tuple2 for `(A, B)`."""
    inside = re.fullmatch(r"\((.*)\)", text.strip())
    return inside and (f"Tuple{inside[1].count(',') + 1}" if inside[1] else "Unit")


def owner_of(header):
    """The name of a trait or an `impl` in the path of its functions, such as TraceState, TraceStateClone or
    HashMapStringInjector. An `impl` of a trait for a type parameter is AnyStampedRecord, for a pair of them Tuple2SpanProcessor, and
    an `impl` of some instances of a type is SdkLoggerProvider+SystemClock+R."""
    kind, rest = re.match(r"(?:pub(?:\(\w+\))? )?(impl|trait)\b\s*(.*)", header, re.S).groups()
    if kind == "trait":
        return re.match(r"\w+", rest)[0]
    dropped = ()
    if rest.startswith("<"):
        depth = list(itertools.accumulate({"<": 1, ">": -1}.get(it, 0) for it in rest[:-1]))
        end = depth.index(0) + 1
        dropped, rest = re.findall(r"[<,]\s*(?:const )?(\w+)", rest[:end]), rest[end:]
    trait, is_for, of = re.split(r"\bwhere\b|\{", rest)[0].partition(" for ")
    if is_for and trait.strip() != "Drop":
        return (tuple_of(of) or words(of, dropped) or "Any") + words(trait, dropped)
    name, *given = re.findall(r"\w+", re.sub(r"'\w+|\w+::", "", of or trait).replace("()", "unit"))
    return "+".join((name, *given)) if set(given) - {*dropped} else name


class Function:
    """A function of a source: its path below the crate, whether it is a trait's, its lines from 0, and the names and calls in
    it."""

    def __init__(self, path, file, is_of_trait, lines, begin, end):
        self.path, self.file, self.is_of_trait, self.begin, self.end = path, file, is_of_trait, begin, end
        text = "\n".join(lines[begin : end + 1])
        self.names, self.calls = set(re.findall(r"\w+", text)), set(re.findall(r"(?:(\w+)::|\.)(\w+)\(", text))

    def is_unfolded_by(self, other):
        owner, name = ["", *self.path.split("::")][-2:]
        calls = any(it == name and owner.startswith(of.removeprefix("Self")) for of, it in other.calls)
        return self.is_of_trait and self.file == other.file and calls


def home_of(owner, module, text, declares):
    """The module of the type of an `impl`: this one, or the one that declares the type that the source imports."""
    found = re.search(rf"(?m)^use (crate|super)((?:::\w+)*)::(?:\{{[^}}]*\b)?{owner}\b", text)
    if not found:
        return module
    named = (module.rpartition("::")[0] if found[1] == "super" else "", found[2].removeprefix("::"))
    return declares("::".join(it for it in named if it), owner)


def functions(file, text, declares=lambda module, name: module):
    """The functions of a source laid out by `rt fmt`. `declares` finds the module that declares the type that a module exports."""
    module = re.sub(r"(^|/)(lib|main|mod)$", "", file.removeprefix("src/").removesuffix(".rt")).replace("/", "::")
    lines, owner, header, home = text.split("\n"), "", "", module
    at = 0
    while at < len(lines):
        line = lines[at]
        if re.match(r"(pub(\(\w+\))? )?(impl|trait)\b", line):
            header = line + "".join(lines[at + 1 : at + 8])
            owner = owner_of(header)
            is_own = line.startswith("impl") and " for " not in header.partition("{")[0]
            home = home_of(owner, module, text, declares) if is_own else module
        elif line == "}":
            owner, header, home = "", "", module
        found = re.match(r"( *)(?:pub(?:\(\w+\))? )?(?:final |const |unsafe |ghost |extern \S+ )*fn (\w+)", line)
        if found and len(found[1]) == (4 if owner else 0):
            end = end_of(lines, at, found[1])
            path = "::".join(it for it in (home, owner, found[2]) if it)
            yield Function(path, file, bool(re.match(r"[^{]*? for |(pub )?trait", header)), lines, at, end)
            at = end
        at += 1


def end_of(lines, at, indent):
    """The last line of the function that starts here. A function of a trait may end with its clauses, without a body."""
    if lines[at].endswith("}"):
        return at
    has_body, depth = lines[at].endswith("{"), 0
    while lines[at] != f"{indent}}}":
        depth += len(re.findall(r"[{(\[]", lines[at])) - len(re.findall(r"[})\]]", lines[at]))
        if not has_body and depth == 0 and (lines[at].endswith(";") or lines[at].strip() == "{}"):
            break
        at += 1
        has_body = has_body or lines[at] == f"{indent}{{"
    return at
