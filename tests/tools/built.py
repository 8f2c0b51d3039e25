"""The crates of the repository and what is built from them: the libraries of `rt ci`, for scripts that call the kit's compiler
themselves, and the files that scripts build and keep. `./new` copies this file into other repositories."""
import contextlib
import glob
import hashlib
import os
import shutil
import subprocess
import sys


def top():
    """The nearest folder above this file that has a crates.txt."""
    found = os.path.dirname(os.path.abspath(__file__))
    while not os.path.isfile(f"{found}/crates.txt"):
        if found == os.path.dirname(found):
            sys.exit(f"no folder above {__file__} has a crates.txt")
        found = os.path.dirname(found)
    return found


if not shutil.which("rt"):
    sys.exit("the kit's command rt isn't on PATH")
TOP = top()
# `rt doc` prints the path of a page of the kit.
KIT = os.path.dirname(subprocess.run(["rt", "doc"], stdout=subprocess.PIPE, text=True, check=True).stdout.strip())
PARTS = "src", "specs", "proofs"


def crates():
    """The lines of crates.txt: the dependencies of each crate, by its name."""
    with open(f"{TOP}/crates.txt", encoding="utf-8") as file:
        lines = [line.partition("#")[0].partition(":") for line in file]
    return {name.split()[0]: libraries.replace(",", " ").split() for name, _, libraries in lines if name.strip()}


def below(crate, known):
    """The crates of the repository on which the crate depends, lowest first."""
    found = []
    for it in known[crate]:
        if it in known:
            found += [dep for dep in [*below(it, known), it] if dep not in found]
    return found


def read(path):
    with open(path, "rb") as file:
        return file.read()


def checksum(crate, known):
    """The checksum of all files that a build of the crate reads."""
    digest = hashlib.sha256(subprocess.run(["rt", "version"], stdout=subprocess.PIPE, check=True).stdout)
    for it in [*below(crate, known), crate]:
        digest.update(repr((it, known[it])).encode())
        places = [f"{glob.escape(TOP)}/crates/{it}/{part}/**/*" for part in PARTS]
        files = (path for place in places for path in glob.glob(place, recursive=True) if os.path.isfile(path))
        for path in sorted(files):
            digest.update(repr((os.path.relpath(path, TOP), read(path))).encode())
    return digest.hexdigest()


def is_of(made, sources):
    """Whether this file was built from these sources, and hasn't changed since."""
    with contextlib.suppress(OSError):
        return read(f"{made}.of").decode() == sources + hashlib.sha256(read(made)).hexdigest()
    return False


def keep(built, made, sources):
    """Keeps the file built from these sources as `made`, in the place of an older one, which may be running."""
    os.makedirs(os.path.dirname(made), exist_ok=True)
    shutil.copy(built, f"{made}.new")
    os.replace(f"{made}.new", made)
    with open(f"{made}.of", "w", encoding="utf-8") as file:
        file.write(sources + hashlib.sha256(read(made)).hexdigest())


def lay_copy(room):
    """Copies the repository into the room for `rt ci`, with the wrong bodies of must-fail/ in tests/mutants. Returns the copy's
    folder."""
    copy = shutil.copytree(TOP, f"{room}/copy", symlinks=True, ignore=shutil.ignore_patterns(".git", "out", "__pycache__"))
    for folder in glob.glob(f"{copy}/crates/*/must-fail"):
        crate = os.path.basename(os.path.dirname(folder))
        os.makedirs(f"{copy}/tests/mutants/{crate}", exist_ok=True)
        shutil.move(folder, f"{copy}/tests/mutants/{crate}/must-fail")
    return copy


def rlib(root, crate):
    return f"{root}/crates/{crate}/out/rlib/{crate}.rlib"


def is_of_ci(crate):
    """Whether `rt ci` built the library, and it is newer than its sources. Libraries built otherwise have a stamp with which rt
    knows their age."""
    built = rlib(TOP, crate)
    if not os.path.isdir(built) or os.path.exists(f"{os.path.dirname(built)}/stamp"):
        return False
    files = (it for part in PARTS for it in glob.glob(f"{TOP}/crates/{crate}/{part}/**/*", recursive=True))
    return os.path.getmtime(built) > max(map(os.path.getmtime, files))


def lay_libraries(root, wanted, known):
    """Copies the libraries below these crates, as `rt ci` built them, into a copy of the repository, or has `rt lib` build them
    there."""
    libraries = list(dict.fromkeys(dep for it in wanted for dep in below(it, known)))
    is_kept = all(map(is_of_ci, libraries))
    for it in libraries:
        if is_kept:
            if not os.path.isdir(rlib(root, it)):
                shutil.copytree(rlib(TOP, it), rlib(root, it))
            continue
        ran = subprocess.run(["rt", "lib"], cwd=f"{root}/crates/{it}", stdin=subprocess.DEVNULL, stdout=subprocess.PIPE,
                             stderr=subprocess.STDOUT, errors="replace")
        if ran.returncode:
            sys.exit(f"{ran.stdout[-2000:]}\nthe library {it} is not proved")


def words(root, crate, known):
    """The arguments of a call of `rattle` for the crate: its source, the libraries that it names and the ones below them, and the
    logic."""
    of_kit = f"{KIT}/rlibs"
    found = ["--crate-name", crate, f"src/{'main' if os.path.isfile(f'{root}/crates/{crate}/src/main.rt') else 'lib'}.rt"]
    for name in ["std", *known[crate]]:
        found += ["--extern", f"{name}={rlib(root, name) if name in known else f'{of_kit}/{name}.rlib'}"]
    for folder in [of_kit, *(os.path.dirname(rlib(root, it)) for it in below(crate, known))]:
        found += ["-L", f"dependency={folder}"]
    return [*found, "--antt-project", f"{KIT}/rattle/logic/antt-project.json", "--logic-built", f"{KIT}/logic_built"]
