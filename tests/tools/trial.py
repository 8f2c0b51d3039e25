"""Tries wrong bodies: the prover must refuse each edit of the code in the edit's own crate.

A caller is proved from the contract of the function that it calls, so a wrong body is refused in its own function, whatever else
is wrong in the crate. So the edits of a crate that change different functions are applied together, in a copy of the repository,
and these functions are checked by one `rattle check --only`. An edit is refused if the prover leaves a goal of its own function
open or finds an error in that function's proof. If the only error is a name that a proof cites and the edit removed, the edit has
failed: this says nothing about the contract. Edits whose functions wait for another function's proof go into new groups. An edit
that no group decides is tried by itself, and finally by a check of the whole crate. Edits that don't compile together are tried
in halves. An edit that doesn't apply, doesn't compile, or is proved has failed too.

An edit outside every function, of a constant, is refused in the functions that name the constant.
"""
import contextlib
import glob
import os
import re
import shutil
import subprocess
import threading
import time

import built
import reads
from built import KIT, PARTS, TOP, below
from functions import functions
from wrong_bodies import read

# A check uses 1 to 3 GB, here in KiB, within its first minute, here in seconds.
MEMORY, GROWS = 3_500_000, 60


def write(path, text):
    with open(path, "w", encoding="utf-8") as file:
        file.write(text)


# Edits

class Edit:
    """An edit: its pairs, the functions that it changes, and the reason why it can't be applied, if it can't."""

    def __init__(self, body, place):
        self.name, self.pairs, self.functions, self.why = body.name, body.pairs, {}, None
        try:
            texts = self.planted(place)
            for file, old, _ in self.pairs:
                self.functions.update((it.path, it) for it in place.functions_of(file, old))
            if not texts:
                raise ValueError("it has no pair of `old:` and `new:`")
        except (OSError, ValueError) as why:
            self.why = str(why)

    def planted(self, place, texts=None):
        """The texts of the files that it changes, applied to these texts."""
        texts = {} if texts is None else texts
        for file, old, new in self.pairs:
            text = texts.get(file) or place.text(file)
            if text.count(old) != 1:
                raise ValueError(f"{old!r} stands {text.count(old)} times in {file}")
            texts[file] = text.replace(old, new)
        return texts

    def joins(self, group, place):
        """Joins the group, if it changes other functions than the group's edits, none of which waits for one of theirs, and if
        neither calls a method of a trait on a type of the same file that the other changes, since a proof may unfold such a
        method."""
        def is_apart(a, b):
            waits = {(a.path, b.path), (b.path, a.path)} & place.waits
            return a.path != b.path and not waits and not a.is_unfolded_by(b) and not b.is_unfolded_by(a)
        others = [it.functions.values() for it in group]
        if not self.functions or not all(other and is_apart(a, b) for a in self.functions.values() for other in others for b in other):
            return False
        try:
            place.planted([*group, self])
        except ValueError:
            # The replacements of the other edits contain the text that this one replaces.
            return False
        group.append(self)
        return True


class Place:
    """A crate in the copy of the repository: the number of edits left to try, the functions known to wait for another function's
    proof, and the lanes in which its checks run, one at a time, each reusing the results of earlier ones."""

    def __init__(self, root, crate, known, lanes):
        self.crate, self.folder, self.lanes, self.left = crate, f"{root}/crates/{crate}", lanes, 0
        self.call = [f"{KIT}/bin/rattle", "check", *built.words(root, crate, known)]
        self.call += ["--incremental", f"{self.folder}/out/incremental"]
        self.texts, self.found, self.waits = {}, {}, set()

    def text(self, file):
        if file not in self.texts:
            self.texts[file] = read(f"{self.folder}/{file}")
        return self.texts[file]

    def functions(self, file):
        if file not in self.found:
            self.found[file] = list(functions(file, self.text(file), reads.crate(self.crate).declares))
        return self.found[file]

    def functions_of(self, file, old):
        """The function that contains this text, or the functions that name the constant that contains it."""
        text = self.text(file)
        begin = text[: text.find(old)].count("\n")
        end = begin + old.count("\n")
        own = [it for it in self.functions(file) if it.begin <= end and begin <= it.end]
        above = text[: text.find(old) + len(old)].rpartition("\n\n")[2]
        constant = re.search(r"\b(?:const|static) (\w+)", above)
        if own or not constant:
            return own
        sources = [os.path.relpath(it, self.folder) for it in glob.glob(f"{self.folder}/src/**/*.rt", recursive=True)]
        return [it for source in sources for it in self.functions(source) if constant[1] in it.names]

    def planted(self, edits):
        """The texts of the files that the edits change."""
        texts = {}
        for it in edits:
            it.planted(self, texts)
        return texts

    def check(self, edits, is_whole=False):
        """The report of a check of the functions of these edits, which are applied in it, or of the whole crate."""
        texts = self.planted(edits)
        only = [word for path in sorted({path for it in edits for path in it.functions}) for word in ("--only", path)]
        try:
            for file, text in texts.items():
                write(f"{self.folder}/{file}", text)
            with self.lanes.taken(self.left) as jobs:
                words = [*self.call, "--jobs", str(jobs), *([] if is_whole else only)]
                ran = subprocess.run(words, cwd=self.folder, stdin=subprocess.DEVNULL, stdout=subprocess.PIPE,
                                     stderr=subprocess.STDOUT, errors="replace")
        finally:
            for file in texts:
                write(f"{self.folder}/{file}", self.text(file))
        return Said(self.crate, ran.stdout, ran.returncode, lambda file: functions(file, texts.get(file) or self.text(file), reads.crate(self.crate).declares))


class Said:
    """The output of a check: whether the prover ran, the verdicts by function, and the unproved places."""
    # Errors that only miss a name that a proof cites, or are about something that another error kept from being checked.
    NAME = re.compile(r"has no field|is not in scope|has no `|was not admitted|was rejected, was not checked")

    def __init__(self, crate, text, status, functions_of):
        self.is_proved = status == 0
        # An error in a source counts only if it names a goal.
        sources = re.findall(r"(?m)^(?:\./)?((?:src|specs)/\S+?:\d+:\d+: error.*)$", text)
        goals = [it for it in sources if re.search(r": error: `[^`]*`: ", it) and not self.NAME.search(it)]
        others = [it for it in sources if it not in goals]
        if not re.search(r"(?m)^(logic=|only=)", text):
            others += re.findall(r"(?m)^(?!by-macro: ).*error.*$", text) or ["it doesn't reach the prover"]
        self.unread = others[0].strip()[:300] if others else None
        self.verdicts = dict(re.findall(rf"(?m)^fn {crate}::(\S+): (.*)$", text))
        self.errors = re.findall(r"(?m)^(?:\./)?(proofs/\S+?):\d+:\d+: error: (.*)$", text)
        notes = re.findall(r"(?m)^note: (?:\./)?(src/\S+?:\d+:\d+: it is not proved .*)$", text)
        self.open = [(path, f"`{goal}`") for path, told in self.verdicts.items()
                     for goals in re.findall(r"`search` did not prove ((?:`[^`]*`(?:, )?)+)", told) for goal in re.findall(r"`(.*?)`", goals)]
        for file, line, why in (re.match(r"(.*?):(\d+):\d+: (.*)", it).groups() for it in [*notes, *goals]):
            self.open += [(it.path, why) for it in functions_of(file) if it.begin < int(line) <= it.end + 1]

    def own(self, path):
        """Whether a verdict says that the function or one of its closures isn't proved."""
        owner, _, name = path.rpartition("::")
        closures = tuple(f"{it}fn::{name}::" for it in (f"{owner}::", "", re.sub(r"\w+::$", "", f"{owner}::")))
        return [told for it, told in self.verdicts.items() if (it == path or it.startswith(closures)) and told != "proved"]

    def faults(self, paths=None):
        """The unproved places of these functions, or of the whole check: open goals, and errors of proofs except missing
        names."""
        def is_wanted(file):
            folders = [f"proofs/{it.replace('::', '/')}/" for it in paths]
            cycles = [f"{os.path.dirname(it[:-1])}/+" for it in folders]
            return file.startswith((*folders, *cycles))
        found = [f"{path}: {why}" for path, why in self.open if paths is None or path in paths]
        found += [f"{file}: {why}" for file, why in self.errors if paths is None or is_wanted(file)]
        return [it[:170] for it in found if not self.NAME.search(it)]

    def cause(self, path):
        """The function for whose proof this one waits, or itself."""
        while found := re.search(r"no proof: it calls `\w+::(\S+)`, which is not proved", self.verdicts.get(path, "")):
            path = found[1]
        return path

    def refusal(self, edit):
        """The reason for which the edit is refused in its own functions, if there is one."""
        paths = [path for path in edit.functions if self.own(path)]
        return next(iter(self.faults(paths)), None)


class Lanes:
    """The idle processors, at least one, as far as there is memory for their checks. More checks would only take turns, and each
    would take longer. The next check is of the crate with the most left to do."""

    def __init__(self, count):
        self.count, self.turn, self.waiting, self.began = count, threading.Condition(), [], {}

    def idle(self):
        """The number of idle processors once the checks that have started use all of theirs."""
        running = 0
        for _ in range(5):
            running = max(running, int(read("/proc/loadavg").split()[3].partition("/")[0]) - 1)
            time.sleep(0.1)
        return max(self.count - running - sum(jobs - 1 for jobs, at in self.began.values() if time.monotonic() - at < GROWS), 0)

    def jobs(self):
        """The number of processors for the next check: 0 if it has to wait."""
        idle = self.idle()
        growing = sum(jobs for jobs, at in self.began.values() if time.monotonic() - at < GROWS)
        available = int(re.search(r"MemAvailable: +(\d+)", read("/proc/meminfo"))[1])
        each = max(idle // len(self.waiting), min(idle, 1))
        return max(min(each, available // MEMORY - growing), 0 if self.began else 1)

    @contextlib.contextmanager
    def taken(self, left):
        with self.turn:
            self.waiting.append(left)
            while left < max(self.waiting) or not (jobs := self.jobs()):
                self.turn.wait(1)
            self.waiting.remove(left)
            self.began[threading.get_ident()] = jobs, time.monotonic()
        try:
            yield jobs
        finally:
            with self.turn:
                del self.began[threading.get_ident()]
                self.turn.notify_all()


# Trying them

def try_alone(place, edit):
    """Whether the prover refuses the crate with this edit, and the message."""
    for is_whole in ([False] if edit.functions else []) + [True]:
        said = place.check([edit], is_whole)
        if said.unread:
            return False, f"does not compile: {said.unread}"
        found = said.faults()
        if found:
            return True, f"refused: {found[0]}"
    if said.is_proved:
        return False, "NOT REFUSED: the crate is proved with it"
    uncovered = [told for path in edit.functions for told in said.own(path) if "borrow checker" in told]
    if uncovered:
        return False, f"is not read by the prover, write it in another form: {uncovered[0][:170]}"
    return False, "refused only for a name that a proof cites, which says nothing of the contract: change a value and keep the names"


def try_together(place, edits):
    """The message about each edit, by its name, if one check of all decides it."""
    if len(edits) < 2:
        return {}
    said = place.check(edits)
    if said.unread:
        half = len(edits) // 2
        return {**try_together(place, edits[:half]), **try_together(place, edits[half:])}
    place.waits.update((path, said.cause(path)) for it in edits for path in it.functions)
    seen = {it.name: said.refusal(it) for it in edits}
    return {name: (True, f"refused: {why}") for name, why in seen.items() if why}


def groups_of(place, edits):
    """The edits in groups that are applied together: each in the first group that fits, an edit that changes no function by
    itself."""
    groups = []
    for it in edits:
        if not any(it.joins(group, place) for group in groups):
            groups.append([it])
    return groups


def work(groups):
    """The work of trying these groups. A check takes as long as about four edits before it looks at any."""
    return sum(4 + len(it) for it in groups)


def try_all(place, bodies, tally, title=None):
    """Tries the edits of a crate, or the ones under this title. Returns for each, by its name, whether it is refused, and the
    message."""
    began = time.monotonic()
    edits = [Edit(it, place) for it in bodies]
    outcomes = {it.name: (False, f"cannot be applied: {it.why}") for it in edits if it.why}
    alone, checks = [], 0
    # Edits that wait for another function's proof are tried in a group of the next round.
    while alone != (alone := [it for it in edits if it.name not in outcomes]):
        groups = groups_of(place, alone)
        for at, group in enumerate(groups):
            place.left = work(groups[at:])
            outcomes.update(try_together(place, group))
            tally.tried(title or place.crate, len(outcomes))
        checks += sum(len(it) > 1 for it in groups)
    for at, it in enumerate(alone):
        place.left = work([[it] for it in alone[at:]])
        outcomes[it.name] = try_alone(place, it)
        tally.tried(title or place.crate, len(outcomes))
    lines = [f"{place.crate}/{it.name}: {outcomes[it.name][1]}" for it in edits]
    lines.append(f"== {place.crate}: {len(edits)} edits in {checks} groups, {len(alone)} tried by themselves, "
                 f"{time.monotonic() - began:.0f} seconds")
    print("\n".join(lines), flush=True)
    return outcomes


class Tally:
    """The number of edits tried, for each crate and in all, and the number to try."""

    def __init__(self, counts, progress):
        self.counts, self.done, self.progress = counts, {}, progress

    def tried(self, title, number):
        self.done[title] = number
        self.progress.at(f"wrong bodies: {title} {number} of {self.counts[title]}, {sum(self.done.values())} of "
                         f"{sum(self.counts.values())} in all")


# The copy of the repository

def copy_crate(source, to):
    """Copies the crate into a folder. The files that checks left in out/ are linked, since no check changes a file that it has
    written."""
    os.makedirs(f"{to}/out/incremental")
    for part in PARTS:
        if os.path.isdir(f"{source}/{part}"):
            shutil.copytree(f"{source}/{part}", f"{to}/{part}")
    for part in ("incremental", "rlib"):
        if os.path.isdir(f"{source}/out/{part}"):
            shutil.rmtree(f"{to}/out/{part}", ignore_errors=True)
            if subprocess.run(["cp", "-al", f"{source}/out/{part}", f"{to}/out"], stderr=subprocess.DEVNULL).returncode:
                shutil.rmtree(f"{to}/out/{part}", ignore_errors=True)
                subprocess.run(["cp", "-a", f"{source}/out/{part}", f"{to}/out"], check=True)


def copy_of_repository(root, wanted, known):
    libraries = list(dict.fromkeys(dep for it in wanted for dep in below(it, known)))
    for it in dict.fromkeys([*libraries, *wanted]):
        copy_crate(f"{TOP}/crates/{it}", f"{root}/crates/{it}")
    for name in ("crates.txt", "HANDLES"):
        shutil.copy(f"{TOP}/{name}", root)
    write(f"{root}/crates.txt", "".join(f"{it}: {' '.join(known[it])}\n" for it in dict.fromkeys([*libraries, *wanted])))
    built.lay_libraries(root, wanted, known)
