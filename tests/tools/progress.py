#!/usr/bin/env python3
"""Shows the state of long work: one line, rewritten in place on a terminal, and otherwise printed at most every 15 seconds.

    tests/tools/progress.py [--part] WHAT CMD ..     runs the command, and shows its state under this name
    tests/tools/progress.py --failing FILE           prints the lines of the file that say what failed

The output of the command goes to a file. If the command succeeds, one line gives the number of proofs or passes and the time, and
the file is removed. If it fails, the failing part is shown and the file is named. With --part, the command ends with a line `N
passed, M failed`, and all its output is shown at its end, except the lines about its state.

Scripts of several steps use `Progress` themselves. Inside another command of this kind they print their state every second, as a
line that starts with `.. `, for that command to show. All this goes to standard error.
"""
import os
import re
import shutil
import subprocess
import sys
import tempfile
import threading
import time

sys.dont_write_bytecode = True
from built import below, crates

# The seconds between two lines that can't be rewritten in place, and the variable that tells this to a command below this one.
APART, BELOW = 15, "PROGRESS_IS_SHOWN_ABOVE"
MARK = ".. "
# Lines of rt, of the prover and of the tests that don't say what failed.
QUIET = re.compile(r".*: proved$|checked \S+, \d+ of \d+$|so far: |statements |by-macro: |crate \w+: modules|logic \S+: |"
                   r"by checked crates: |empty contracts: |rt: (chose|\w+: begins with|\w+ proved$|\w+ is kept)|"
                   r"\S+: refused\b|test \S+ \.\.\. ok$|ok |\s*$|" + re.escape(MARK))
# The maximum lines of a failing part that are shown, and the maximum characters of a line.
SHOWN, WIDTH = 60, 240


def clock(seconds):
    return f"{int(seconds) // 60:02}:{int(seconds) % 60:02}"


class Progress:
    """The line that shows the state of some work. `at` returns its text, and `say` prints a line that stays."""

    def __init__(self, text="", stream=sys.stderr):
        self.text, self.stream, self.began, self.lock = text, stream, time.monotonic(), threading.RLock()
        self.is_rewritten = stream.isatty() and os.environ.get("TERM") != "dumb"
        self.apart = 1 if os.environ.get(BELOW) else APART
        self.printed, self.is_over = self.began, threading.Event()
        self.thread = threading.Thread(target=self.tick, daemon=True)
        self.thread.start()

    def __enter__(self):
        return self

    def __exit__(self, *_):
        self.close()

    def line(self, width=None):
        """The current line, cut to this width."""
        end = f", {clock(time.monotonic() - self.began)}"
        return self.text[: width and max(width - len(end), 0)] + end if self.text else ""

    def tick(self):
        while not self.is_over.wait(0.5):
            with self.lock:
                if self.is_rewritten:
                    self.put(f"\r\x1b[2K{self.line(shutil.get_terminal_size().columns - 1)}")
                elif self.text and time.monotonic() - self.printed >= self.apart:
                    self.printed = time.monotonic()
                    self.put(f"{MARK}{self.line()}\n")

    def put(self, text):
        with self.lock:
            self.stream.write(text)
            self.stream.flush()

    def at(self, text):
        self.text = text

    def say(self, text):
        with self.lock:
            self.put(("\r\x1b[2K" if self.is_rewritten else "") + text + "\n")

    def close(self):
        if not self.is_over.is_set():
            self.is_over.set()
            self.thread.join()
            self.put("\r\x1b[2K" if self.is_rewritten else "")


class Told:
    """The state of a command as told by its lines, and the number of functions that they report as proved."""

    def __init__(self, what, total=None):
        self.what, self.begun, self.ended, self.here, self.proved, self.text = what, [], set(), "", 0, ""
        known, crate = crates(), os.path.basename(os.getcwd())
        self.total = total or (1 + len(below(crate, known)) if crate in known else len(known))

    def take(self, line):
        begun = re.match(r"rt: (?:chose --jobs \d+ for (\w+)|(\w+): begins with)", line)
        ended = re.match(r"rt: (\w+) (?:proved|is kept|NOT PROVED)", line)
        so_far = re.match(r"(?:checked \S+, |so far: )(\d+) of (\d+)", line)
        if line.startswith(MARK):
            self.text = re.sub(r", \d+:\d+$", "", line[len(MARK):].rstrip())
        elif begun:
            self.begun += [name for name in begun.groups() if name and name not in self.begun]
            self.here = ""
        elif ended:
            self.ended.add(ended[1])
        elif so_far:
            self.here = f"{so_far[1]} of {so_far[2]} functions"
        elif re.match(r"fn \S+: proved$", line):
            self.proved += 1

    def where(self):
        """The running step, and its progress."""
        if self.text:
            return self.text
        if self.ended:
            return f"{self.what}: {len(self.ended)} of {self.total} crates"
        if self.begun:
            return ", ".join([f"{self.what}: {self.begun[-1]} {self.here}".strip(), f"crate {len(self.begun)} of {self.total}"])
        return f"{self.what}: {self.here}" if self.here else self.what


def failing(text):
    """The lines of a log that say what failed, or its last lines if none does."""
    lines = [it[:WIDTH] for it in text.rstrip("\n").split("\n")]
    found = [it for it in lines if not QUIET.match(it)]
    return "\n".join((found or lines)[-SHOWN:])


def run(what, words, total=None, is_part=False):
    """Runs the command, which handles this many crates, and shows its state. Returns its status."""
    log = tempfile.NamedTemporaryFile("w", prefix=f"{re.sub(r'[^a-z_]+', '-', what)}-", suffix=".log", delete=False)
    told, began = Told(what, total), time.monotonic()
    with Progress(what) as progress, log:
        with subprocess.Popen(words, stdout=subprocess.PIPE, stderr=subprocess.STDOUT, text=True, errors="replace",
                              env={**os.environ, BELOW: "1"}) as ran:
            for line in ran.stdout:
                if not line.startswith(MARK):
                    log.write(line)
                told.take(line)
                progress.at(told.where())
    with open(log.name, encoding="utf-8", errors="replace") as file:
        text = file.read()
    took = clock(time.monotonic() - began)
    if is_part:
        print(text, end="", flush=True)
    elif ran.returncode:
        print(f"{failing(text)}\n{what}: failed after {took}; all that was printed is in {log.name}", file=sys.stderr)
        return ran.returncode
    else:
        proved = f", {told.proved} functions proved" if told.proved else ""
        print(f"{what}: done{proved}, {took}", file=sys.stderr)
    os.remove(log.name)
    return ran.returncode


def main(words):
    if words[:1] == ["--failing"] and len(words) == 2:
        with open(words[1], encoding="utf-8", errors="replace") as file:
            print(failing(file.read()))
        return 0
    is_part = words[:1] == ["--part"]
    words = words[is_part:]
    if len(words) < 2:
        print(__doc__, file=sys.stderr)
        return 2
    return run(words[0], words[1:], is_part=is_part)


if __name__ == "__main__":
    sys.exit(main(sys.argv[1:]))
