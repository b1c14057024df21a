#!/usr/bin/env python3
"""Checks that `prove.py` proves crates in order, side by side, once, and leaves nothing half made.

Usage: proving.py

It is tried in temporary repositories whose `rt` is a stand-in that proves nothing: it notes when it begins and ends and where, waits
a little, and writes the files of `rt` in out/. A crate whose text says so fails, or takes long, or does not end. The last line is 'N
passed, M failed'.
"""
import contextlib
import json
import os
import pathlib
import shutil
import signal
import subprocess
import sys
import tempfile
import time

sys.path.insert(0, str(pathlib.Path(__file__).resolve().parents[1] / "lib"))

from checks import PATIENCE, Wrong, tally, want
from suite import TOP

STAND_IN = '''#!/usr/bin/env python3
import json, os, pathlib, sys, time

if sys.argv[1:] == ["version"]:
    print(os.environ["TOOLCHAIN"])
    sys.exit()
crate, top = pathlib.Path.cwd(), pathlib.Path.cwd().parent.parent
is_program = (crate / "src/main.rt").is_file()
source = crate / ("src/main.rt" if is_program else "src/lib.rt")
text = source.read_text()
lines = (line.partition(":") for line in (top / "crates.txt").read_text().splitlines())
uses = {name: [it for it in below.split() if it != "kit"] for name, _, below in lines}
note = {"name": crate.name, "words": sys.argv[1:], "uses": uses, "process": os.getpid(), "begun": time.monotonic(),
        "handles": (top / "HANDLES").read_text(), "given": sys.stdin.read(), "links": source.stat().st_nlink,
        "before": (crate / "out/kept.oantt").is_file()}

def tell(ended):
    with open(os.environ["LOG"], "a") as log:
        log.write(json.dumps({**note, "ended": ended}) + "\\n")

def write(path):
    path.unlink(missing_ok=True)
    path.write_text(text)

for below in uses[crate.name]:
    if not (top / "crates" / below / "out/rlib/library").is_file():
        sys.exit(f"{below} is not built")
out = crate / "out"
(out / "rlib").mkdir(parents=True, exist_ok=True)
write(out / "kept.oantt")
if "slow" in text:
    tell(None)
    time.sleep(60)
time.sleep(2 if "long" in text else 0.2)
tell(time.monotonic())
if "wrong" in text:
    sys.exit(f"a goal of {crate.name} is left")
write(out / (crate.name if is_program else "rlib/library"))
sys.exit(3 if is_program else 0)
'''

CRATES = """# crate: the libraries that it uses
low: kit
left: low
middle: low kit
right: low
high: left middle right
program: high
apart:
"""
BELOW = ["low", "left", "middle", "right"]


class Repository:
    """A temporary repository with some crates and a stand-in for rt."""

    def __init__(self, room):
        self.top, self.log, self.bin, self.toolchain = room / "top", room / "log", room / "bin", "kit 1"
        for folder in (self.bin, self.top / ".git", self.top / "crates"):
            folder.mkdir(parents=True)
        (self.bin / "rt").write_text(STAND_IN)
        (self.bin / "rt").chmod(0o755)
        shutil.copy(TOP / "prove.py", self.top)
        (self.top / "crates.txt").write_text(CRATES)
        (self.top / "HANDLES").write_text("Handles allowed: none.\n")
        for name in (*BELOW, "high", "apart"):
            self.write(name, "first")
        for text, file in (("first", "src/main.rt"), ("--check\n", "args"), ("what it reads", "stdin")):
            self.write("program", text, file)

    def write(self, name, text, file="src/lib.rt"):
        path = self.top / "crates" / name / file
        path.parent.mkdir(parents=True, exist_ok=True)
        path.write_text(text)

    def out(self, name):
        return self.top / "crates" / name / "out"

    def built(self, name):
        return self.out(name) / ("program" if name == "program" else "rlib/library")

    def start(self, *words):
        self.log.touch()
        more = {"LOG": str(self.log), "TOOLCHAIN": self.toolchain, "PATH": f"{self.bin}:{os.environ['PATH']}"}
        how = {"stdout": subprocess.PIPE, "stderr": subprocess.STDOUT, "text": True}
        return subprocess.Popen([self.top / "prove.py", "--processors", "4", *words], env={**os.environ, **more}, **how)

    def prove(self, *words, status=0):
        """The stand-in's notes of a run with that status, by crate, and the output."""
        self.log.write_text("")
        process = self.start(*words)
        said, _ = process.communicate(timeout=3 * PATIENCE)
        want((process.returncode, said if process.returncode != status else ""), (status, ""))
        self.want_nothing_left()
        return self.noted(), said

    def noted(self):
        """The notes by crate, in the order in which they were made."""
        notes = [json.loads(line) for line in self.log.read_text().splitlines()]
        want(len({note["name"] for note in notes}), len(notes))
        return {note["name"]: note for note in notes}

    def want_nothing_left(self):
        """No copy is left, and beside crates there is only what was there before."""
        want(sorted(it.name for it in self.top.iterdir()), [".git", "HANDLES", "crates", "crates.txt", "prove.py"])
        want(list((self.top / ".git").iterdir()), [])

    def want_whole(self, *names):
        """These crates, and no others, have an out/, and it is of their text."""
        want(sorted(it.parent.name for it in self.top.glob("crates/*/out")), sorted(names))
        for name in names:
            text = (self.top / "crates" / name / "src" / ("main.rt" if name == "program" else "lib.rt")).read_text()
            want(self.built(name).read_text(), text)


def overlap(one, other):
    return one["begun"] < other["ended"] and other["begun"] < one["ended"]


def lowest_come_first(repository):
    notes, _ = repository.prove("program")
    want(sorted(notes), sorted([*BELOW, "high", "program"]))
    for name, note in notes.items():
        want([below for below in note["uses"][name] if notes[below]["ended"] > note["begun"]], [])
    repository.want_whole(*BELOW, "high", "program")


def those_that_are_ready_run_side_by_side(repository):
    for name in ("left", "middle", "right"):
        repository.write(name, "long")
    notes, _ = repository.prove("high")
    want([overlap(notes["left"], notes[it]) for it in ("low", "middle", "right", "high")], [False, True, True, False])


def one_processor_takes_one_at_a_time(repository):
    notes, _ = repository.prove("high", "--processors", "1")
    spans = sorted((note["begun"], note["ended"]) for note in notes.values())
    want([one[1] <= other[0] for one, other in zip(spans, spans[1:])], [True] * 4)


def the_longest_chain_comes_first(repository):
    """`apart` is ready at once, and no other crate waits for it."""
    notes, _ = repository.prove("apart", "program", "--processors", "1")
    want(list(notes), [*BELOW, "high", "apart", "program"])


def a_copy_has_what_the_crate_needs(repository):
    """Its text is no link: it stays even if the crate's is written anew."""
    notes, _ = repository.prove("program", "apart")
    want(notes["left"]["uses"], {"low": [], "left": ["low"]})
    want(notes["apart"]["uses"], {"apart": []})
    want({(note["handles"], note["links"]) for note in notes.values()}, {("Handles allowed: none.\n", 1)})


def those_that_are_ready_share_the_processors(repository):
    notes, _ = repository.prove("program")
    want([int(notes[name]["words"][2]) for name in (*BELOW, "high", "program")], [4, 1, 1, 1, 4, 4])


def a_program_has_its_words_and_input(repository):
    notes, _ = repository.prove("program")
    want((notes["program"]["words"], notes["program"]["given"]), (["run", "--jobs", "4", "--", "--check"], "what it reads"))
    want(notes["low"]["words"], ["lib", "--jobs", "4"])


def it_says_how_far_it_is(repository):
    _, said = repository.prove("high", "--processors", "1")
    lines = ["5 of 5 crates are to be proved", *(f"{number} of 5: {name} is proved" for number, name in enumerate([*BELOW, "high"], 1))]
    want([line.partition(" (")[0] for line in said.splitlines()], lines)


def what_is_proved_is_skipped(repository):
    repository.prove("program")
    want(repository.prove("program"), ({}, ""))


def what_uses_a_changed_crate_is_proved_anew(repository):
    repository.prove("program", "apart")
    repository.write("left", "second", "specs/Lib.antt")
    notes, said = repository.prove("program", "apart")
    want(sorted(notes), ["high", "left", "program"])
    want(said.splitlines()[0], "3 of 7 crates are to be proved")
    want([note["before"] for note in notes.values()], [True] * 3)


def another_toolchain_proves_all_anew(repository):
    repository.prove("high")
    repository.toolchain = "kit 2"
    want(sorted(repository.prove("high")[0]), sorted([*BELOW, "high"]))


def another_line_of_crates_proves_anew(repository):
    repository.prove("high")
    (repository.top / "crates.txt").write_text(CRATES.replace("right: low", "right: low kit"))
    want(sorted(repository.prove("high")[0]), ["high", "right"])


def what_was_built_since_is_not_trusted(repository):
    """Nor is a program proved over it, though the crates between are as they were."""
    repository.prove("program")
    for name in ("low", "program"):
        repository.built(name).unlink()
        repository.built(name).write_text("of another text")
    shutil.rmtree(repository.out("left") / "rlib")
    notes, _ = repository.prove("program")
    want(list(notes), ["low", "left", "program"])
    want(notes["program"]["begun"] > notes["left"]["ended"], True)
    repository.want_whole(*BELOW, "high", "program")


def a_failure_is_printed_and_ends_all(repository):
    repository.write("middle", "wrong, after long")
    repository.write("left", "slow")
    notes, said = repository.prove("program", status=1)
    want([it in said for it in ("a goal of middle is left", "middle is not proved")], [True] * 2)
    want(sorted(notes), sorted(BELOW))
    want_ended(notes["left"]["process"])
    repository.want_whole("low", *(["right"] if repository.out("right").exists() else []))


def a_failure_leaves_what_was_built(repository):
    repository.prove("high")
    repository.write("left", "wrong")
    repository.prove("high", status=1)
    want([it.read_text() for it in (repository.built("left"), repository.out("left") / "kept.oantt")], ["first"] * 2)
    repository.write("left", "mended")
    want(sorted(repository.prove("high")[0]), ["high", "left"])
    repository.want_whole(*BELOW, "high")


def a_program_that_is_not_built_fails(repository):
    """Whether there was one before or not: that one stays."""
    repository.write("program", "wrong", "src/main.rt")
    _, said = repository.prove("program", status=1)
    want("a goal of program is left" in said, True)
    repository.want_whole(*BELOW, "high")
    repository.write("program", "right", "src/main.rt")
    repository.prove("program")
    repository.write("program", "wrong", "src/main.rt")
    _, said = repository.prove("program", status=1)
    want(("program is not proved" in said, repository.built("program").read_text()), (True, "right"))


def a_library_that_is_used_stays_as_it_was(repository):
    repository.prove("low")
    before = {it: it.read_text() for it in repository.out("low").rglob("*") if it.is_file()}
    repository.prove("high")
    want({it: it.read_text() for it in repository.out("low").rglob("*") if it.is_file()}, before)


def want_ended(number):
    """A process has ended, or ends soon."""
    for _ in range(100):
        try:
            os.kill(number, 0)
        except ProcessLookupError:
            return
        time.sleep(0.02)
    raise Wrong(f"process {number} still runs")


def an_interrupt_ends_all(repository):
    repository.write("left", "slow")
    process = repository.start("high")
    patience = time.monotonic() + 2 * PATIENCE
    while "left" not in repository.noted() and time.monotonic() < patience:
        time.sleep(0.05)
    process.send_signal(signal.SIGTERM)
    said, _ = process.communicate(timeout=PATIENCE)
    want((process.returncode, said.splitlines()[-1]), (130, "prove.py: ended; what was proved is kept"))
    want_ended(repository.noted()["left"]["process"])
    repository.want_nothing_left()
    want((repository.out("low").exists(), repository.out("left").exists()), (True, False))


def two_at_once_prove_each_crate_once(repository):
    both = [repository.start("high") for _ in range(2)]
    said = [process.communicate(timeout=3 * PATIENCE)[0] for process in both]
    want([process.returncode for process in both], [0, 0])
    want(sorted("waiting for another prove.py to end" in it for it in said), [False, True])
    want(sorted(repository.noted()), sorted([*BELOW, "high"]))


def a_name_that_is_no_crate_is_refused(repository):
    want(repository.prove("other", status=1), ({}, "prove.py: crates.txt lists no other\n"))


CHECKS = [
    lowest_come_first,
    those_that_are_ready_run_side_by_side,
    one_processor_takes_one_at_a_time,
    the_longest_chain_comes_first,
    a_copy_has_what_the_crate_needs,
    those_that_are_ready_share_the_processors,
    a_program_has_its_words_and_input,
    it_says_how_far_it_is,
    what_is_proved_is_skipped,
    what_uses_a_changed_crate_is_proved_anew,
    another_toolchain_proves_all_anew,
    another_line_of_crates_proves_anew,
    what_was_built_since_is_not_trusted,
    a_failure_is_printed_and_ends_all,
    a_failure_leaves_what_was_built,
    a_program_that_is_not_built_fails,
    a_library_that_is_used_stays_as_it_was,
    an_interrupt_ends_all,
    two_at_once_prove_each_crate_once,
    a_name_that_is_no_crate_is_refused,
]


def tried(check):
    with tempfile.TemporaryDirectory() as room:
        check(Repository(pathlib.Path(room)))


if __name__ == "__main__":
    if len(sys.argv) != 1:
        sys.exit(__doc__)
    with contextlib.suppress(KeyboardInterrupt):
        sys.exit(tally([(check.__name__, tried, (check,)) for check in CHECKS]))
