#!/usr/bin/env python3
"""Makes the change that docs/DEVELOPING.md teaches, in a scratch copy, and checks that its commands pass.

Usage: tutorial.py

The texts, the files that they go to and the commands are read from docs/DEVELOPING.md, steps 1 to 5. The copy has the crate, the crates that it
uses, their build results, and `prove.py` and `tests/`; it is removed at the end. The change is a definition at the end of a file of specs/, a
method at the end of a file of src/, whose last `ghost use` line gets a name, and a wrong body that the prover must refuse. `rt fmt` may change
nothing of it. If nothing is built, as after `rt ci`, the crates are proved from nothing: that takes two minutes.

It prints the output of a command that fails, and tries nothing after it. The last line is 'N passed, M failed', one for each command.
"""
import pathlib
import re
import shutil
import subprocess
import sys
import tempfile
import textwrap

sys.path.insert(0, str(pathlib.Path(__file__).resolve().parents[1] / "lib"))

from suite import CRATES, TESTS, TOP, counted

STEP = re.compile(r"^\*\*(\d)\. ", re.MULTILINE)
BLOCK = re.compile(r"\n\n((?: {4}.*\n|\n(?= {4}))+)")
FILE = re.compile(r"`((?:crates|tests)/[\w/.-]+\.(?:antt|rt|edit))`")


class Step:
    """A step of the page: its text, the file that it names first, and its block of text."""

    def __init__(self, text):
        self.text = text
        file, block = FILE.search(text), BLOCK.search(text)
        self.file = file and file.group(1)
        self.block = block and textwrap.dedent(block.group(1)).strip("\n") + "\n"


def steps():
    """The steps of the page, by their numbers."""
    parts = STEP.split((TOP / "docs" / "DEVELOPING.md").read_text())
    return {int(number): Step(text) for number, text in zip(parts[1::2], parts[2::2])}


def needed(name, lines):
    """A crate and those below it, by the lines of crates.txt."""
    crates = {name}
    for low in lines[name].partition(":")[2].split():
        crates |= needed(low, lines) if low in lines else set()
    return crates


def copy(crate, room):
    """Copies what a crate needs to a folder."""
    lines = {line.split(":")[0].split()[0]: line for line in (TOP / "crates.txt").read_text().splitlines() if ":" in line and line[0] != "#"}
    names = sorted(needed(crate, lines))
    (room / "crates.txt").write_text("".join(lines[name] + "\n" for name in names))
    for name in names:
        shutil.copytree(CRATES / name, room / "crates" / name, ignore=shutil.ignore_patterns("must-fail"))
    for name in ("HANDLES", "prove.py"):
        shutil.copy(TOP / name, room)
    shutil.copytree(TESTS / "gate", room / "tests" / "gate")
    shutil.copytree(TESTS / "lib", room / "tests" / "lib")


def define(room, step):
    file = room / step.file
    file.write_text(f"{file.read_text()}\n{step.block}")


def write(room, step):
    """Puts the function of a step at the end of its file's last `impl`, and its name into the last `ghost use` line."""
    file = room / step.file
    name = re.search(r"add `(\w+)` to the\s+last `ghost use` line", step.text).group(1)
    head, _, rest = file.read_text().rpartition("\n}\n")
    before, use, after = head.rpartition("\nghost use ")
    line, _, body = after.partition("\n")
    text = f"{before}{use}{line.removesuffix('};')}, {name}}};\n{body}\n\n{textwrap.indent(step.block, ' ' * 4)}}}\n{rest}"
    file.write_text(text)
    return file, text


def runs(command, folder):
    """Whether a command ends well in a folder; if it does not, its output is printed."""
    ran = subprocess.run(command.split(), cwd=folder, stdout=subprocess.PIPE, stderr=subprocess.STDOUT, text=True)
    if ran.returncode:
        print(f"tutorial.py: {command} ended with status {ran.returncode}:\n{ran.stdout[-3000:]}")
    return ran.returncode == 0


def made(room):
    """Makes the steps in a folder, and reports for each command whether it passes, until one does not."""
    first, defined, written, proved, refused = (steps()[number] for number in range(1, 6))
    crate = pathlib.PurePath(written.file).parts[1]
    copy(crate, room)
    yield runs(first.block.splitlines()[-1], room)
    define(room, defined)
    file, text = write(room, written)
    for command in re.findall(r"^\| `([^`]+)`", proved.text, re.MULTILINE):
        yield runs(command, room / "crates" / crate)
    if file.read_text() != text or (room / defined.file).read_text().count(defined.block) != 1:
        print("tutorial.py: rt fmt lays the change out otherwise")
        yield False
    edit = room / refused.file
    edit.parent.mkdir(parents=True)
    edit.write_text(refused.block)
    yield runs(re.search(r"`(tests/gate/[^`]+)` has the prover", refused.text).group(1), room)


def all_made():
    with tempfile.TemporaryDirectory() as folder:
        for passed in made(pathlib.Path(folder)):
            yield passed
            if not passed:
                return


if __name__ == "__main__":
    if len(sys.argv) != 1:
        sys.exit(__doc__)
    sys.exit(counted(all_made()))
