#!/usr/bin/env python3
"""Tries shorter proofs of a crate's lemmas, and writes those that the prover takes.

Usage: shorter.py CRATE [FILE ..]      (FILE: a lemma file, as RingLemmas or Log/TurnLemmas; all of the crate's, if none is named)

The crate is proved before (`prove.py CRATE`). For each clause of a lemma that has lines to lose it tries these bodies:

- `grind` with the lemmas that the body names, and with the lemma itself if the body calls it;
- the first `let`s of the body, and `grind` with what the rest of it names;
- the body without a `let` whose name nothing else uses.

A copy of the lemma with each body, under another name, is written below it, in a copy of the crate; one check then refuses the wrong ones by
their lines. Of those that pass, the shortest of each clause are put together and checked once more. It takes half a minute to some minutes a
file, longer if lemmas have large records. Read its result, and format (`rt fmt`) and prove (`rt check`) it. The last line is 'N lines fewer'.
"""
import argparse
import pathlib
import re
import subprocess
import sys
import tempfile

sys.path.insert(0, str(pathlib.Path(__file__).resolve().parents[2]))

import prove

PROBE = "shorter_probe"
WIDTH = 140
LETTERS = r"A-Za-z0-9_'\-\u0080-\uffff"
SIGNATURE = re.compile(r"(?:pub )?([^\s(){}:◌]+) : ")
IMPORT = re.compile(r"(?:pub )?use (\S+)\.\{(.*)\}$")
COMMON = "Rattle.std.proofs.Common"
# The names that join a proof by hand, and that `grind` does not need.
JOINTS = {"refl", "sym", "ap", "subst", "inl", "inr", "absurd", "arith", "cc", "rules"}


def is_closed(lines):
    """Whether each bracket that lines open is closed in them."""
    text = "".join(lines)
    return all(text.count(opening) == text.count(closing) for opening, closing in ("()", "[]", "{}"))


def says(name, text):
    """Whether a text has a name as a word."""
    return re.search(rf"(?<![{LETTERS}.]){re.escape(name)}(?![{LETTERS}])", text) is not None


class Lemma:
    """A signature, the lines below it that unfold, and clauses, each a list of lines."""

    def __init__(self, name, head, clauses):
        self.name, self.head, self.clauses = name, head, clauses

    def lines(self, clauses=None):
        return self.head + [line for clause in clauses or self.clauses for line in clause]

    def renamed(self, name, clauses):
        word = re.compile(rf"(?<![{LETTERS}.]){re.escape(self.name)}(?![{LETTERS}])")
        return [re.sub(r"^pub ", "", word.sub(name, line)) for line in self.lines(clauses)]


def parts_of(text):
    """A lemma file: its lemmas, and lists of the lines between them."""
    lines, parts, at = text.split("\n"), [[]], 0
    while at < len(lines):
        match, end = SIGNATURE.match(lines[at]), at + 1
        while match and end < len(lines) and lines[end].startswith((" ", "unfolding ")):
            end += 1
        head, clauses = lines[at:end], []
        while match and end < len(lines) and (lines[end] + " ").startswith(match[1] + " "):
            begun, end = end, end + 1
            while end < len(lines) and lines[end].startswith((" ", "]", "}", ")")):
                end += 1
            clauses.append(lines[begun:end])
        if clauses:
            parts += [Lemma(match[1], head, clauses), []]
            at = end
        else:
            parts[-1].append(lines[at])
            at += 1
    return parts


def text_of(parts):
    return "\n".join(line for part in parts for line in (part.lines() if isinstance(part, Lemma) else part))


class Body:
    """A clause taken apart: up to its `=`, its `let`s, the text after them, and its `where`."""

    def __init__(self, clause):
        self.head, _, first = clause[0].partition(" =")
        rest = ["    " + first.strip()] * bool(first.strip()) + clause[1:]
        cut = next((at for at, line in enumerate(rest) if line.strip() == "where"), len(rest))
        rest, self.where = rest[:cut], rest[cut:]
        self.lets, begun = [], []
        for line in rest:
            if not begun and not line.strip().startswith("let "):
                break
            begun.append(line)
            if line.endswith(" in") and is_closed(begun):
                self.lets, begun = [*self.lets, begun], []
        self.rest = rest[sum(map(len, self.lets)):]

    def with_end(self, lets, end):
        """The clause with these `let`s and this end, in one line if it fits."""
        one = f"{self.head} = {end[0].strip()}"
        if not lets and len(end) == 1 and len(one) <= WIDTH:
            return [one, *self.where]
        return [f"{self.head} =", *(line for let in lets for line in let), *end, *self.where]

    def names(self):
        """The names that its `let`s give."""
        return [re.match(r"\s*let ([^ :=]+)", let[0])[1] for let in self.lets]


def lemmas_of(parts, before):
    """The names of lemmas that are imported, and of those above a place."""
    imports = [IMPORT.match(line) for part in parts if isinstance(part, list) for line in part]
    lists = [match[2] for match in imports if match and ".proofs." in match[1] and match[1] != COMMON]
    found = [name.split(" as ")[-1].strip() for names in lists for name in names.split(",")]
    found += [part.name for part in parts[:before] if isinstance(part, Lemma)]
    return [name for name in found if "◌" not in name and name not in JOINTS]


def by_grind(lemma, names, text, hidden):
    """`grind` with the lemmas that a text names, and with the calls of the lemma itself that name no hidden `let`."""
    calls = re.findall(rf"(?<![{LETTERS}.]){re.escape(lemma.name)}(?: (?:[{LETTERS}.]+|\([^()]*\)))+", text)
    words = [name for name in dict.fromkeys(names) if says(name, text)]
    words += [call for call in dict.fromkeys(calls) if not any(says(name, call) for name in hidden)]
    return "    grind (" + ", ".join(["arith", *words]) + ")" if words else "    grind arith"


def shorter(parts, at):
    """Shorter clauses of a lemma: which clause, and its lines."""
    lemma, names = parts[at], lemmas_of(parts, at)
    for place, clause in enumerate(lemma.clauses):
        body = Body(clause)
        for kept in range(len(body.lets) + 1):
            text = "\n".join(line for let in [*body.lets[kept:], body.rest] for line in let)
            if text.count("\n"):
                yield place, body.with_end(body.lets[:kept], [by_grind(lemma, names, text, body.names()[kept:])])
        for out, name in enumerate(body.names()):
            lets = body.lets[:out] + body.lets[out + 1:]
            if not says(name, "\n".join(line for let in [*lets[out:], body.rest, body.where] for line in let)):
                yield place, body.with_end(lets, body.rest)


def with_arith(text):
    """A lemma file that imports what `grind` is given."""
    if re.search(rf"^use {COMMON}\.\{{(?:.*, )?arith[,}}]", text, re.MULTILINE):
        return text
    more, count = re.subn(rf"^(use {COMMON}\.\{{[^}}]*)", r"\1, arith", text, count=1, flags=re.MULTILINE)
    return more if count else re.sub(r"^use ", f"use {COMMON}.{{arith}}\nuse ", text, count=1, flags=re.MULTILINE)


class Copy:
    """A copy of a crate, with a function whose proof reads lemma files and nothing else."""

    def __init__(self, crate, folder):
        self.folder = folder
        lib = self.folder / "src/lib.rt"
        lib.write_text(f"{lib.read_text()}\npub fn {PROBE}()\n    ensures {{ Unit {{0}} }}\n{{}}\n")
        self.answers = self.folder / "proofs" / PROBE / "Answers.antt"
        self.answers.parent.mkdir()
        self.crate = crate
        self.lemmas = prove.TOP / "crates" / crate / "proofs"

    def refused(self, path, text):
        """The lines of a lemma file that a check refuses, and whether it could read the file to its end."""
        within = path.relative_to(self.lemmas)
        self.answers.write_text(f"use Rattle.{self.crate}.proofs.{'.'.join(within.with_suffix('').parts)}\n")
        (self.folder / "proofs" / within).write_text(text)
        words = ["rt", "check", "--only", PROBE]
        said = subprocess.run(words, cwd=self.folder, stdout=subprocess.PIPE, stderr=subprocess.STDOUT, text=True).stdout
        lines = {int(it) for it in re.findall(rf"^\./proofs/{re.escape(str(within))}:(\d+):\d+: error", said, re.MULTILINE)}
        is_read = f"{PROBE}: proved" in said
        if not lines and not is_read:
            raise SystemExit(said)
        return lines, is_read

    def passing(self, path, parts, tried):
        """Which of these pass: pairs of a lemma's place and its clauses. A body that can't be read hides the others: they are tried again."""
        lines, spans = [], []
        for at, part in enumerate(parts):
            lines += part.lines() if isinstance(part, Lemma) else part
            for one, (place, clauses) in enumerate(tried):
                if place == at:
                    begun = len(lines) + 2
                    lines += ["", *part.renamed(f"{part.name}__{one}", clauses)]
                    spans.append((one, begun, len(lines)))
        refused, is_read = self.refused(path, "\n".join(lines))
        wrong = {one for one, begun, end in spans if any(begun <= line <= end for line in refused)}
        left = [it for one, it in enumerate(tried) if one not in wrong]
        return left if is_read or not wrong else self.passing(path, parts, left)


def shortened(copy, path):
    """Writes a lemma file anew, and returns how many lines it has fewer."""
    before = path.read_text()
    parts = parts_of(with_arith(before))
    lemmas = [at for at, part in enumerate(parts) if isinstance(part, Lemma)]
    bodies = [(at, place, lines) for at in lemmas for place, lines in shorter(parts, at) if len(lines) < len(parts[at].clauses[place])]
    tried = [(at, [*parts[at].clauses[:place], lines, *parts[at].clauses[place + 1:]]) for at, place, lines in bodies]
    passed, best = copy.passing(path, parts, tried), {}
    for (at, place, lines), one in zip(bodies, tried):
        if one in passed and len(lines) < len(best.get((at, place), parts[at].clauses[place])):
            best[at, place] = lines
    whole = [(at, [best.get((at, place), clause) for place, clause in enumerate(parts[at].clauses)]) for at in {at for at, _ in best}]
    for at, clauses in copy.passing(path, parts, whole):
        parts[at].clauses = clauses
    after = text_of(parts)
    if not whole or copy.refused(path, after) != (set(), True):
        return 0
    path.write_text(after)
    return before.count("\n") - after.count("\n")


def lemma_files(proofs):
    """A crate's lemma files; a folder of them has a list beside it."""
    paths = [*proofs.glob("*.antt"), *proofs.glob("[A-Z]*/*.antt")]
    return sorted(it for it in paths if it.stem != "Lib" and not it.with_suffix("").is_dir())


def main():
    words = argparse.ArgumentParser(description=__doc__, formatter_class=argparse.RawDescriptionHelpFormatter)
    words.add_argument("crate", metavar="CRATE")
    words.add_argument("files", metavar="FILE", nargs="*")
    asked = words.parse_args()
    proofs = prove.TOP / "crates" / asked.crate / "proofs"
    paths = [proofs / f"{name}.antt" for name in asked.files] or lemma_files(proofs)
    fewer = 0
    with tempfile.TemporaryDirectory(dir=prove.TOP / ".git") as room:
        copy = Copy(asked.crate, prove.copied(asked.crate, pathlib.Path(room)))
        for path in paths:
            lines = shortened(copy, path)
            print(f"{path.name}: {lines}", flush=True)
            fewer += lines
    print(f"{fewer} lines fewer")


if __name__ == "__main__":
    main()
