#!/usr/bin/env python3
"""Compares `mc_tools read_back` with plain lists of spellings: what a proxy sends for a command, and which bytes are a reply to it.

Usage: spellings.py [SEEDS [CASES [PROGRAM]]]      (seeds 1 to 100, 1,000 cases each, mc_tools as it was built)

A case is a random command as some client writes it, and bytes that arrive in answer: a reply or several, spelled from the tables
below, whole or with one byte changed, removed or added, or cut off, in random pieces. Nothing here is taken from the crates: a
command's spelling is made from its parts, and whether bytes are a reply is found by trying each form of the list of its replies, in
sequence. The script prints the first cases of a seed that fail, and last 'N passed, M failed', in seeds.
"""

import base64
import pathlib
import random
import subprocess
import sys

sys.path.insert(0, str(pathlib.Path(__file__).resolve().parents[1] / "lib"))

from suite import are_built, built, counted

VALUE_LIMIT = 1048576
U32, U64 = 2**32 - 1, 2**64 - 1

TOO_LARGE = b"SERVER_ERROR object too large for cache\r\n"
USED_UP = b"SERVER_ERROR cas numbers used up\r\n"
NO_MEMORY = b"SERVER_ERROR out of memory storing object\r\n"
NON_NUMERIC = b"CLIENT_ERROR cannot increment or decrement non-numeric value\r\n"
STORE_FAULTS = [[TOO_LARGE], [USED_UP], [NO_MEMORY]]
COUNT_FAULTS = STORE_FAULTS + [[NON_NUMERIC]]
MARKS = [b"", b" W", b" W X", b" X Z", b" Z"]


class Number:
    """A number of at most this, without a leading zero."""

    def __init__(self, most):
        self.most = most

    def made(self, dice, _):
        few = [0, 1, 9, 10, 255, self.most - 1, self.most]
        return str(min(self.most, dice.choice(few + [dice.randrange(self.most + 1)]))).encode()

    def tried(self, text, at, _):
        end = at
        while end < len(text) and text[end : end + 1].isdigit():
            end += 1
        digits = text[at:end]
        wrong = len(digits) > 1 and digits.startswith(b"0") or digits != b"" and int(digits) > self.most
        if wrong or digits == b"" and end < len(text):
            return "strange"
        return end if end < len(text) else "more"


class Size(Number):
    """The size of the value that is after the line."""

    def __init__(self):
        super().__init__(VALUE_LIMIT)

    def made(self, dice, seen):
        seen["size"] = dice.choice([0, 1, 2, 3, 20, 100, 300])
        return str(seen["size"]).encode()

    def tried(self, text, at, seen):
        end = super().tried(text, at, seen)
        if isinstance(end, int):
            seen["size"] = int(text[at:end])
        return end


class Value:
    """As many bytes as the size says."""

    def made(self, dice, seen):
        return bytes(dice.choice([13, 10, 32, 69, 78, 68, dice.randrange(256)]) for _ in range(seen["size"]))

    def tried(self, text, at, seen):
        return at + seen["size"] if at + seen["size"] <= len(text) else "more"


def tried_text(text, at, wanted):
    here = text[at : at + len(wanted)]
    if not wanted.startswith(here):
        return "strange"
    return at + len(wanted) if len(here) == len(wanted) else "more"


def tried_form(text, form):
    """Where a form that the text begins with ends, or `more`, or `strange`."""
    at, seen = 0, {}
    for field in form:
        at = tried_text(text, at, field) if isinstance(field, bytes) else field.tried(text, at, seen)
        if not isinstance(at, int):
            return at
    return at


def made_form(dice, form):
    seen = {}
    return b"".join(field if isinstance(field, bytes) else field.made(dice, seen) for field in form)


def judged(text, forms):
    """How many bytes of the text are a reply, or `more`, or `strange`."""
    found = [tried_form(text, form) for form in forms]
    whole = [end for end in found if isinstance(end, int)]
    assert len(whole) <= 1, (text, whole)
    return whole[0] if whole else "more" if "more" in found else "strange"


def shown(flags, order):
    """The lists of fields that a reply shows, in the order of spellings."""
    lists = [[]]
    for letter in "cfst":
        if letter in flags and letter in order:
            most = {"c": U64, "f": U32, "s": VALUE_LIMIT, "t": U64}[letter]
            fields = [[b" " + letter.encode(), Number(most)]]
            if letter == "t":
                fields.append([b" t-1"])
            lists = [before + field for before in lists for field in fields]
    return lists


def done(flags, order, marks=(b"",)):
    """The forms of `HD`, or with `v` of `VA`."""
    for fields in shown(flags, order):
        for mark in marks:
            if "v" in flags:
                yield [b"VA ", Size()] + fields + [mark + b"\r\n", Value(), b"\r\n"]
            else:
                yield [b"HD"] + fields + [mark + b"\r\n"]


def signed(dice):
    return str(dice.choice([0, 0, 1, 60, -1, -(2**63), 2**63 - 1, dice.randrange(-(2**63), 2**63)]))


def number(dice, most=U64):
    return str(dice.choice([0, 1, 10, most, dice.randrange(most + 1)]))


def loosely(dice, digits):
    """A number as a client may write it, with leading zeros; the protocol reads at most 20 digits."""
    sign, digits = ("-", digits[1:]) if digits.startswith("-") else ("", digits)
    zeros = dice.randrange(0, 20 - len(digits) + 1) if dice.random() < 0.2 and len(digits) < 20 else 0
    return sign + "0" * zeros + digits


def plain_key(dice):
    count = dice.choice([1, 1, 2, 5, 20, 250])
    return bytes(dice.choice([33, 65, 97, 126, 128, 255, 49]) for _ in range(count))


def block(dice):
    return bytes(dice.choice([13, 10, 120, dice.randrange(256)]) for _ in range(dice.choice([0, 1, 2, 7, 100])))


def spaced(dice, words):
    """Words as a client may write them: with more than one space between, before and after."""
    gap = lambda: b" " * (dice.choice([1, 1, 1, 2, 3]))
    line = gap().join(words) if dice.random() < 0.2 else b" ".join(words)
    end = b"\n" if dice.random() < 0.2 else b"\r\n"
    return (b" " if dice.random() < 0.1 else b"") + line + end


def encoded(words):
    return [word.encode() if isinstance(word, str) else word for word in words]


def retrieval(dice):
    key, others = plain_key(dice), [plain_key(dice) for _ in range(dice.choice([0, 0, 1, 3]))]
    name = dice.choice(["get", "gets", "gat", "gats"])
    exptime = signed(dice) if name.startswith("gat") else None
    front = [name] + ([exptime] if exptime else [])
    loose = [name] + ([loosely(dice, exptime)] if exptime else [])
    hit = [b"VALUE " + key + b" ", Number(U32), b" ", Size()]
    hit += [b" ", Number(U64)] if name.endswith("s") else []
    forms = [[b"END\r\n"], hit + [b"\r\n", Value(), b"\r\nEND\r\n"]]
    return spaced(dice, encoded(loose + [key] + others)), b" ".join(encoded(front + [key])) + b"\r\n", forms


def storage(dice):
    name = dice.choice(["set", "add", "replace", "append", "prepend", "cas"])
    key, data = plain_key(dice), block(dice)
    flags, exptime, size = number(dice, U32), signed(dice), str(len(data))
    compare = [number(dice)] if name == "cas" else []
    numbers = [flags, exptime]
    words = [name, key] + numbers + [size] + compare
    loose = [name, key] + [loosely(dice, digits) for digits in numbers] + [size] + [loosely(dice, c) for c in compare]
    loose += ["noreply"] if dice.random() < 0.3 else []
    forms = [[b"STORED\r\n"]] + STORE_FAULTS
    forms += {"set": [], "cas": [[b"EXISTS\r\n"], [b"NOT_FOUND\r\n"]]}.get(name, [[b"NOT_STORED\r\n"]])
    behind = data + b"\r\n"
    return spaced(dice, encoded(loose)) + behind, b" ".join(encoded(words)) + b"\r\n" + behind, forms


def other(dice):
    key = plain_key(dice)
    name = dice.choice(["touch", "delete", "incr", "decr", "flush_all"])
    words, forms = {
        "touch": lambda: ([name, key, signed(dice)], [[b"TOUCHED\r\n"], [b"NOT_FOUND\r\n"]]),
        "delete": lambda: ([name, key], [[b"DELETED\r\n"], [b"NOT_FOUND\r\n"]]),
        "incr": lambda: ([name, key, number(dice)], [[Number(U64), b"\r\n"], [b"NOT_FOUND\r\n"]] + COUNT_FAULTS),
        "decr": lambda: ([name, key, number(dice)], [[Number(U64), b"\r\n"], [b"NOT_FOUND\r\n"]] + COUNT_FAULTS),
        "flush_all": lambda: ([name, signed(dice)], [[b"OK\r\n"]]),
    }[name]()
    loose = words[:-1] + [loosely(dice, words[-1])] if name in ("touch", "incr", "decr", "flush_all") else list(words)
    if name == "delete" and dice.random() < 0.3:
        loose.append("0")
    if name == "flush_all" and words[-1] == "0" and dice.random() < 0.5:
        loose = [name]
    loose += ["noreply"] if dice.random() < 0.3 else []
    return spaced(dice, encoded(loose)), b" ".join(encoded(words)) + b"\r\n", forms


def chosen(dice, letters):
    return [letter for letter in letters if dice.random() < 0.4]


def meta(dice):
    name = dice.choice(["mg", "ms", "md", "ma"])
    coded = dice.random() < 0.4
    key = bytes(dice.randrange(256) for _ in range(dice.choice([1, 2, 3, 20, 250]))) if coded else plain_key(dice)
    data = block(dice)
    bare = chosen(dice, {"mg": "cfstv", "ms": "cs", "md": "I", "ma": "ctv"}[name])
    tokens = {}
    for letter in chosen(dice, {"mg": "TNR", "ms": "TFCM", "md": "C", "ma": "TCNJDM"}[name]):
        tokens[letter] = {
            "T": signed(dice), "N": signed(dice), "R": number(dice), "F": number(dice, U32), "C": number(dice),
            "J": number(dice), "D": number(dice), "M": dice.choice("EAPRS" if name == "ms" else "ID"),
        }[letter]
    asked = set(bare)
    if name == "mg":
        order, forms = "cfst", [[b"EN\r\n"]] + list(done(asked, "cfst", MARKS)) + (STORE_FAULTS if "N" in tokens else [])
        behind = [letter + tokens[letter] for letter in "TNR" if letter in tokens]
    elif name == "ms":
        order = "cs"
        forms = list(done(asked, order)) + [[b"NS\r\n"], [b"EX\r\n"], [b"NF\r\n"]] + STORE_FAULTS
        behind = ["T" + tokens.get("T", "0"), "F" + tokens.get("F", "0")]
        behind += ["C" + tokens["C"]] if "C" in tokens else []
        behind += ["M" + tokens.get("M", "S")]
    elif name == "md":
        order = ""
        forms = list(done(set(), order)) + [[b"NF\r\n"], [b"EX\r\n"]] + ([[USED_UP]] if "I" in asked else [])
        behind = (["C" + tokens["C"]] if "C" in tokens else []) + (["I"] if "I" in asked else [])
    else:
        order, forms = "ct", list(done(asked, "ct")) + [[b"NF\r\n"], [b"EX\r\n"]] + COUNT_FAULTS
        behind = [letter + tokens[letter] for letter in "TC" if letter in tokens]
        behind += ["N" + tokens["N"], "J" + tokens.get("J", "0")] if "N" in tokens else ["J0"]
        behind += ["D" + tokens.get("D", "1"), "M" + tokens.get("M", "I")]
    b64 = base64.b64encode(key)
    size = [str(len(data))] if name == "ms" else []
    first = ["b"] + [letter for letter in order + ("v" if name in ("mg", "ma") else "") if letter in asked]
    words = [name, b64] + size + first + behind
    loose = [letter for letter in bare] + chosen(dice, "kq")
    loose += [letter + (loosely(dice, token) if letter != "M" else dice.choice([token, token.lower()])) for letter, token in tokens.items()]
    loose += ["Oabc"] if dice.random() < 0.2 else []
    loose += ["b"] if coded else []
    dice.shuffle(loose)
    block_after = data + b"\r\n" if name == "ms" else b""
    text = spaced(dice, encoded([name, b64 if coded else key] + size + loose)) + block_after
    return text, b" ".join(encoded(words)) + b"\r\n" + block_after, forms


def mistaken(dice, text):
    """The bytes with one of them changed, removed or added."""
    at = dice.randrange(len(text))
    byte = bytes([dice.choice([13, 10, 32, 48, 49, 57, 65, 87, 88, 90, dice.randrange(256)])])
    return dice.choice([text[:at] + byte + text[at + 1 :], text[:at] + text[at + 1 :], text[:at] + byte + text[at:]])


def pieces(dice, text):
    kind = dice.random()
    if kind < 0.2:
        return [text[at : at + 1] for at in range(len(text))]
    cuts = sorted(dice.randrange(1, len(text)) for _ in range(dice.choice([0, 1, 2, 5]))) if len(text) > 1 else []
    ends = [0] + sorted(set(cuts)) + [len(text)]
    return [text[a:b] for a, b in zip(ends, ends[1:])]


def case(dice):
    """A line for the program, and its expected line."""
    text, spelling, forms = dice.choice([retrieval, storage, other, meta, meta])(dice)
    answer = b"".join(made_form(dice, dice.choice(forms)) for _ in range(dice.choice([1, 1, 1, 2, 3])))
    if dice.random() < 0.5:
        answer = mistaken(dice, answer)
    if dice.random() < 0.2:
        answer = answer[: dice.randrange(len(answer) + 1)]
    came = pieces(dice, answer) if answer else []
    wanted, unread = [spelling.hex()], b""
    for piece in came:
        unread += piece
        end = judged(unread, forms)
        while isinstance(end, int):
            wanted.append(unread[:end].hex())
            unread = unread[end:]
            end = judged(unread, forms)
        wanted.append(end)
        if end == "strange":
            break
    return " ".join([text.hex()] + [piece.hex() for piece in came]), " ".join(wanted)


def play(program, seed, count):
    """Whether each case of a seed has its expected line. Those that have not are printed."""
    dice = random.Random(seed)
    cases = [case(dice) for _ in range(count)]
    lines = "".join(line + "\n" for line, _ in cases)
    played = subprocess.run([program, "read_back"], input=lines.encode(), capture_output=True)
    printed = played.stdout.decode().split("\n")[:-1]
    wrong = [(line, wanted, got) for (line, wanted), got in zip(cases, printed) if wanted != got]
    for line, wanted, got in wrong[:3]:
        print(f"seed {seed}: {line}\nwanted: {wanted}\ngot:    {got}")
    if played.returncode or len(printed) != len(cases):
        print(f"seed {seed}: status {played.returncode}, {len(printed)} of {len(cases)} lines")
    return played.returncode == 0 and len(printed) == len(cases) and not wrong


def main():
    seeds = int(sys.argv[1]) if len(sys.argv) > 1 else 100
    count = int(sys.argv[2]) if len(sys.argv) > 2 else 1000
    program = sys.argv[3] if len(sys.argv) > 3 else built("mc_tools")
    sys.exit(counted(play(program, seed, count) for seed in range(1, seeds + 1)) if are_built(program) else 1)


if __name__ == "__main__":
    main()
