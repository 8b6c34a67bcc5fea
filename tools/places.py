#!/usr/bin/env python3
"""Counts, in the code of a checkout, the places of each point of docs/DESIGN-PASS.md.

places.py [FOLDER]      the counts
places.py --list WORD   the places of the counts whose name has WORD
"""
import glob
import re
import sys

args = sys.argv[1:]
word = args[args.index("--list") + 1] if "--list" in args else None
rest = [a for i, a in enumerate(args) if a != "--list" and (i == 0 or args[i - 1] != "--list")]
top = rest[0] if rest else "."
files = {f[len(top) + 1:]: open(f).read().split("\n") for f in sorted(glob.glob(top + "/crates/*/src/**/*.rt", recursive=True))}


def lines(pattern, after=None):
    """The lines that match, and whose next line matches `after` where one is given."""
    found = []
    for name, text in files.items():
        for i, line in enumerate(text):
            if line.lstrip().startswith("//") or not re.search(pattern, line):
                continue
            if after is None or (i + 1 < len(text) and re.search(after, text[i + 1])):
                found.append(f"{name}:{i + 1}: {line.strip()}")
    return found


def functions(names, test=None):
    """The functions of these names; with `test`, those whose signature matches it."""
    found = []
    for name, text in files.items():
        for i, line in enumerate(text):
            if re.search(r"\bfn (" + names + r")\b", line):
                j = i
                while j < len(text) and text[j] != "{" and text[j].strip() != "{":
                    j += 1
                if test is None or re.search(test, "\n".join(text[i:j])):
                    found.append(f"{name}:{i + 1}: {line.strip()}")
    return found


SHAPED = "Spot|Reached|Found|Next|Written|Examined|Answer|Verdict|Cheapest"
PLACES = "tree_place|pair_place|fault_place|over_place|lowest_member|lowest_dark|hangs_by"
HANDS = ("number|row_of|named|reason_number|better_number|reply_kind|mark_kind|final_kind|state_of|lower|higher|either|either_complete|gated|wide|"
         "wide16|wide32|is_digit|size_of|complete|bytes_left|first_step|steps_length")
counts = [
    ("1a enums of the shape of Option or Result", lines(rf"^\s*(pub )?enum ({SHAPED})\b")),
    ("1b structs with an answer beside the value", lines(r"^\s+(pub )?(answer|reached|found|reply): [A-Z][A-Za-z]+,$")),
    ("1c constants that stand for none", lines(r"const (NO|NO_[A-Z]+|UNFED|OVERLOADED): ")),
    ("1d functions that answer a count where there is none", [x for x in functions(PLACES) if x not in functions(PLACES, "-> Option")]),
    ("1e numbers of kinds, forms, flags", lines(r"\b(kind|form|flags|sign): (&?\[?u16|u8)")),
    ("1f tests of a member as a number", lines(r"(==|!=) [01] (\{|&&|\|\|)")),
    ("2a parameters head, chain, fix of walks and searches", lines(r"^\s+(head|chain|fix): &")),
    ("3a while", lines(r"^\s*while ")),
    ("3b an index counted by hand", lines(r"^\s*([a-z]+ [+-]= 1;|([a-z]+) = \2 [+-] 1;)")),
    ("4a functions that convert, compare or choose", functions(HANDS)),
    ("4b an if within an if that says and", lines(r"^\s+if .*\{$", r"^\s+if .*\{$")),
    ("5a requires of a fact of a network, a start or a walk", lines(r"requires .*\{ \(?(Begun|Searchable|WellFormed|Lent|PackedLent|SumLent|Settled|WalkLent) ")),
    ("6a packed arrays", lines(r"\[u8; 448\]|\[u32; 128\]|\[u32; 192\]|\[u64; 2\]")),
    ("6b fields that are arrays", lines(r"^\s+pub [a-z]+: \[[a-z0-9]+; [0-9]+\],$")),
    ("7a functions that take a closure", lines(r"impl Fn|: Fn(Mut|Once)?\(")),
]
for name, found in counts:
    if word is None or word in name:
        print(f"{len(found):4}  {name}")
        if word is not None:
            print("\n".join("      " + x for x in found))
if word is None:
    proofs = [f for f in glob.glob(top + "/crates/*/proofs/**/*.antt", recursive=True) if f.endswith(("/Answers.antt", "/Invariants.antt"))]
    print(f"{sum(len(open(f).read().splitlines()) for f in proofs):4}  8a lines of answers and invariants")
