#!/usr/bin/env python3
"""rename.py FOLDER...: give the crates, proof files and definitions of a folder of Rattle files their present names.

A folder is a repository (with crates/ and crates.txt), or one crate that stands alone. Files are changed in place; in a
repository the folders of crates move too. Running it twice changes nothing the second time.

For one crate, run at the repository's root, names that stand in another module by now are taken from there, where just one
module has them or one of the same name, and its line for crates.txt is printed: the crates that it names.

It reads files of before the port to today's Rattle, which name crates as Rattle·NAME: run it before port.py and respell.py.
"""
import glob
import os
import re
import sys

# crate: its name by family
CRATES = {
    "stages": "file_stages",
    "fields": "file_fields",
    "records": "file_records",
    "record_reader": "file_reader",
    "network_file": "file_network",
    "plan_file": "file_plan",
    "judge_input": "file_both",
    "plan_writer": "file_writer",
    "refusals": "file_refusals",
    "parts": "feeding_parts",
    "sets": "feeding_sets",
    "ends": "feeding_ends",
    "loads": "feeding_loads",
    "places": "feeding_places",
    "safety": "feeding_safety",
    "restoration": "feeding_restoration",
    "operable": "feeding_operable",
    "acceptance": "feeding_acceptance",
    "packing": "feeding_walks",
    "capacity": "feeding_capacity",
    "part_sums": "feeding_part_sums",
    "local_safety": "judge_safe_steps",
    "planning": "plan_problem",
    "carrying": "plan_stops",
    "switches": "plan_switches",
    "holdings": "plan_holdings",
    "supply": "plan_supply",
    "setting": "plan_setting",
    "search": "plan_search",
    "candidates": "plan_candidates",
    "spurs": "plan_spurs",
    "lumping": "plan_lumping",
    "cheapest": "plan_cheapest",
    "cheapest_cost": "plan_least_cost",
    "printed": "plan_form",
    "sums": "plan_sums",
    "outcomes": "plan_outcome",
    "answering": "plan_answer",
    "lines": "plan_lines",
    "marking": "judge_marks",
    "submitted": "judge_steps",
    "closing_check": "judge_closing",
    "examining": "judge_examine",
    "plan_marks": "judge_score",
    "mark_lines": "judge_line",
    "case_files": "test_files",
}

# crate, as it was called: its proof files that are named for their idea now
FILES = {
    "capacity": {"Turns": "Room"},
    "ends": {"Turns": "Chaining"},
    "holdings": {"Turns": "Tests"},
    "judge": {"Turns": "Ways"},
    "lumping": {"Turns": "LayerByLayer"},
    "part_sums": {"Turns": "Summing"},
    "parts": {"Turns": "Relabelling"},
    "plan_marks": {"Turns": "Ways"},
    "printed": {"Turns": "Sweeping"},
    "search": {"Turns": "Cases"},
    "sets": {"Turns": "Membership"},
    "spurs": {"Turns": "OneMore"},
    "submitted": {"Turns": "Following"},
    "supply": {"Turns": "Adding"},
    "switches": {"Turns": "Columns"},
}

# crate, as it was called: definitions that shared a name with another one
NAMES = {
    "network_file": {"Outcome": "Reading", "andThen": "readOn"},
    "stages": {"leads": "goesTo"},
    "local_safety": {"joining": "joiningOf", "soundIn": "soundSign"},
    "ends": {"nextOf": "nextEnd", "farOf": "farEnd"},
    "records": {"orElse": "elseFirst"},
    "carrying": {"Carried": "CarriedParts"},
}

LETTER = r"[\w′·\-?₀-₉]"


def word(name):
    """The name by itself: no part of a longer one, of a module's path or of a `mod` line."""
    return re.compile(rf"(?<!{LETTER})(?<!\.)(?<!mod ){re.escape(name)}(?!{LETTER}|\.\{{)")


def named(line, old, new, rattle):
    """A line with the definition renamed; in Rattle's code that is only where contracts and their `use` lines stand."""
    if rattle and "⌜" not in line and "ghost use" not in line:
        return line
    return word(old).sub(new, line)


def crate_names(text):
    """The names of crates: Rattle·NAME in antt, and in Rattle's code and in comments `use NAME::` and NAME::path too."""
    def antt(m):
        return "Rattle·" + CRATES.get(m[1], m[1])
    text = re.sub(r"Rattle·([a-z_]+)(?![a-z_])", antt, text)

    def call(m):
        return "calls-" + CRATES.get(m[1].replace("-", "_"), m[1]).replace("_", "-") + "·"
    text = re.sub(r"calls-([a-z-]+)·", call, text)

    def path(m):
        return CRATES.get(m[1], m[1]) + "::"
    return re.sub(r"(?<![\w:])([a-z_]+)::", path, text)


def used(text, crate):
    """Names that the text takes from the crate, with those of modules that it takes whole."""
    found = set()
    for m in re.finditer(rf"use Rattle·{crate}(?:·\w+)?[\w.·\-]*\.\{{([^}}]*)\}}", text):
        found |= {x.strip().split(" as ")[0] for x in m[1].split(",")}
    for m in re.finditer(rf"use Rattle·{crate}(?:·\w+)?\.[\w.·\-]*? as (\w+)", text):
        found.add(m[1] + ".")
    return found


def renamed(text, crate, rattle):
    """A file of the crate, or of no crate where that is None."""
    for owner, names in NAMES.items():
        taken = used(text, owner)
        for old, new in names.items():
            if crate == owner or old in taken:
                text = "\n".join(named(line, old, new, rattle) for line in text.split("\n"))
            for module in (x for x in taken if x.endswith(".")):
                text = text.replace(module + old, module + new)
    for owner, files in FILES.items():
        for old, new in files.items():
            text = re.sub(rf"(Rattle·{owner}(?:·proofs)?\.proofs\.){old}(?![\w])", rf"\g<1>{new}", text)
            if crate == owner:
                text = re.sub(rf"^(pub mod|mod) {old}$", rf"\1 {new}", text, flags=re.M)
    return crate_names(text)


def rewrite(path, change):
    before = open(path, encoding="utf-8").read()
    after = change(before)
    if after != before:
        open(path, "w", encoding="utf-8").write(after)


def crate_folder(folder, crate):
    for top, _, files in os.walk(folder):
        for name in files:
            path = os.path.join(top, name)
            if name.endswith((".rt", ".antt", ".edit")):
                rewrite(path, lambda text: renamed(text, crate, name.endswith(".rt") or "\nfile: src" in text))
    proofs = os.path.join(folder, "proofs")
    for old, new in FILES.get(crate, {}).items():
        if os.path.exists(os.path.join(proofs, old + ".antt")):
            os.rename(os.path.join(proofs, old + ".antt"), os.path.join(proofs, new + ".antt"))


def exported():
    """name: the modules of the repository that export it, as (crate, specs or proofs, module)."""
    found = {}
    for top in ("specs", "proofs"):
        for file in sorted(glob.glob(f"crates/*/{top}/*.antt")):
            _, crate, _, name = file.split(os.sep)
            text = open(file, encoding="utf-8").read()
            for m in re.finditer(r"^ *(?:unfoldable |abbrev )?pub (?:record |data )?(\S+)", text, re.M):
                found.setdefault(m[1], set()).add((crate, top, name[:-5]))
            for cases in re.findall(r"^pub data [^\n]*where\n((?:  [^\n]*\n)+)", text, re.M):
                for case in re.findall(r"^  ([^\s-]\S*) :", cases, re.M):
                    found.setdefault(case, set()).add((crate, top, name[:-5]))
    return found


def taken_anew(text, index):
    """The `use` lines of other crates' modules, each name from the module that has it now."""
    def line(m):
        crate, top, module, names = m[2], m[3], m[4], [x.strip() for x in m[5].split(",")]
        moved = {}
        for name in names:
            homes = index.get(name.split(" as ")[0], set())
            home = (crate, top, module)
            alike = [h for h in homes if h[1:] == (top, module)] or list(homes)
            if os.path.isdir(os.path.join("crates", crate)) and home not in homes and len(alike) == 1:
                home = alike[0]
            moved.setdefault(home, []).append(name)
        return "\n".join(f"{m[1]}use Rattle·{c}.{t}.{n}.{{{', '.join(x)}}}{m[6]}" for (c, t, n), x in moved.items())
    return re.sub(r"^((?:ghost )?)use Rattle·([a-z_]+)\.(specs|proofs)\.(\w+)\.\{([^}]*)\}(;?)$", line, text, flags=re.M)


def lone_crate(folder):
    index = exported()
    named_crates = set()
    for top, _, files in os.walk(folder):
        for name in files:
            if name.endswith((".rt", ".antt")):
                path = os.path.join(top, name)
                rewrite(path, lambda text: taken_anew(text, index))
                text = open(path, encoding="utf-8").read()
                named_crates |= set(re.findall(r"Rattle·([a-z_]+)", text)) | set(re.findall(r"(?<![\w:])([a-z_]+)::", text))
    crate = os.path.basename(os.path.normpath(folder))
    below = sorted(c for c in named_crates if c != crate and (os.path.isdir(os.path.join("crates", c)) or c in ("io", "libc", "os")))
    print(f"{CRATES.get(crate, crate)}: {' '.join(below)}")


def listed(text):
    """crates.txt, and the line of it that a lone crate's README begins with."""
    def line(m):
        return re.sub(r"[a-z_]+", lambda n: CRATES.get(n[0], n[0]), m[0])
    return re.sub(r"^ *[a-z_]+:[a-z_ ]*$", line, text, flags=re.M)


def main():
    for folder in sys.argv[1:]:
        crates = os.path.join(folder, "crates")
        if not os.path.isdir(crates):
            crate_folder(folder, os.path.basename(os.path.normpath(folder)))
            lone_crate(folder)
            readme = os.path.join(folder, "README.md")
            if os.path.exists(readme):
                rewrite(readme, listed)
            continue
        for crate in sorted(os.listdir(crates)):
            crate_folder(os.path.join(crates, crate), crate)
        for crate in sorted(os.listdir(crates)):
            if crate in CRATES:
                os.rename(os.path.join(crates, crate), os.path.join(crates, CRATES[crate]))
        rewrite(os.path.join(folder, "crates.txt"), listed)


main()
