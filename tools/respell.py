#!/usr/bin/env python3
"""Brings this repository's definitions and lemmas to today's spelling, by the table respell.tsv beside this file.

usage: respell.py FOLDER      in a repository that port.py has turned, once

Words of several parts get underscores: netOf is net_of, safe-same is safe_same. Where a lemma would get the name of a definition,
it gets _lem behind. Four lemmas had a name in this spelling already that a definition gets now; they are turned first.
"""
import os
import re
import subprocess
import sys

HERE = os.path.dirname(os.path.realpath(__file__))
SNAKE = "/opt/rattle/port/notes/2026-11-18-names-are-in-snake-case/snake.py"
TAKEN = {"pair_place": None, "far_at": None, "both_read": None, "head_bytes": "Stating.antt", "load_at": "AtStart.antt"}


def lemmas_first(top):
    for folder, dirs, files in os.walk(os.path.join(top, "crates")):
        dirs[:] = [d for d in dirs if d != "out"]
        for name in files:
            if not name.endswith(".antt"):
                continue
            path = os.path.join(folder, name)
            with open(path, encoding="utf-8") as f:
                old = f.read()
            new = old
            for word, only in TAKEN.items():
                if only in (None, name):
                    new = re.sub(r"(?<![\w.'?·-])" + word + r"(?![\w'?·-])", word + "_lem", new)
            if new != old:
                with open(path, "w", encoding="utf-8") as f:
                    f.write(new)


def main(top):
    lemmas_first(top)
    places = [os.path.join(top, p) for p in ("crates", "docs", "README.md")]
    subprocess.run([sys.executable, SNAKE, "--table", os.path.join(HERE, "respell.tsv"), "--only", "antt,rt,md", *places], check=True)
    for crate in sorted(os.listdir(os.path.join(top, "crates"))):
        where = os.path.join(top, "crates", crate)
        if os.path.isdir(os.path.join(where, "src")):
            subprocess.run(["rt", "fmt"], cwd=where, stdout=subprocess.DEVNULL)


if __name__ == "__main__":
    main(sys.argv[1])
