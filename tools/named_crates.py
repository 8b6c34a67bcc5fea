#!/usr/bin/env python3
"""named_crates.py: for each line of crates.txt, crates that it lists and no file of the crate names, and crates that are named and not listed.

A crate whose type lies within what another uses has to be listed too, which the borrow checker asks for: such a line may list more than it names.
"""
import os
import re

listed = {}
for line in open("crates.txt"):
    if ":" in line and not line.startswith("#"):
        name, below = line.split(":")
        listed[name.split()[0]] = set(below.split())
for crate, below in listed.items():
    named = set()
    for top, folders, files in os.walk(os.path.join("crates", crate)):
        folders[:] = [folder for folder in folders if folder != "out"]
        for file in files:
            if file.endswith((".rt", ".antt", ".edit")):
                text = open(os.path.join(top, file)).read()
                named |= set(re.findall(r"Rattle\.([a-z_]+)", text))
                if file.endswith(".rt"):
                    named |= set(re.findall(r"(?<![\w:])([a-z_]+)::", text))
    named = (named & set(listed)) - {crate}
    if below - named:
        print(f"{crate} lists and does not name: {' '.join(sorted(below - named))}")
    if named - below:
        print(f"{crate} names and does not list: {' '.join(sorted(named - below))}")
