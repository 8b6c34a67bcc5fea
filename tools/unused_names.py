#!/usr/bin/env python3
"""unused_names.py FILE...: drop the names of `use M.{..}` lines that the file does not mention. In a proved crate `rt tidy` does it."""
import re
import sys

for name in sys.argv[1:]:
    lines = open(name).read().split("\n")
    body = "\n".join(l for l in lines if not re.match(r"(ghost )?use ", l) and not re.match(r"\s*(--|//)", l))
    tokens = set(re.findall(r"[^\s(){}\[\],;.]+", body)) | set(re.findall(r"[^\s(){}\[\],;]+", body))
    if "[]" in body:
        tokens.add("[]")
    out = []
    for line in lines:
        m = re.match(r"((?:ghost )?use [^{]*\.\{)(.*)(\};?)$", line)
        if not m:
            out.append(line)
            continue
        kept = []
        for used in (x.strip() for x in m[2].split(",")):
            base = used.split(" as ")[-1]
            if base in tokens or (len(base) > 2 and base[0] == base[-1] == "◌" and base.strip("◌") in tokens):
                kept.append(used)
        if kept:
            out.append(m[1] + ", ".join(kept) + m[3])
    if out != lines:
        open(name, "w").write("\n".join(out))
        print("trimmed", name)
