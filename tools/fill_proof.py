#!/usr/bin/env python3
"""Write Proof.antt files from the skeletons that `rt dev` prints and from short answers.

    rt dev NAME > dev.out; rt dev NAME --generated gen > /dev/null
    python3 -c '
    import sys; sys.path.insert(0, "tools")
    from fill_proof import skeletons, fill
    skels = skeletons(open("dev.out").read())
    fill("gen", "crates/NAME", "fn_name", "What it proves, and by what idea.", "use ...", {
        "Inv-loop": "(x ≤ n) × ..", "μ-loop": "n - x",
        "returns": "@count-of .ensures ∙ law (@args .net) @pre (@loop .x)",
    }, skels["fn_name"], default="search needs")'

In an answer `@thing` stands for the path `c .before .. .thing` from the need's place up to the record that has the
field `thing` (args, pre, loop, loop-test, if1, a call, enum-told, ..); one that is used twice, or is far up, is bound
by a `let`. An answer may be a pair (names to unfold, answer). Needs without an answer get `default`.

For functions that call one another, `fill_cycle` takes their names as they stand in the folder's name (as
element_within and link_within in crates/feeding_capacity), the skeleton under that name, and answers by the needs'
full names (`element-within-returns`); what every need is handed is named once for each function, as
`element-within-claims`.

It reads skeletons of the Rattle before the port, whose proofs were whole files; today `rt check --start F` writes a function's files.
"""
import os
import re


def skeletons(printed):
    """The skeletons in what `rt dev` printed, by function."""
    found, current = {}, None
    for line in printed.splitlines(True):
        m = re.match(r"help: write \S+/proofs/(\S+)/Proof\.antt with these lines", line)
        if m:
            current = m[1]
            found[current] = ""
        elif current is not None:
            if line.startswith("    "):
                found[current] += line[4:]
            elif line.strip() == "":
                found[current] += "\n"
            else:
                current = None
    return found


def places(generated, crate, lts):
    """The records of a function's Lts.antt with their fields, and the record at which each need stands."""
    text = open(f"{generated}/Rattle·{crate}·proofs/proofs/{lts}.antt").read()
    records = {}
    for m in re.finditer(r"(?m)^( *)pub record (\S+) (?:\([^)]*\) )*: Type 0 where\n((?:\1  .*\n|\1   .*\n)+)", text):
        if not m[2].endswith("·own"):
            records[m[2]] = dict(re.findall(r"(?m)^" + m[1] + r"  pub (\S+) : (.*)$", m[3]))
    needs = dict(re.findall(r"(?m)^ *Need-(\S+) =\s*\(c : (\S+)\)", text))
    return records, needs


def path(records, place, thing):
    steps = ""
    while place:
        fields = records[place]
        if thing in fields:
            return steps + " ." + thing
        place = fields.get("before", "").split(" ")[0]
        steps += " .before"
    raise KeyError(thing)


def expand(records, place, answer):
    """The answer with its paths written out, and the `let` lines in front of it."""
    lets = []
    for thing in dict.fromkeys(re.findall(r"@([\w-]+)", answer)):
        name = r"@" + re.escape(thing) + r"(?![\w-])"
        way = "c" + path(records, place, thing)
        if len(re.findall(name, answer)) > 1 or way.count(".before") > 3:
            lets.append(f"let {thing}· = {way} in")
            answer = re.sub(name, thing + "·", answer)
        else:
            answer = re.sub(name + r"(?! \.)", "(" + way + ")", answer)
            answer = re.sub(name, way, answer)
    return lets, answer


def answered(records, needs, need, head, answer):
    """The lines of one need's answer, `head` being its name with its arguments."""
    lines = []
    if isinstance(answer, tuple):
        lines.append("unfolding " + answer[0])
        answer = answer[1]
    lets, answer = expand(records, needs[need], answer) if need in needs else ([], answer)
    return lines + [head + " ="] + ["    " + l for l in lets + answer.strip("\n").split("\n")]


def write(crate_dir, folder, lines):
    os.makedirs(f"{crate_dir}/proofs/{folder}", exist_ok=True)
    text = re.sub(r"\n{3,}", "\n\n", "\n".join(lines)).rstrip("\n") + "\n"
    open(f"{crate_dir}/proofs/{folder}/Proof.antt", "w").write(text)


def fill(generated, crate_dir, fn, header, uses, answers, skeleton, default="omega arith"):
    records, needs = places(generated, os.path.basename(crate_dir), fn + "/Lts")
    lines = skeleton.split("\n")
    out = ["-- " + header, "-- Assumes nothing."]
    out += [u for u in uses.strip().split("\n") if u]
    out += [l for l in lines if l.startswith("use ") and not re.search(r" as (reads|lts|\S+-reads)$", l)]
    for line in lines:
        if line.startswith(("use ", "-- src/")):
            continue
        m = re.match(r"(\S+)((?: \S+)*) = (\?|search needs)$", line)
        if m:
            out += answered(records, needs, m[1], m[1] + m[2], answers.get(m[1], default))
        else:
            out.append(line)
    write(crate_dir, fn, out)


def fill_cycle(generated, crate_dir, fns, header, uses, answers, skeleton, default="omega arith"):
    folder = "".join("+" + fn for fn in fns)
    names = {fn.replace("_", "-"): places(generated, os.path.basename(crate_dir), f"{folder}/Lts-{fn}") for fn in fns}
    text = re.sub(r"(?m)^-- src/.*\n", "", skeleton)
    named = ""
    for name in names:
        claims = re.search(rf"→ {name}-lts\.Need-\S+ \(\n((?: .*\n)+?) *\) \({name}-at t\)", text)[1]
        parts = [c.strip().rstrip(",") for c in claims.strip().split("\n")]
        text = re.sub(r"\(\s*" + r",\s*".join(re.escape(p) for p in parts) + r",?\s*\)", f"({name}-claims t)", text)
        named += f"abbrev {name}-claims : ℕ → {name}-lts.Claims\n{name}-claims t = ({', '.join(parts)})\n\n"
    first = re.search(r"(?m)^abbrev \S+-Inv-\S+ :|^\S+ : \(t : ℕ\) →", text).start()
    text = text[:first] + named + text[first:]
    text = re.sub(r"(?m)^((?:abbrev )?\S.*) =\n    \?$", r"\1 = ?", text)
    out = ["-- " + header, "-- Assumes nothing."] + [u for u in uses.strip().split("\n") if u]
    for line in text.split("\n"):
        m = re.match(r"(\S+)((?: \S+)*) = (\?|search needs)$", line)
        name = next((n for n in names if m and m[1].startswith(n + "-")), None)
        if name:
            out += answered(*names[name], m[1][len(name) + 1:], m[1] + m[2], answers.get(m[1], default))
        elif m:
            out += [m[1] + m[2] + " =", "    " + answers.get(m[1], default)]
        else:
            out.append(line)
    write(crate_dir, folder, out)
