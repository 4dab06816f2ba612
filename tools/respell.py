#!/usr/bin/env python3
"""Brings the repository's own names in specs/ and proofs/ to snake case, once, right after port.py of the toolchain has turned the rest.

usage: respell.py [--table] [TOP]

A definition is written in snake case: readLvAt is read_lv_at. In a lemma's name a dash stays behind a function of lists where a definition follows
(length-part_of); any other part is added with an underscore: read_lv_at_short. A type keeps its capital. Functions of src/, exported names, strings, inputs and outputs stay.
It rewrites the .antt files, the ghost parts of the .rt files, the edits, and, in pages and tools, whole names that can be nothing else.
--table prints old and new names, and the names that would fall together, and writes nothing.
"""

import re
import subprocess
import sys
from pathlib import Path

# Names of the standard library's list functions, which a dash may join to ours.
LISTS = {"length", "take", "drop", "append", "map", "set", "get_or", "slice"}
# A lemma that would have its definition's name.
OVERRIDES = {
    **{name: name.replace("-", "_") + "_lem" for name in ("action-of", "due-of", "end-place", "first-in", "last-end", "message-in", "number-on", "on-first", "part-if")},
    **{name: name.replace("-", "_") + "_lem" for name in ("part-of", "place-of", "request-value", "response-placed", "span-if", "same_if", "moved_by", "from_on")},
    "Laid-there": "LaidThere",
}

DEFINED = re.compile(r"^\s*(?:abbrev |unfoldable )?(?:pub )?(?:abbrev |unfoldable )?(?:pub )?([^\s:{}()\[\].,;λ]+)((?:\s*\{[^}]*\})*)\s*:\s")
DECLARED = re.compile(r"^\s*(?:abbrev )?(?:pub )?(data|record|ruleset)\s+([^\s:({]+)")
WORD = r"[^\s(){}.;,@\"«»\[\]\\:`|]+"


def snake(part):
    if part == "mapA":
        return "map_answer"
    return re.sub(r"(?<=[a-z0-9])([A-Z])(?![A-Z])", lambda m: "_" + m.group(1).lower(), part) if part[:1].islower() else part


def own_names(top):
    specs, proofs, defined = {}, {}, set()
    for path in sorted(top.glob("crates/*/*/**/*.antt")):
        if path.parts[-1] in ("Proof.antt", "Answers.antt", "Invariants.antt"):
            continue
        into = specs if "specs" in path.parts else proofs
        for line in path.read_text(encoding="utf-8").splitlines():
            named = DECLARED.match(line)
            name = named.group(2) if named else None
            if name is None:
                named = DEFINED.match(line)
                name = named.group(1) if named else None
            if into is specs and re.match(r"(abbrev|unfoldable) ", line) and name:
                defined.add(name)
            if name and name != "_" and re.search(r"[A-Za-z]", name):
                into.setdefault(name, set()).add(str(path.relative_to(top)))
    return specs, proofs, defined


def table(top):
    specs, proofs, defined = own_names(top)
    words = {snake(name) for name in defined if name[0].islower() and "-" not in name}
    out = {}
    for name in {**proofs, **specs}:
        if name in OVERRIDES:
            new = OVERRIDES[name]
        elif not re.match(r"[A-Za-z]", name):
            continue
        else:
            parts = [snake(part) for part in name.split("-")]
            new = parts[0]
            for before, part in zip(parts, parts[1:]):
                new += ("-" if before in LISTS and part in words else "_") + part
        if new != name:
            out[name] = new
    places = {}
    for name in {**proofs, **specs}:
        places.setdefault(out.get(name, name), []).append(name)
    for new, old in sorted(places.items()):
        if len(old) > 1:
            print("together: %s: %s" % (new, ", ".join("%s (%s)" % (o, sorted(specs.get(o, set()) | proofs.get(o, set()))[0]) for o in old)))
    return out


def main():
    arguments = [a for a in sys.argv[1:] if a != "--table"]
    top = Path(arguments[0] if arguments else ".").resolve()
    names = table(top)
    if "--table" in sys.argv:
        for old, new in sorted(names.items()):
            print(old, new)
        return
    turn = lambda text: re.sub(WORD, lambda m: names.get(m.group(0), m.group(0)), text)
    # In prose only what stands in backticks is a name.
    ticked = lambda text: re.sub(r"`[^`\n]*`", lambda m: turn(m.group(0)), text)

    def antt(text):
        out = []
        for line in text.split("\n"):
            code, dashes, comment = line.partition("--") if re.match(r"\s*--", line) else re.match(r"(.*?)(\s--\s|$)(.*)$", line).groups()
            out.append(turn(code) + dashes + ticked(comment))
        return "\n".join(out)

    def rt(text):
        out, depth = [], 0
        for line in text.split("\n"):
            ghost = re.match(r"\s*(pub )?(ghost |requires|ensures)", line)
            code, slashes, comment = line.partition("//")
            if ghost or depth:
                out.append(turn(code) + slashes + ticked(comment))
                depth = max(0, depth + code.count("{") - code.count("}"))
            else:
                out.append(code + slashes + ticked(comment))
        return "\n".join(out)

    def edit(text):
        out, to = [], "prose"
        for line in text.split("\n"):
            if line.startswith("file:"):
                to = line.strip().rsplit(".", 1)[-1]
            if line.startswith(("old:", "new:")):
                out.append(line[:4] + turn(line[4:]))
            else:
                out.append(ticked(line) if line.startswith("#") else line)
        return "\n".join(out)

    files = subprocess.run(["git", "ls-files", "-co", "--exclude-standard"], cwd=top, capture_output=True, text=True, check=True).stdout.split("\n")
    for name in sorted(set(files)):
        path = top / name
        if not name or not path.is_file():
            continue
        kind = path.suffix
        how = {".antt": antt, ".rt": rt, ".edit": edit, ".md": ticked}.get(kind)
        if how is None:
            continue
        text = path.read_text(encoding="utf-8")
        new = how(text)
        if new != text:
            path.write_text(new, encoding="utf-8")
            print("respelled:", name)


main()
