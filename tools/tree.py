"""What the repository has, for the scripts of this folder that import it: its files, and what each crate declares, calls and tries. Text alone is read."""
import os
import re

ROOT = os.path.dirname(os.path.dirname(os.path.realpath(__file__)))

faults = set()


def fault(path, line, text):
    faults.add((path, line, text))


def read(path):
    with open(os.path.join(ROOT, path), encoding="utf-8") as f:
        return f.read()


def exists(path):
    return os.path.exists(os.path.join(ROOT, path))


def files_below(folder, suffix=""):
    """The files below a folder, by their paths from the root, without .git, target, and what rt makes in a crate's out."""
    found = []
    for top, folders, names in os.walk(os.path.join(ROOT, folder)):
        folders[:] = [f for f in folders if f not in (".git", "target", "out")]
        found += [os.path.relpath(os.path.join(top, n), ROOT) for n in names if n.endswith(suffix)]
    return sorted(found)


def antt_names(text):
    """What a file of definitions or proofs declares: at the margin, or in a record, a data type or a module; nothing below a `where`."""
    names, above = set(), []
    for line in text.split("\n"):
        step, line = len(line) - len(line.lstrip(" ")), line.strip()
        if not line or line.startswith("--"):
            continue
        above = [(s, opens) for s, opens in above if s < step]
        m = re.match(r"((?:pub |abbrev |unfoldable |record |data )*)([^\s:(){};,.]+)[^=:]*(:|=|$)", line)
        declared = m and (m.group(3) == ":" or re.search("record|data", m.group(1))) and m.group(2) not in ("use", "module", "mod")
        if declared and all(opens for _, opens in above):
            names.add(m.group(2))
        above.append((step, bool(re.match(r"(pub )?(record|data|module)\b", line))))
    return names


def closing(text, at):
    """The place of the brace that closes the one at a place."""
    depth = 0
    for m in re.finditer(r"[{}]", text[at:]):
        depth += 1 if m.group(0) == "{" else -1
        if depth == 0:
            return at + m.start()
    return len(text)


def type_names(text):
    """Types with their fields and cases: `Lv`, `start`, `Step`, `Step::End`, `End`."""
    names = set()
    names |= set(re.findall(r"\btrait\s+(\w+)", text))
    for m in re.finditer(r"\b(struct|enum)\s+(\w+)[^{;]*\{", text):
        body = text[m.end():closing(text, m.end() - 1)]
        names |= {m.group(2)} | set(re.findall(r"\b([a-z]\w*)\s*:", body))
        cases = re.findall(r"\w+", re.sub(r"\([^()]*\)|\{[^{}]*\}", "", body)) if m.group(1) == "enum" else []
        names |= set(cases) | {m.group(2) + "::" + c for c in cases}
    return names


def public_traits():
    """The traits of the repository, but for the tests' own, and those of std that a conversion is an `impl` of."""
    texts = [read(p) for p in files_below("crates", ".rt") if not p.startswith("crates/test_")]
    return {"From", "TryFrom"} | {name for text in texts for name in re.findall(r"\bpub trait (\w+)", text)}


GENERICS = r"<((?:[^<>]|<(?:[^<>]|<[^<>]*>)*>)*)>"


def blocks_of_functions(text):
    """The blocks in which a function stands with a name before its own: start, end, that name, what a trait is of, whether each function in it is public."""
    for m in re.finditer(r"\bimpl(?:%s)?\s+(?:(\w+)(?:%s)?\s+for\s+)?(\w+|\(\))[^{]*\{" % (GENERICS, GENERICS), text):
        yield m.start(), closing(text, m.end() - 1), m.group(4), m.group(3), m.group(2) in TRAITS
    for m in re.finditer(r"\b(pub\s+)?trait\s+(\w+)[^{]*\{", text):
        yield m.start(), closing(text, m.end() - 1), m.group(2), None, bool(m.group(1))


def functions(text):
    """The functions and constants of a file: the name, with its type where it stands in an `impl` (`Lv::new`, `u8::from(TlvType)`), whether it is a public
    call, its place. A const parameter (`<const N: usize>`) is no constant."""
    blocks = list(blocks_of_functions(text))
    for m in re.finditer(r"(?<![<\w])(?<!, )(?:(\bpub\s+)|pub\([^()]*\)\s+)?(?:extern\s+\"C\"\s+)?\b(fn|const)\s+(\w+)", text):
        within = [b for b in blocks if b[0] <= m.start() < b[1]]
        name = "".join(b[2] + "::" for b in within) + m.group(3) + "".join("(%s)" % b[3] for b in within if b[3])
        yield name, (bool(m.group(1)) or any(b[4] for b in within)) and m.group(2) == "fn", m.start()


def edited(folder, path, file):
    """The text of a file of a crate's folder as the edit at a path leaves it; without an edit as it stands."""
    text, at, old = read(file), None, None
    for line in read(path).split("\n") if path else []:
        if line.startswith("file: "):
            at = folder + "/" + line[6:]
        elif line.startswith("old: "):
            old = line[5:]
        elif line.startswith("new:") and old and at == file:
            text = text.replace(old, re.sub("^new: ?", "", line), 1)
    return text


def rattle_names(text):
    """What a file of code declares, parameters and modules too."""
    names = type_names(text)
    for name, _, _ in functions(text):
        names |= {name, name.split("(")[0], name.split("(")[0].split("::")[-1]}
    for params in re.findall(r"\bfn\s+\w+\(([^()]*)\)", text):
        names |= set(re.findall(r"\b(\w+)\s*:", params))
    return (names | set(re.findall(r"\bmod\s+(\w+)\s*;", text))) - {""}


class Crate:
    """A folder of crates/: what each of its files declares, its public calls (with file and line), its edits (with their files). Of a crate that exports to C
    its exports are the calls, and its conversions are not."""

    def __init__(self, name):
        self.name, self.folder, self.heading = name, "crates/" + name, None
        self.page = self.folder + "/PROMISES.md"
        self.declared = {p: antt_names(read(p)) for part in ("/specs", "/proofs") for p in files_below(self.folder + part, ".antt")}
        self.calls, exports = {}, any("no_mangle" in read(p) for p in files_below(self.folder + "/src", ".rt"))
        for path in files_below(self.folder + "/src", ".rt"):
            text = re.sub(r"//[^\n]*", "", read(path))
            self.declared[path] = rattle_names(text)
            if exists(self.folder + "/src/lib.rt"):
                self.calls.update({call: (path, text.count("\n", 0, at) + 1) for call, public, at in functions(text) if public and not (exports and "(" in call)})
        edits = [p for part in ("/must-fail", "/tried") for p in files_below(self.folder + part, ".edit")]
        self.edits = {os.path.basename(p)[:-5]: p for p in edits}

    def own(self, name):
        """A name without the crate's own before it."""
        return name[len(self.name) + 2:] if name.startswith(self.name + "::") else name

    def has(self, name, folder="", file=""):
        """Whether a file of the crate declares the name: any, or those of a folder, or those of a name. `one_..` asks for any name that begins so."""
        sets = [names for p, names in self.declared.items() if p.startswith(self.folder + "/" + folder) and ("/" + p).endswith("/" + file if file else "")]
        if name.endswith(".."):
            return any(n.startswith(name[:-2]) for names in sets for n in names)
        return any(self.own(name) in names for names in sets)


TRAITS = public_traits()


def all_crates():
    names = sorted(os.listdir(os.path.join(ROOT, "crates")))
    return {n: Crate(n) for n in names if os.path.isdir(os.path.join(ROOT, "crates", n))}
