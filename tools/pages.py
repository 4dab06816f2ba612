"""What a page says, for tools/promises: its blocks, and what stands in backticks there, with the crate and the file that the words around it name."""
import re

from tree import fault, read

# The folder of a crate in which the names of a column of a table of calls stand.
FOLDER_OF = {"Says": "specs", "Theorems": "proofs", "One answer": "proofs"}

# Names of things outside this repository. Those that are written "the Rust's `x`" or "C's `x`" need no entry.
OUTSIDE = {
    "words of Rattle, its logic and its library": "requires ensures result buf.now buf.old buf.new unreachable!() match let if else now length take usize usize::MAX &[u8] &mut",
    "the kit's command, and what it prints": "rt axioms=",
    "words of a listing, and of the samples": "request response entity other refused whole cut too no plain p",
    "commands of the system": "cat cc echo head python3",
    "functions of C": "memmove",
    "types, cases, traits, attributes and functions of every Rust": "u8 Option Some None Result Ok Err true self From TryFrom PartialEq #[inline] copy_from_slice unwrap ilog10 #[inline(always)] Result::and",
    "names and files of the Rust that is ported": "raw_data ByteConversionError InvalidTlvTypeFieldError spacepackets bitenum cfdp util pdu"
    " msg_to_user proxy remote std new_from_string lv.rs util.rs tlv/mod.rs cfdp/mod.rs src/cfdp/lv.rs src/cfdp/mod.rs src/cfdp/tlv/mod.rs src/lib.rs src/util.rs",
}
OUTSIDE_NAMES = set(" ".join(OUTSIDE.values()).split())


class Block:
    """A heading, a paragraph, or a cell of a table; a cell has the head of its column, and its row: the cells by their heads."""

    def __init__(self, page, line, text, section, column=None, row=None):
        self.page, self.line, self.text, self.section, self.column, self.row = page, line, text, section, column, row or {}
        page_of = re.match(r"crates/(\w+)/PROMISES\.md$", page)
        edit = re.match(r"`(\w+)/\w+`$", self.row.get("Edit", ""))
        self.crate = page_of.group(1) if page_of else edit.group(1) if edit else None


def cells_of(line):
    """The cells of a table's row; a bar between backticks divides nothing."""
    cells = [""]
    for part in re.split(r"(`[^`]*`|\|)", line[1:-1] if line.endswith("|") else line[1:]):
        if part == "|":
            cells.append("")
        else:
            cells[-1] += part
    return [c.strip() for c in cells]


def row_blocks(page, number, line, section, heads):
    """The heads of a table, and the blocks of the row below them. The first row is the heads; the row of dashes has no block."""
    cells = cells_of(line)
    if heads is None:
        return cells, [Block(page, number, c, section) for c in cells]
    if re.match(r"\|[\s:|-]+$", line):
        return heads, []
    if len(cells) != len(heads):
        fault(page, number, "a row of %d cells in a table of %d" % (len(cells), len(heads)))
    row = dict(zip(heads, cells))
    return heads, [Block(page, number, c, section, h, row) for h, c in zip(heads, cells)]


def blocks_of(page):
    """The blocks of a page, one after the other. What is fenced is left out. A section is one of the second level."""
    blocks, paragraph, heads, section, fenced = [], [], None, "", False
    for number, line in enumerate(read(page).split("\n") + [""], 1):
        plain = line.strip()
        is_fence, is_row, is_head = plain.startswith("```"), plain.startswith("|"), line.startswith("#")
        if paragraph and (not plain or is_fence or is_row or is_head):
            blocks.append(Block(page, number - len(paragraph), "\n".join(paragraph), section))
            paragraph = []
        heads = heads if is_row else None
        if is_fence or fenced:
            fenced ^= is_fence
        elif is_head:
            section = section if line.startswith("###") else line.lstrip("# ")
            blocks.append(Block(page, number, line, section))
        elif is_row:
            heads, more = row_blocks(page, number, plain, section, heads)
            blocks += more
        elif plain:
            paragraph.append(line)
    return blocks


class Mention:
    """Something in backticks, and what the words around it say of it: its crate, its file, the folder, or that it is not ours."""

    def __init__(self, block, text, line):
        self.block, self.text, self.line = block, text, line
        self.crate, self.file, self.folder, self.foreign = None, "", FOLDER_OF.get(block.column, "") if block.crate else "", False


def owner_in(gap, previous, crates):
    """Whose name follows these words: the crate's name, "" where it is not ours, None where they do not say. With an article it is no crate: a walk's."""
    words = re.split(r";|[.:]\s", gap)[-1]
    owners = [w for article, w in re.findall(r"\b(the |a |an |each |every )?(\w+)'s\b", words) if w in ("Rust", "C") or w in crates and not article]
    if owners:
        return owners[-1] if owners[-1] in crates else ""
    return previous.text if previous and gap.startswith("'s ") and previous.text in crates else None


def behind(mention, after, crates):
    """Takes in what stands in brackets behind a name: its crate, its file, or both. `x` in `File.antt` says its file too."""
    m = re.match(r"\s+(?:\(([^()]*)\)|in (`[\w/+.-]*\.antt`))", after)
    for word in re.split(r",\s*", (m.group(1) or m.group(2)).replace("`", "")) if m else []:
        path = re.fullmatch(r"(?:crates/(\w+)/)?([\w/+]+\.antt)", word)
        if word in crates:
            mention.crate = word
        elif path:
            mention.crate, mention.file = path.group(1) or mention.crate, path.group(2)
        elif "/" in word and FILE.search(word):
            mention.file = word
        elif mention.block.crate and re.fullmatch(r"[A-Z][a-z]+", word):
            mention.file = word + ".antt"


def mentions_of(block, crates):
    """The mentions of a block. A crate that is named holds for what follows, up to a semicolon, a colon or the end of the sentence; one in brackets behind a
    list holds for the list."""
    found, gaps, owner, end = [], [], None, 0
    for m in re.finditer(r"`([^`]+)`", block.text):
        mention = Mention(block, " ".join(m.group(1).split()), block.line + block.text.count("\n", 0, m.start()))
        gaps.append(block.text[end:m.start()])
        said = owner_in(gaps[-1], found[-1] if found else None, crates)
        owner = said if said is not None else None if re.search(r";|[.:]\s", gaps[-1]) else owner
        mention.crate, mention.foreign = owner or None, owner == ""
        if re.search(r"\b(theorem|law)s?\s$", gaps[-1]):
            mention.folder = "proofs"
        behind(mention, block.text[m.end():], crates)
        found.append(mention)
        end = m.end()
    for k in range(len(found) - 1, 0, -1):
        if re.fullmatch(r",\s+|\s+and\s+", gaps[k]):
            found[k - 1].crate = found[k - 1].crate or found[k].crate
    return found


def scope_of(mention, crates):
    """The crates in which a name is looked up: by what is said of it, by its page, by the head of its column; else all."""
    if mention.crate or mention.block.crate in crates:
        return [crates[mention.crate or mention.block.crate]]
    in_head = re.findall(r"`(?:crates/)?(\w+)(?:/[^`]*)?`", mention.block.column or "")
    return [crates[c] for c in in_head if c in crates] or list(crates.values())


FILE = re.compile(r"[\w+-]+\.(antt|rt|txt|md|tlv|svg|h|c|rs|sh|toml)$")
CASE = re.compile(r"[a-z]+\.[a-z_]+( |$)")
PATH = re.compile(r"[\w.+*-]*/[\w./+*-]*")
NAME = re.compile(r"[A-Za-z][\w'·-]*(?:::[A-Za-z]\w*)*(?:\.\.)?")


def words_of(text):
    """What is to be looked up of a text in backticks, as (kind, word).

    Nothing of bytes, numbers, type fields and lines of a listing: they begin with a digit, or as `x05` and `s6` do, or have no letter. Nothing of a path that leads out of the repository, or to
    what is built. A single word is a file, a path (or an edit) or a name. `request.new 0 4` is a case of the tests. All else is an expression or a
    command: its first word, a word behind a bracket, and every word with small and capital letters, with an underscore or with :: are names, a word with / is a path."""
    if not re.search(r"[A-Za-z]", text) or re.match(r"\d|/|\.\./|target/|(crates/\w+/)?out/|x[0-9a-f]{2}|[sc]\d", text):
        return []
    if text in OUTSIDE_NAMES and not NAME.fullmatch(text):
        return []
    if FILE.match(text):
        return [("file", text)]
    if CASE.match(text):
        return [("case", text.split(" = ")[0])]
    if PATH.fullmatch(text):
        return [("path", text)]
    if NAME.fullmatch(text):
        return [("name", text)]
    paths = [p for p in re.findall(r"[^\s'\"|()]+", text) if PATH.fullmatch(p)]
    for path in paths:
        text = text.replace(path, " ")
    names = re.findall(r"(?:^|\()\s*(%s)" % NAME.pattern, text)
    names += [w for w in NAME.findall(text) if "::" in w or re.search(r"[a-z][A-Z]|[A-Z][a-z]|[a-z]_", w)]
    return [found for p in paths for found in words_of(p)] + [("name", w) for w in names if len(w) > 1]
