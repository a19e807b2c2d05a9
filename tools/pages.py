#!/usr/bin/env python3
"""pages.py: fails where a page names something that is not in the tree, a line each.

Read are the pages of the root, docs/, bench/README.md and man/. What stands in backticks is judged by its shape:

    no letter, or a number            passed over
    white space, or signs of code     passed over (a command or a term), but for the project's own paths in it
    a::b, a::b::c                     a function of the Rattle sources in that crate, module or struct, or a variant of an enum
    with a slash                      a file or directory, also below crates/ and without .antt, or a must-fail edit of a crate; src/,
                                      specs/ and the like in a row that begins with a crate's name are that crate's
    with the ending of a file         a file of that name
    anything else                     a name declared by the .antt files, the Rattle sources, the independent program or the C sources,
                                      one that they bring from the toolchain, or a file's name without its ending; a.b is two such

Outside of backticks: paths of the tree, the abbreviated ones of docs/MAP.md (a letter bound at that page, none twice), names behind such
a path (they must be declared there), 'must-fail NAME, ..' and 'mutant NAME, ..'. In a path F and NAME stand for any function and any
crate. docs/PORT.md also names what was: `old` before an arrow to `new`, or behind the word 'was'; there the new name alone is judged.
docs/ARCHITECTURE.md's table must have every crate, and docs/WRONG.md two wrong answers for every public contract of a library crate.
"""
import os
import re
import sys

import sources

# Words of the toolchain that no `use` line of the tree brings: commands, words of the language, tactics, its kit with a crate and a folder.
TOOLCHAIN = set("""
    rt abbrev as elim let match pub unfoldable unfolding ensures requires result cc omega rw --allow-holes old:
    port.py rattle-kit-13f io borrow.Author
""".split())
# The benchmark's ratios and files, a package, the archive that a build makes.
OTHERS = set("run/BuDDy+start weigh/engine full-crossed12 graph-ring22 reversed-heavy500x3 libbdd-dev libreach.a".split())
ALLOWED = TOOLCHAIN | OTHERS

CRATES = "docs/ARCHITECTURE.md"  # the page with the table of crates
PORT = "docs/PORT.md"  # the page that names what was before the port
TOP = "crates docs tools examples tests bench man include".split()
CODE = re.compile(r"[\s(){}\[\]<>=&'\"λ→≡;,!?^|«»…]|\.\.")
LETTER = re.compile(r"[^\W\d_]")
FORMER = re.compile(r"`[^`\n]+`(?=\s+→\s+`)|(?<=\bwas )`[^`\n]+`")


def pages():
    return sources.find("*.md") + ["bench/README.md"] + sources.find("docs/**/*.md")


class Tree:
    """All that a page may name."""

    def __init__(self):
        antt = [sources.File(path) for path in sources.find("crates/*/specs/**/*.antt") + sources.find("crates/*/proofs/**/*.antt")]
        self.declared = {f.path: set(f.definitions) | set(f.owner) | set(f.fields) | helpers(f) for f in antt}
        for path in sources.find("crates/*/src/**/*.rt"):
            self.declared[path] = rattle_names(sources.read(path))
        for path in sources.find("tests/independent/**/*.rs"):
            self.declared[path] = rust_names(sources.read(path))
        for path in sources.find("include/*.h") + sources.find("examples/*.c") + sources.find("bench/*.[ch]*"):
            self.declared[path] = set(re.findall(r"\b[A-Za-z_]\w*\b", re.sub(r"(?s)/\*.*?\*/", "", sources.read(path))))
        self.files = set(walk(""))
        self.folders = {os.path.dirname(f) for f in self.files} | {os.path.dirname(os.path.dirname(f)) for f in self.files}
        self.endings = {os.path.basename(f).rpartition(".")[2] for f in self.files if "." in os.path.basename(f)}
        self.names = set().union(*self.declared.values()) | set(sources.crates()) | ALLOWED
        self.names |= {word for f in antt for brought in f.brought.values() for word in brought}
        self.names |= {os.path.basename(f).partition(".")[0] for f in self.files}
        self.edits = {(f.split("/")[1], os.path.basename(f)[: -len(".edit")]) for f in self.files if f.endswith(".edit")}
        self.mutants = set().union(*(names for path, names in self.declared.items() if "/independent/" in path and "mutant" in path))

    def path(self, text, letters=(), inside=()):
        """The path that a text means, or None: as it is, below crates/ or one of these crates, or with its letter's folder."""
        text = re.sub(r"(?<=/)(?:F|NAME)(?=/)", "*", text.rstrip("/"))
        head, _, rest = text.partition("/")
        starts = [letters[head] + "/" + rest] if head in letters else [text, "crates/" + text]
        if head in ("src", "specs", "proofs", "must-fail"):
            starts = [f"crates/{crate}/{text}" for crate in inside or sources.crates()]
        for start in starts:
            for end in ("", ".antt", ".rs", ".rt"):
                if start + end in self.files or (not end and start in self.folders):
                    return start + end
            if "*" in start and sources.find(start):
                return start
        return None

    def below(self, path):
        """All names declared in a file, or below a folder and the file beside it."""
        own = path[: -len(".antt")] if path.endswith(".antt") else path
        return set().union(*(names for p, names in self.declared.items() if p == path or p.startswith(own + "/")))

    def function(self, text):
        """Whether a::b or a::b::c is a function in that crate, module or struct, or a variant."""
        *outer, name = text.split("::")
        for path, names in self.declared.items():
            if path.endswith(".rt") and name in names:
                around = set(path[: -len(".rt")].split("/")) | names
                if all(word in around for word in outer):
                    return True
        return False


def walk(folder):
    """The files below a folder, but for git's own and what a build has made."""
    for entry in os.scandir(os.path.join(sources.ROOT, folder)):
        path = os.path.join(folder, entry.name)
        if entry.is_dir(follow_symlinks=False):
            yield from walk(path) if path != ".git" and not sources.made(path) else ()
        else:
            yield path


def helpers(f):
    """The names of `where` helpers and of sections, which no definition of the file stands for."""
    return {m for d in f.definitions.values() for s in d.statements for m in re.findall(r"(?m)^\s+([^\s(){}:]+) :(?=\s)", s)}


def rattle_names(text):
    """Functions, structs, enums with their variants, types with methods, constants, modules, labels, fields, parameters, locals."""
    text = re.sub(r"//.*", "", text)
    names = set(re.findall(r"\b(?:fn|struct|enum|impl(?:<[^>]*>)?|const|mod|let|let mut) (\w+)", text)) | set(re.findall(r"'\w+", text))
    return names | set(re.findall(r"\b(\w+): ", text)) | set(re.findall(r"(?m)^\s+([A-Z]\w*)\b[ ]*[,{(]", text))


def rust_names(text):
    """Functions, types, constants, modules and variants of a Rust source."""
    names = set(re.findall(r"\b(?:fn|struct|enum|const|mod|static) (\w+)", text))
    return names | set(re.findall(r"(?m)^\s+([A-Z]\w*)\b[ ]*(?:\(.*\))?,$", text))


def prose(text):
    """A page's lines, with those of its blocks of code empty."""
    lines, fenced = [], False
    for line in text.split("\n"):
        fence = line.startswith("```")
        fenced = fenced != fence
        lines.append("" if fenced or fence or line.startswith("    ") else line)
    return lines


def spans(lines):
    """What stands in backticks, also over a line's end, each with its line."""
    text = "\n".join(lines)
    for m in re.finditer(r"`((?:[^`\n]|\n(?!\n))+)`", text):
        yield text.count("\n", 0, m.start()), m.group(1)


def bindings(page, text):
    """The letters that a page binds to folders, and what is wrong with them."""
    letters, wrong = {}, []
    for letter, folder in re.findall(r"`([A-Z])` (?:is )?((?:crates|tests)/[\w/]+)", text.replace("\n", " ")):
        if letter in letters:
            wrong.append(f"{page}: the letter {letter} is bound twice")
        letters[letter] = folder
    return letters, wrong


def judge(tree, span, letters, line):
    """Whether what stands in backticks in a line is in the tree."""
    if not LETTER.search(span) or re.fullmatch(r"0x[0-9A-Fa-f]+", span) or span in tree.names:
        return True
    own = re.findall(rf"(?<![\w/])(?:{'|'.join(TOP)})/[\w./*-]*\w", span)
    if CODE.search(span):
        return all(tree.path(path) for path in own)
    if "::" in span:
        return tree.function(span)
    if span.startswith(("./", "target/")):
        return span.startswith("target/") or span[2:] in tree.files
    if "/" in span:
        first = line.split("|")[1] if line.startswith("|") else ""
        inside = [crate for crate in re.findall(r"`(\w+)`", first) if crate in sources.crates()]
        return bool(tree.path(span, letters, inside)) or tuple(span.split("/")) in tree.edits
    if span.rpartition(".")[2] in tree.endings:
        return any(os.path.basename(f) == span for f in tree.files)
    return all(word in tree.names for word in span.lstrip(".").split("."))


def plain(tree, line, letters):
    """What a line names outside of backticks and is not in the tree."""
    bare = re.sub(r"`[^`]*`", "``", line)
    for names in re.findall(r"must-fail ((?:\w+/)?\w+(?:, (?:\w+/)?[a-z]+_\w+)*)", bare):
        for name in (n for n in names.split(", ") if "_" in n or "/" in n):
            if not any(name in (edit, f"{crate}/{edit}") for crate, edit in tree.edits):
                yield "must-fail " + name
    for names in re.findall(r"\bmutants? ([A-Z]\w+(?:(?:,| and) [A-Z]\w+)*)", bare):
        yield from ("mutant " + name for name in re.findall(r"[A-Z]\w+", names) if name not in tree.mutants)
    begins = rf"(?:{'|'.join(TOP + list(letters))})/|(?:{'|'.join(sources.crates())})/(?:src|specs|proofs|must-fail)/"
    a_path = rf"(?<![\w/.`])((?:{begins})[\w./*+-]*\w)"
    for path in re.findall(a_path, bare):
        if not tree.path(path, letters):
            yield path
    for path, names in re.findall(rf"{a_path} ((?:`[^`]+`(?:, )?)+)", line):
        there = tree.path(path, letters)
        for name in re.findall(r"`([^`]+)`", names) if there else ():
            if not CODE.search(name) and name.split("::")[-1] not in tree.below(there) | ALLOWED:
                yield f"{name}, which is not in {path}"


def manual(tree, page):
    """What a manual page names and is not in the tree."""
    header = tree.declared["include/reach.h"]
    for number, line in enumerate(sources.read(page).split("\n"), 1):
        for word in re.findall(r"\b(?:reach|REACH)_\w+", line):
            if word not in header:
                yield number, word
        m = re.match(r"\.[BI]R? (\S+)(?: \((\d)\))?", line)
        if m and m.group(2) and f"man/{m.group(1)}.{m.group(2)}" not in tree.files:
            yield number, m.group(1)
        elif m and LETTER.search(m.group(1)) and not m.group(1).startswith(("#", '"', "<")):
            word = m.group(1)
            if not (word in tree.names or tree.path(word)):
                yield number, word


def wrong_answers():
    """What docs/WRONG.md lacks: for every public contract of a library crate two wrong answers, each with what refuses it."""
    page, count, current = "docs/WRONG.md", {}, []
    for number, line in enumerate(prose(sources.read(page)), 1):
        cells = [cell.strip() for cell in line.split("|")[1:-1]]
        if len(cells) != 3 or cells[0] == "contract" or re.fullmatch("-+", cells[0]):
            continue
        current = re.findall(r"`([^`]+)`", cells[0]) if cells[0] else current
        for name in current:
            count[name] = count.get(name, 0) + 1
        if not cells[1] or not cells[2]:
            yield f"{page}:{number}: a wrong answer without what refuses it"
    for function in sources.public_functions():
        if count.get(function.title(), 0) < 2:
            yield f"{page}: {count.get(function.title(), 0)} wrong answers for {function.title()}"


def main():
    tree, wrong = Tree(), []
    for page in pages():
        text = sources.read(page)
        letters, doubled = bindings(page, text)
        wrong += doubled
        lines = prose(FORMER.sub("", text) if page == PORT else text)
        found = [(at, span) for at, span in spans(lines) if span not in letters and not judge(tree, span, letters, lines[at])]
        found += [(at, name) for at, line in enumerate(lines) for name in plain(tree, line, letters)]
        wrong += [f"{page}:{at + 1}: {name}" for at, name in sorted(found)]
    first_cells = " ".join(line.split("|")[1] for line in prose(sources.read(CRATES)) if line.startswith("|"))
    wrong += [f"{CRATES}: its table lacks crate {crate}" for crate in sources.crates() if f"`{crate}`" not in first_cells]
    for page in sources.find("man/*"):
        wrong += [f"{page}:{number}: {name}" for number, name in manual(tree, page)]
    wrong += list(wrong_answers())
    print("\n".join(wrong + [f"pages: {len(wrong)} wrong"]))
    sys.exit(bool(wrong))


if __name__ == "__main__":
    main()
