#!/usr/bin/env python3
"""Works out every definition that the statements rest on: what a reader must believe.

The statements are the roots below: the demands and the record of our calls, the contracts of the exported functions, the table of
P1 to P12, and the texts of the programs. From them every name is followed to its definition, through the `use` lines of its file,
down to the toolchain's library and to the structs and enums that the Rattle code declares. A name that leads nowhere is an error.

    tools/believed.py            lists the definitions, a line a file
    tools/believed.py --write    writes the list into docs/TRUST.md, between its two marks
    tools/believed.py --check    says where docs/TRUST.md has another list, and which believed files use laws; status 1 where any does
"""
import re
import sys

import sources

# The statements: names of a crate's specs/, and the source files whose public functions' contracts are statements.
STATEMENTS = [("demands", "Demands"), ("calls", "ours"), ("worked", "table"), ("worked", "answer")]
CONTRACTS = ["crates/reach_c/src/lib.rt", "crates/reach/src/lib.rt", "crates/report/src/lib.rt", "crates/layers_text/src/lib.rt"]

# Words of antt, and names that every file has from its Prim without a `use` line.
WORDS = set("→ × ⊥ : record elim Type Dec".split())

PAGE = "docs/TRUST.md"
BEGIN, END = "<!-- believed: begin -->", "<!-- believed: end -->"


class Believed:
    """All files, and the definitions found so far."""

    def __init__(self):
        files = map(sources.File, sources.find("crates/*/specs/**/*.antt") + sources.find("crates/*/proofs/Laws/**/*.antt"))
        self.files = {(f.crate, f.name): f for f in files}
        self.structs = sources.structs()
        self.found = {}        # (crate, file) -> names of definitions
        self.declared = set()  # (crate, struct or enum)

    def place(self, module):
        """A module's crate and file; None where it is the toolchain's."""
        m = re.match(r"Rattle\.(\w+)\.((?:specs|proofs)\..+)$", module)
        if not m or not any(crate == m.group(1) for crate, _ in self.files):
            return None
        return m.groups()

    def target(self, brought, modules, own, word):
        """What a word names, up to its fields: (crate, file, name), or None for a name of the toolchain or a numeral."""
        name, *behind = word.split(".")
        if re.fullmatch(r"0x[0-9a-fA-F_]+|[0-9][0-9_]*|\"\"", word) or name in WORDS:
            return None
        if behind and name in modules:
            at, there = self.place(modules[name]), behind[0]
        elif name in brought:
            at, there = self.place(brought[name][0]), brought[name][1]
        elif own and (name in own.definitions or name in own.owner):
            at, there = (own.crate, own.name), name
        else:
            operator = [n for n in [*brought, *(own.definitions if own else ())] if "◌" in n and name in n.split("◌")]
            if not operator:
                raise LookupError(word)
            return self.target(brought, modules, own, operator[0])
        return at and (*at, there)

    def makes(self, f):
        """Whether a name is a constructor in this file."""
        def test(word):
            module, dot, name = word.rpartition(".")
            path, name = (f.modules.get(module, ""), name) if dot else f.brought.get(word, ("", ""))
            there = self.files.get(self.place(path))
            return word in f.owner or "TheVariants" in path or bool(there and name in there.owner)
        return test

    def follow(self, crate, file, name):
        """Adds a definition and all that it rests on."""
        if file.startswith("specs.declared."):
            return self.declare(crate, [w for w in file.split(".") if w != "TheVariants"][-1])
        f = self.files.get((crate, file))
        if f is None:
            sys.exit(f"believed: crate {crate} has no file {file}")
        name = name if name in f.definitions else f.owner.get(name, name)
        if name in f.definitions:
            if name not in self.found.setdefault((crate, file), set()):
                self.found[crate, file].add(name)
                self.words(f.path, f.brought, f.modules, f, f.free(name, self.makes(f)))
        elif name in f.brought:
            self.words(f.path, f.brought, f.modules, f, [name])
        else:
            sys.exit(f"believed: {f.path} has no definition {name}")

    def words(self, path, brought, modules, own, words):
        """Follows each word of a definition or a contract."""
        for word in set(words):
            try:
                target = self.target(brought, modules, own, word)
            except LookupError:
                sys.exit(f"believed: {path} names {word}, which leads nowhere")
            if target:
                self.follow(*target)

    def declare(self, crate, name):
        """Adds a struct or enum of the Rattle sources and those that its fields name."""
        if (crate, name) not in self.structs:
            sys.exit(f"believed: crate {crate} declares no {name}")
        if (crate, name) not in self.declared:
            self.declared.add((crate, name))
            text, path = self.structs[crate, name]
            for word in re.findall(r"\w+", text):
                target = sources.types(path).get(word, (crate, word))
                if target in self.structs:
                    self.declare(*target)

    def contract(self, function):
        """Follows what a public function's contract says, and the structs of its signature."""
        brought, modules = sources.ghost_uses(function.path)
        for clause in function.contract():
            free = sources.Scope(lambda word: False).free(clause, function.parameters() | {"result"})
            self.words(function.path, brought, modules, None, free)
        for name, target in sources.types(function.path).items():
            if target in self.structs and re.search(rf"\b{name}\b", function.text):
                self.declare(*target)

    def rows(self):
        """Each believed file with its definitions, in reading order."""
        for crate in sources.crates():
            files = [file for c, file in self.found if c == crate]
            libraries = "\n".join(map(sources.read, sources.find(f"crates/{crate}/*/Lib.antt")))
            order = re.findall(r"(?m)^pub mod (\S+)", libraries)
            for file in sorted(files, key=lambda file: (order.index(file.split(".")[1]), file)):
                f = self.files[crate, file]
                yield f, [name for name in f.definitions if name in self.found[crate, file]]


def believed():
    """Everything that the statements rest on."""
    out = Believed()
    for crate, name in STATEMENTS:
        homes = [file for (c, file), f in out.files.items() if c == crate and name in f.definitions]
        if len(homes) != 1:
            sys.exit(f"believed: crate {crate} has {len(homes)} definitions {name}")
        out.follow(crate, homes[0], name)
    for function in sources.public_functions():
        if function.path in CONTRACTS:
            out.contract(function)
    return out


def table(all_of_it):
    """The list as the page has it."""
    rows = list(all_of_it.rows())
    lines = ["| file | lines | definitions |", "|---|---|---|"]
    for f, names in rows:
        lines.append(f"| {f.path[len('crates/'):]} | {f.lines} | {', '.join(f'`{n}`' for n in names)} |")
    declared = [", ".join(f"`{n}`" for c, n in sorted(all_of_it.declared) if c == crate) + f" ({crate})"
                for crate in sources.crates() if any(c == crate for c, _ in all_of_it.declared)]
    lines.append(f"| structs and enums of the code that these name | | {'; '.join(declared)} |")
    count = sum(len(names) for _, names in rows)
    lines += ["", f"{len(rows)} files, {sum(f.lines for f, _ in rows):,} lines, {count} definitions."]
    return lines


def page_list():
    """The page's text before the list, the list, and the text behind it."""
    before, begin, rest = sources.read(PAGE).partition(BEGIN + "\n")
    now, end, after = rest.partition(END)
    if not begin or not end:
        sys.exit(f"believed: {PAGE} has no marks for the list")
    return before + begin, now.rstrip("\n").split("\n"), "\n" + end + after


def of_laws(name):
    """Whether a file of this name holds laws: those in specs/Laws, and all in proofs/, which contracts do not cite."""
    return bool(re.match(r"specs\.Laws\b|proofs\.", name))


def check(all_of_it):
    """What is wrong, a line each."""
    now, then = page_list()[1], table(all_of_it)
    yield from (f"{PAGE} has, and should not: {line}" for line in now if line not in then)
    yield from (f"{PAGE} lacks: {line}" for line in then if line not in now)
    if now != then and set(now) == set(then):
        yield f"{PAGE} has the list in another order"
    prose = re.findall(r"(?m)^\| ([^|]*)\|", page_list()[0])
    for crate in dict.fromkeys(f.crate for f, _ in all_of_it.rows()):
        if not any(f"`{crate}`" in cell for cell in prose):
            yield f"{PAGE} does not say how crate {crate} was tried"
    for f, names in all_of_it.rows():
        if of_laws(f.name):
            yield f"{f.path} is a file of laws and holds what is believed: {', '.join(names)}"
            continue
        for module in sorted({module for module, _ in f.brought.values()} | set(f.modules.values())):
            if of_laws((all_of_it.place(module) or ("", ""))[1]):
                yield f"{f.path} holds what is believed and has a use line of {module}"


def main():
    sys.setrecursionlimit(10000)
    all_of_it = believed()
    if sys.argv[1:] == ["--write"]:
        before, _, after = page_list()
        with open(f"{sources.ROOT}/{PAGE}", "w", encoding="utf-8") as page:
            page.write(before + "\n".join(table(all_of_it)) + after)
    elif sys.argv[1:] == ["--check"]:
        wrong = list(check(all_of_it))
        print("\n".join(wrong + [f"believed: {len(wrong)} wrong"]))
        sys.exit(bool(wrong))
    elif not sys.argv[1:]:
        print("\n".join(table(all_of_it)))
    else:
        sys.exit(__doc__)


if __name__ == "__main__":
    main()
