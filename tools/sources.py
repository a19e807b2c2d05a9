"""Reads the project's sources by text: the .antt files with their definitions, and the .rt files with their public contracts.

Nothing is run by itself here; believed.py and pages.py stand on it.
"""
import glob
import os
import re

ROOT = os.path.normpath(os.path.join(os.path.dirname(os.path.abspath(__file__)), ".."))

PLAIN = r"[^\s(){}.;,@\"«»]+"
TOKEN = re.compile(rf"\.{PLAIN}|(?:{PLAIN}|«[^»]*»)(?:\.(?:{PLAIN}|«[^»]*»))*|[(){{}};,@.]")
MARKS = r"(?:(?:unfoldable|abbrev|axiom|pub) )*"
SHUT = {"(": ")", "{": "}", "[": "]"}


def read(path):
    with open(os.path.join(ROOT, path), encoding="utf-8") as f:
        return f.read()


def find(pattern):
    """The files below the root that a pattern names, in order; what a build has made is none of them."""
    return sorted(p for p in glob.glob(pattern, root_dir=ROOT, recursive=True) if not made(p))


def made(path):
    """Whether a path is a folder that a build makes, or lies in one: target/, and out/ of a crate."""
    return bool(re.match(r"(?:target|crates/[^/]+/out)(?:/|$)", path))


def crates():
    """The crates in the order of crates.txt, lowest first; behind a crate's name may stand what else is made of it."""
    lines = (line.split("#")[0].strip() for line in read("crates.txt").split("\n"))
    return [line.split(":")[0].split()[0] for line in lines if line]


# ---- terms of antt

def without_comments(text):
    """The text without comments; a quoted text becomes an empty one, so that nothing in it is read as a name."""
    text = re.sub(r'"(?:[^"\\\n]|\\.)*"', '""', text)
    text = re.sub(r"\{-.*?-\}", "", text, flags=re.S)
    return re.sub(r"(?m)(^|(?<=\s))--(\s.*)?$", "", text)


def tree(text):
    """The tokens of a term, with what stands in brackets as a list that begins with its bracket."""
    out = [[]]
    for token in TOKEN.findall(text):
        if token in SHUT:
            out.append([token])
        elif len(out) > 1 and token == SHUT[out[-1][0]]:
            group = out.pop()
            out[-1].append(group)
        else:
            out[-1].append(token)
    if len(out) != 1:
        raise ValueError("brackets that do not meet: " + text)
    return out[0]


def names_in(items):
    """Every name of a pattern or a list of binders."""
    for item in items:
        if isinstance(item, list):
            yield from names_in(item[1:])
        elif not re.fullmatch(r"[,;:=_.@]|\..*", item):
            yield item


class Scope:
    """Walks a term and gives the names that it does not bind itself. `makes` says of a name whether it is a constructor."""

    def __init__(self, makes):
        self.makes = makes

    def bound(self, items):
        return {n for n in names_in(items) if not self.makes(n)}

    def free(self, items, bound):
        """The free names of a term; a binder reaches to the end of the brackets that it stands in."""
        at, bound = 0, set(bound)
        while at < len(items):
            item = items[at]
            if isinstance(item, list):
                yield from self.group(item, bound, at > 0 and items[at - 1] == "record")
                if ":" in item[1:] and item[0] in "({":
                    bound |= set(names_in(item[1 : item.index(":")]))
            elif item == "λ":
                dot = items.index(".", at)
                for binder in items[at + 1 : dot]:
                    yield from self.group(binder, bound, False) if isinstance(binder, list) else ()
                bound |= self.bound(items[at + 1 : dot])
                at = dot
            elif item == "let":
                end = self.end_of_let(items, at)
                yield from self.let(items[at + 1 : end], bound)
                bound.add(items[at + 1])
                at = end
            elif item[0] not in ".,;@" and item.split(".")[0] not in bound:
                yield item
            at += 1

    def let(self, items, bound):
        """`x = e` or `x : T = e`, where x does not stand in T or e."""
        yield from self.free([i for i in items[1:] if i != "="], bound)

    @staticmethod
    def end_of_let(items, at):
        depth = 0
        for i in range(at, len(items)):
            depth += (items[i] == "let") - (items[i] == "in")
            if depth == 0:
                return i
        raise ValueError("a let without in")

    def group(self, group, bound, is_record):
        """What stands in brackets: binders with a type, the fields of a record, the cases of an elim, or a term."""
        kind, items = group[0], group[1:]
        if kind == "[":
            for case in parts(items, "|"):
                if "↦" in case:
                    arrow = case.index("↦")
                    yield from (n for n in names_in(case[:arrow]) if self.makes(n))
                    yield from self.free(case[arrow + 1 :], bound | self.bound(case[:arrow]))
                else:
                    yield from self.free(case, bound)
        elif kind == "{" and (is_record or len(items) > 1 and items[1] == "="):
            for field in parts(items, ";"):
                yield from self.free(field[2:], bound)
        elif ":" in items:
            yield from self.free(items[items.index(":") + 1 :], bound)
        else:
            yield from self.free(items, bound)


def parts(items, mark):
    """The runs of items between marks, without empty ones."""
    out = [[]]
    for item in items:
        if item == mark:
            out.append([])
        else:
            out[-1].append(item)
    return [part for part in out if part]


# ---- files of antt

def statements(lines):
    """Lines grouped by the lowest indent: each group is a line with all deeper lines and shut brackets behind it."""
    lines = [line for line in lines if line.strip()]
    if not lines:
        return []
    lowest = min(len(line) - len(line.lstrip()) for line in lines)
    out = []
    for line in lines:
        if len(line) - len(line.lstrip()) == lowest and line.lstrip()[0] not in ")}]":
            out.append([line])
        else:
            out[-1].append(line)
    return out


class Definition:
    """A definition: its name, its kind (data, record or term), its statements, and the binders of the sections around it."""

    def __init__(self, name, kind, section, first):
        self.name, self.kind, self.section, self.statements = name, kind, section, [first]


class File:
    """One .antt file: the names that its `use` lines bring, and its definitions. Its name is its module's in its crate: specs.File."""

    def __init__(self, path):
        self.path, self.crate, *below = path, *path.split("/")[1:]
        self.name = ".".join(below)[: -len(".antt")]
        self.brought = {}      # name -> (module, its name there)
        self.modules = {}      # a module's short name -> module
        self.definitions = {}  # name -> Definition, in the file's order
        self.owner = {}        # constructor -> its data type
        self.fields = {}       # field -> its record
        self.lines = read(path).count("\n")
        text = without_comments(read(path))
        use = r"(?m)^[ ]*(?:pub )?use ([^\s{;]+?)(?:\.\{([^}]*)\})?(?: as (\S+))?[ ]*$"
        for module, names, alias in re.findall(use, text):
            self.use(module, names, alias)
        text = re.sub(use, "", text)
        text = re.sub(r"(?m)^(?:pub )?mod .*$|^\s*infix[lr]? .*$", "", text)
        self.declare(text.split("\n"), "")

    def use(self, module, names, alias):
        if not names:
            self.modules[alias or module.split(".")[-1]] = module
        for item in names.replace("\n", " ").split(","):
            words = item.split()
            if words:
                self.brought[words[-1]] = (module, words[0])

    def declare(self, lines, section):
        """Adds the definitions of these lines, which stand in a section with these binders."""
        current = None
        for statement in statements(lines):
            text = "\n".join(statement)
            opens = re.match(r"\s*(?:mutual\b|module \S+(.*?)\bwhere\b)", text, re.S)
            starts = re.match(rf"\s*{MARKS}(?:(data|record) (\S+)|([^\s(){{}}:]+)(?: \{{[^}}:]*\}})? :(?=\s))", text)
            if opens:
                count = opens.group(0).count("\n") + 1
                self.declare(statement[count:], section + (opens.group(1) or ""))
            elif starts:
                name = starts.group(2) or starts.group(3)
                current = Definition(name, starts.group(1) or "term", section, text[starts.end() :])
                self.definitions[name] = current
                self.members(current)
            elif current:
                current.statements.append(text)

    def members(self, definition):
        """The constructors of a data type, the fields of a record."""
        into = {"data": self.owner, "record": self.fields}.get(definition.kind)
        for names, _ in members(definition) if into is not None else ():
            into.update((name, definition.name) for name in names)

    def free(self, name, makes):
        """The names that a definition takes from elsewhere."""
        d, scope = self.definitions[name], Scope(makes)
        section = tree(d.section)
        yield from scope.free(section, set())
        outer = {n for g in section for n in names_in(g[1 : g.index(":")])}
        if d.kind == "term":
            yield from term_names(scope, name, d.statements, outer)
        else:
            yield from type_names(scope, d, outer)


def members(d):
    """The names and the type of each constructor of a data type or field of a record."""
    for member in statements(d.statements[0].partition("where")[2].split("\n")):
        names, _, text = "\n".join(member).partition(":")
        words = names.replace("pub ", "").split()
        yield words[-1:] if words[0] == "deriving" else words, text


def type_names(scope, d, outer):
    """The free names of a data type or a record: its parameters reach over all of it, a field over the fields behind it."""
    items = tree(d.statements[0].partition("where")[0])
    yield from scope.free(items, outer)
    bound = outer | {n for g in items if isinstance(g, list) and ":" in g for n in names_in(g[1 : g.index(":")])}
    for names, text in members(d):
        yield from scope.free(tree(text), bound)
        if d.kind == "record":
            bound |= set(names)


def term_names(scope, name, texts, outer):
    """The free names of a signature and its clauses; an `unfolding` line says nothing and is passed over."""
    yield from scope.free(tree(texts[0]), outer)
    for text in texts[1:]:
        if re.match(r"\s*unfolding\b", text):
            continue
        text, helpers = (re.split(r"(?m)^\s+where[ ]*$", text, maxsplit=1) + [""])[:2]
        items = tree(text)
        equals = items.index("=")
        bound = outer | scope.bound(items[:equals])
        yield from (n for n in names_in(items[:equals]) if scope.makes(n))
        yield from helped(scope, helpers.split("\n"), items[equals + 1 :], bound)


def helped(scope, lines, term, bound):
    """The free names of a term and of the helpers below its `where`, which see each other and the clause's variables."""
    helpers = {}
    for statement in statements(lines):
        text = "\n".join(statement)
        starts = re.match(r"\s*([^\s(){}:]+) :(?=\s)", text)
        if starts:
            helpers[starts.group(1)] = [text[starts.end() :]]
        else:
            helpers[next(reversed(helpers))].append(text)
    bound = bound | set(helpers)
    yield from scope.free(term, bound)
    for name, texts in helpers.items():
        yield from term_names(scope, name, texts, bound)


# ---- sources of Rattle

class Function:
    """A public function: its crate, the modules and the struct around it, its signature with its contract, and what its file brings."""

    def __init__(self, crate, module, owner, name, text, path):
        self.crate, self.module, self.owner, self.name, self.text, self.path = crate, module, owner, name, text, path

    def title(self):
        """As the pages name it: `reach_load`, `format::walk::first`, `reader::Reader::next`."""
        exported = 'extern "C"' in self.text
        return self.name if exported else "::".join(w for w in (self.crate, self.module, self.owner, self.name) if w)

    def parameters(self):
        """The names of the parameters; the function's own answer is `result` in its contract."""
        return set(re.findall(r"\b(\w+): ", self.text))

    def contract(self):
        """What each clause says, as a tree: `requires { .. }`, `ensures NAME { .. }`."""
        items = tree(re.sub(r"//.*", "", self.text[: -len("{")]))
        for at, item in enumerate(items):
            if item in ("requires", "ensures"):
                yield next(group for group in items[at:] if isinstance(group, list))[1:]


def public_functions():
    """Every public function of a library crate, in the order of crates.txt; the crates of the programs have a main.rt."""
    for crate in crates():
        if os.path.exists(os.path.join(ROOT, "crates", crate, "src/main.rt")):
            continue
        for path in find(f"crates/{crate}/src/**/*.rt"):
            module = "::".join(path[: -len(".rt")].split("/")[3:])
            text = read(path)
            for m in re.finditer(r'(?m)^( *)pub (?:extern "C" )?fn (\w+).*?^\1\{', text, re.S):
                blocks = re.findall(r"(?m)^impl(?:<[^>]*>)? (\w+)", text[: m.start()])
                owner = blocks[-1] if m.group(1) else ""
                yield Function(crate, "" if module == "lib" else module, owner, m.group(2), m.group(0), path)


def ghost_uses(path):
    """The names and the short names of modules that a source file of Rattle brings for its contracts."""
    brought, modules = {}, {}
    for module, names, alias in re.findall(r"ghost use ([^\s{;]+?)(?:\.\{([^}]*)\})?(?: as ([^\s;]+))?;", read(path)):
        if not names:
            modules[alias or module.split(".")[-1]] = module
        for item in names.split(","):
            words = item.split()
            if words:
                brought[words[-1]] = (module, words[0])
    return brought, modules


def structs():
    """(crate, name) of every struct and enum of the Rattle sources -> its text and the file that it stands in."""
    out = {}
    for path in find("crates/*/src/**/*.rt"):
        for m in re.finditer(r"(?ms)^(?:pub )?(?:struct|enum) (\w+)(.*?)^\}", read(path)):
            out[path.split("/")[1], m.group(1)] = m.group(2), path
    return out


def types(path):
    """The names of types that a source file of Rattle brings -> (crate, name)."""
    out, known = {}, crates()
    for outer, items in re.findall(r"(?m)^(?:pub )?use (\w+)::([^;]+);", read(path)):
        crate = outer if outer in known else path.split("/")[1]
        for item in re.split(r"[{},]", items):
            words = item.split("::")[-1].split()
            if words:
                out[words[-1]] = (crate, words[0])
    return out
