#!/usr/bin/env python3
"""reach_file.py: writes program files (document 01, "The program file") from a text that people can write, and shows them as such a text.

    tools/reach_file.py [TEXT] >FILE    the program file of a text, or of standard input
    tools/reach_file.py --show FILE     a program file as a text; its atoms are called by their numbers, f0, f1, .. and a2, a3, ..

A text has one thing a line; what follows a # is a comment:

    fact NAME ON OFF                    a fact with its two weights, 0 to 65535
    atom NAME LAYER                     a derived atom in a layer, 0 to 255
    rule HEAD if NAME, not NAME, ..     a rule; `rule HEAD` alone has an empty body

Facts are numbered as they come, then atoms as they come; rules may name what stands further on. A name has letters, digits and any of _ - .
and is not `if` or `not`. What the layout cannot hold is refused, with status 1: a number too large for its bytes, more than 32 facts, 512
atoms, 2048 rules or 16 literals in a body, a file over 65536 bytes. What the layout holds is written: whether layers and weights are in
order is the library's to say (`weigh` gives the refusal), and `layers` finds the layers of a file that has them wrong.

For other programs: encode(facts, layers, rules) gives the bytes, decode(bytes) the three lists.
"""
import re
import struct
import sys

FACTS, DERIVED, RULES, LITERALS, LONGEST = 32, 512, 2048, 16, 65536
HEADER = struct.Struct("<HHHHIHHIHHI")  # layout, entries; then kind, items and offset of each entry
NAME = re.compile(r"(?!(?:if|not)$)[\w.-]+")


class Refused(Exception):
    """What a program file cannot hold, or a text or a file that is none."""


# ---- bytes

def yes(atom):
    """The literal of an atom."""
    return 2 * atom


def no(atom):
    """The literal of an atom, negated."""
    return 2 * atom + 1


def header(facts, derived, rules):
    """The first 28 bytes, by the counts."""
    at = HEADER.size
    return HEADER.pack(1, 3, 1, facts, at, 2, derived, at + 4 * facts, 3, rules, at + 4 * facts + derived)


def encode(facts, layers, rules):
    """The bytes of a program file: facts are pairs of weights, layers those of the derived atoms, rules pairs of a head and a list of
    literals (yes and no above)."""
    few("facts", facts, FACTS)
    few("derived atoms", layers, DERIVED)
    few("rules", rules, RULES)
    out = [header(len(facts), len(layers), len(rules))]
    for i, weights in enumerate(facts):
        out.append(two(f"fact {i}", *weights))
    for i, layer in enumerate(layers):
        if not 0 <= layer <= 255:
            raise Refused(f"atom {len(facts) + i}: layer {layer} is not in 0 to 255")
    out.append(bytes(layers))
    for i, (head, body) in enumerate(rules):
        few(f"literals in rule {i}", body, LITERALS)
        out.append(two(f"rule {i}", head, len(body), *body))
    whole = b"".join(out)
    if len(whole) > LONGEST:
        raise Refused(f"a file of {len(whole)} bytes; {LONGEST} are the most")
    return whole


def few(what, items, most):
    if len(items) > most:
        raise Refused(f"{len(items)} {what}; {most} are the most")


def two(where, *numbers):
    """Numbers of two bytes each."""
    for number in numbers:
        if not 0 <= number <= 65535:
            raise Refused(f"{where}: {number} is not in 0 to 65535")
    return struct.pack(f"<{len(numbers)}H", *numbers)


def decode(data):
    """Facts, layers and rules of a program file, as encode takes them."""
    if len(data) < HEADER.size:
        raise Refused(f"a file of {len(data)} bytes; {HEADER.size} are the fewest")
    fields = HEADER.unpack_from(data)
    facts, derived, rules = fields[3], fields[6], fields[9]
    if data[: HEADER.size] != header(facts, derived, rules):
        raise Refused("the first 28 bytes are not those of a program file")
    at = HEADER.size + 4 * facts + derived
    if len(data) < at:
        raise Refused(f"the rules begin at byte {at}, past the file's end")
    weights = list(struct.iter_unpack("<HH", data[HEADER.size : at - derived]))
    layers, out = list(data[at - derived : at]), []
    for i in range(rules):
        end = at + 4 + 2 * number(data, at + 2, i)
        out.append((number(data, at, i), [number(data, place, i) for place in range(at + 4, end, 2)]))
        at = end
    if at != len(data):
        raise Refused(f"{len(data) - at} bytes stand after the last rule")
    return weights, layers, out


def number(data, at, rule):
    if at + 2 > len(data):
        raise Refused(f"rule {rule} is broken off")
    return data[at] + 256 * data[at + 1]


# ---- text

class Text:
    """A text that is read: the names and numbers of its atoms, then its rules by name."""

    def __init__(self, lines):
        self.facts, self.layers, self.rules = {}, {}, []
        for count, line in enumerate(lines, 1):
            line = line.partition("#")[0].strip()
            try:
                if line:
                    self.line(count, *line.split(None, 1))
            except Refused as refused:
                raise Refused(f"line {count}: {refused}") from None

    def line(self, count, kind, rest=""):
        words = rest.split()
        if kind == "fact" and len(words) == 3:
            self.declare(words[0])
            self.facts[words[0]] = (whole(words[1], 65535), whole(words[2], 65535))
        elif kind == "atom" and len(words) == 2:
            self.declare(words[0])
            self.layers[words[0]] = whole(words[1], 255)
        elif kind == "rule" and words:
            self.rules.append((count, *self.rule(rest)))
        else:
            raise Refused("not `fact NAME ON OFF`, `atom NAME LAYER` or `rule HEAD if NAME, not NAME, ..`")

    def declare(self, name):
        if not NAME.fullmatch(name):
            raise Refused(f"{name} is not a name")
        if name in self.facts or name in self.layers:
            raise Refused(f"{name} is declared twice")

    @staticmethod
    def rule(rest):
        """A rule's head and its literals, each a name and whether it is negated."""
        parts = re.fullmatch(r"(\S+)(?:\s+if\s(.*))?", rest)
        if parts is None:
            raise Refused("after the head comes nothing, or `if` and a body")
        head, body = parts.groups()
        literals = [re.fullmatch(r"\s*(not\s+)?(\S+)\s*", literal) for literal in body.split(",")] if body else []
        for literal in literals:
            if literal is None or not NAME.fullmatch(literal.group(2)):
                raise Refused("a body is names with `not` before them or without, and commas between them")
        return head, [(literal.group(2), bool(literal.group(1))) for literal in literals]

    def encode(self):
        numbers = {name: i for i, name in enumerate([*self.facts, *self.layers])}
        rules = []
        for count, head, body in self.rules:
            for name in (head, *(name for name, _ in body)):
                if name not in numbers:
                    raise Refused(f"line {count}: no fact or atom is called {name}")
            rules.append((numbers[head], [(no if negated else yes)(numbers[name]) for name, negated in body]))
        return encode(list(self.facts.values()), list(self.layers.values()), rules)


def whole(word, most):
    if not re.fullmatch(r"[0-9]+", word) or int(word) > most:
        raise Refused(f"{word} is not a number from 0 to {most}")
    return int(word)


def show(data):
    """The lines of a program file's text."""
    facts, layers, rules = decode(data)
    names = [f"f{i}" for i in range(len(facts))] + [f"a{len(facts) + i}" for i in range(len(layers))]
    for name, (on, off) in zip(names, facts):
        yield f"fact {name} {on} {off}"
    for name, layer in zip(names[len(facts) :], layers):
        yield f"atom {name} {layer}"
    for i, (head, body) in enumerate(rules):
        for atom in (head, *(literal // 2 for literal in body)):
            if atom >= len(names):
                raise Refused(f"rule {i} names atom {atom}, and there are {len(names)}")
        literals = ", ".join(("not " if literal % 2 else "") + names[literal // 2] for literal in body)
        yield f"rule {names[head]}" + (f" if {literals}" if body else "")


# ---- the command line

def main(words):
    if words in (["-h"], ["--help"]):
        return print(__doc__, end="")
    if len(words) > 2 or (len(words) == 2) != (words[:1] == ["--show"]):
        sys.exit(__doc__)
    try:
        if len(words) == 2:
            with open(words[1], "rb") as file:
                print("\n".join(show(file.read())))
        elif words:
            with open(words[0], encoding="utf-8") as text:
                sys.stdout.buffer.write(Text(text).encode())
        else:
            sys.stdout.buffer.write(Text(sys.stdin).encode())
    except (Refused, OSError, UnicodeError) as refused:
        sys.exit(f"reach_file: {refused}")


if __name__ == "__main__":
    main(sys.argv[1:])
