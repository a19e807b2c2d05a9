#!/usr/bin/env python3
"""listing_dot.py [FACT NAME..]: turns a listing (document 01, "A listing") on standard input into Graphviz text.

The input is the listing's bytes, or its bytes in hexadecimal as examples/reach.c prints them ('listing 02 00 ..').
Names, if given, stand for facts 0, 1, .. A dashed line is a fact that is off, a full line one that is on.
"""
import sys


def read(data):
    """The bytes of a listing, from raw bytes or from the line that the C host prints."""
    if data.startswith(b"listing"):
        line = data.split(b"\n")[0]
        return bytes(int(word, 16) for word in line.split()[1:])
    return data


def dot(listing, names):
    number = lambda at: listing[at] + 256 * listing[at + 1]
    facts, nodes, root = number(0), number(2), number(4)
    name = lambda fact: names[fact] if fact < len(names) else f"fact {fact}"
    yield "digraph listing {"
    yield '  n0 [label="no", shape=box]; n1 [label="yes", shape=box];'
    yield f'  root [label="{facts} facts", shape=plaintext]; root -> n{root};'
    for i in range(nodes):
        at = 6 + 6 * i
        yield f'  n{i + 2} [label="{name(number(at))}"];'
        yield f"  n{i + 2} -> n{number(at + 2)} [style=dashed]; n{i + 2} -> n{number(at + 4)};"
    yield "}"


def main():
    for line in dot(read(sys.stdin.buffer.read()), sys.argv[1:]):
        print(line)


main()
