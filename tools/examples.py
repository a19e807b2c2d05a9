#!/usr/bin/env python3
"""examples.py DIR: writes the reading program's example files, as document 01 describes the program file, into DIR.

  p9.reach       001's example (P9): facts 3/7 and 2/8, wet if either
  p11.reach      000's graph (P11): edges ba, bc, ac, ca, each 1/1; a path is an edge, or an edge and then a path
  refused.reach  file S with the first literal of rule 2 changed to atom 6, which there is not
  chain.reach    x_i if x_(i+1) for i below 511; x_511 if not x_1; x_511 if x_0: no layers, and the shortest chain through x_0 has 1,023 rules
  full.reach     24 facts of 1/1; atom 24 if 0 in layer 1; atom 25 if i and i + 12, for each i below 12, in layer 2: over 8,000 nodes
"""
import struct
import sys

from reach_file import encode, no, yes


def graph():
    edges = [(1, 0), (1, 2), (0, 2), (2, 0)]
    path = lambda x, y: 4 + 3 * x + y
    rules = [(path(x, y), [yes(e)]) for e, (x, y) in enumerate(edges)]
    rules += [(path(x, z), [yes(e), yes(path(y, z))]) for e, (x, y) in enumerate(edges) for z in range(3)]
    return encode([(1, 1)] * 4, [1] * 9, rules)


def damaged():
    s = bytearray(open("examples/s.reach", "rb").read())
    s[56:58] = struct.pack("<H", yes(6))
    return bytes(s)


files = {
    "p9": encode([(3, 7), (2, 8)], [1], [(2, [yes(0)]), (2, [yes(1)])]),
    "p11": graph(),
    "refused": damaged(),
    "chain": encode([], [1] * 512, [(i, [yes(i + 1)]) for i in range(511)] + [(511, [no(1)]), (511, [yes(0)])]),
    "full": encode([(1, 1)] * 24, [1, 2], [(24, [yes(0)])] + [(25, [yes(i), yes(i + 12)]) for i in range(12)]),
}
for name, data in files.items():
    open(f"{sys.argv[1]}/{name}.reach", "wb").write(data)
