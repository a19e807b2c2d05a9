#!/usr/bin/env python3
"""families.py FOLDER [SEED] - writes the benchmark's program files (document 01's layout) as FOLDER/FAMILY-NAME.reach.

The same seed gives the same bytes. Each family asks something else of an engine; what, stands at its function.
"""
import os
import random
import sys

sys.path.insert(0, os.path.join(os.path.dirname(os.path.abspath(__file__)), '..', 'tools'))
from reach_file import encode, no, yes


class Program:
    """Facts first, then derived atoms, all by name. A literal is a name, with '~' before it if negated."""

    def __init__(self):
        self.number, self.facts, self.layers, self.rules = {}, 0, [], []

    def fact(self, *names):
        for name in names:
            self.number[name] = self.facts
            self.facts += 1

    def atom(self, layer, *names):
        for name in names:
            self.number[name] = self.facts + len(self.layers)
            self.layers.append(layer)

    def rule(self, head, *body):
        self.rules.append((head, body))

    def literal(self, text):
        return no(self.number[text[1:]]) if text.startswith('~') else yes(self.number[text])

    def weights(self, chance):
        """Weights as large as the total allows, at most 10,000 a fact."""
        largest = 10000
        while (largest ** self.facts) >= 2 ** 64:
            largest -= max(1, largest // 50)
        for _ in range(self.facts):
            both = chance.randint(max(2, largest // 2), largest)
            on = chance.randint(1, both - 1)
            yield on, both - on

    def bytes(self, chance):
        rules = [(self.number[head], list(map(self.literal, body))) for head, body in self.rules]
        return encode(list(self.weights(chance)), self.layers, rules)


def names(word, n):
    return ['%s%d' % (word, i) for i in range(n)]


# ---- bench: what the calculator is for ----

def bench(chance, starts, gusts, valves, steps, upper, reach=2):
    """Phases of a drawn test in rings (startup, ramp, hold, trip), then layers of branches that look at phases near them, negated too."""
    p = Program()
    drawn = sorted((i / n, word + str(i)) for word, n in (('start', starts), ('gust', gusts), ('stuck', valves)) for i in range(n))
    p.fact(*(name for _, name in drawn))
    near = lambda word, n, step: word + str(step % steps * n // steps)  # the drawn thing that belongs to a step
    phases = ('startup', 'ramp', 'hold', 'trip')
    for s in range(steps):
        p.atom(1, *(phase + str(s) for phase in phases))
    for s in range(steps):
        gust, stuck = near('gust', gusts, s), near('stuck', valves, s)
        p.rule('startup%d' % s, near('start', starts, s))
        p.rule('ramp%d' % s, 'startup%d' % s)
        p.rule('startup%d' % s, 'ramp%d' % s, gust)
        p.rule('hold%d' % s, 'ramp%d' % s, stuck)
        p.rule('ramp%d' % s, 'hold%d' % s)
        p.rule('trip%d' % s, 'hold%d' % s, gust)
        p.rule('startup%d' % ((s + 1) % steps), 'hold%d' % s, gust)
    for layer in range(2, 2 + upper):
        p.atom(layer, *names('branch%d_' % layer, steps))
        below = phases if layer == 2 else ['branch%d_' % (layer - 1)]
        seen = lambda s: chance.choice(below) + str((s + chance.randrange(reach)) % steps)
        for s in range(steps):
            head = 'branch%d_%d' % (layer, s)
            for _ in range(2):
                more = [chance.choice(('', '~')) + near('stuck', valves, s)] if chance.random() < 0.5 else []
                p.rule(head, seen(s), '~' + seen(s), *more)
            if s + 1 < steps:
                p.rule(head, 'branch%d_%d' % (layer, s + 1), near('gust', gusts, s))
    return p


def bench_family(chance):
    yield 'smallest', bench(chance, 1, 1, 1, 1, 1)
    yield 'tiny', bench(chance, 2, 3, 2, 3, 2)
    yield 'small', bench(chance, 2, 4, 3, 4, 2)
    yield 'middle', bench(chance, 3, 5, 3, 6, 1)
    yield 'deep', bench(chance, 2, 3, 3, 6, 12)
    yield 'long', bench(chance, 2, 5, 3, 40, 2, 1)
    yield 'many', bench(chance, 2, 4, 2, 80, 2, 1)
    yield 'large', bench(chance, 5, 7, 5, 10, 2)


# ---- chain and reversed: one layer of up to 512 atoms, in the best and in the worst order for ascending rounds ----

def chain(n, facts, copies, joined, reverse):
    """Atom after atom, each by `copies` rules from the one before; joined: with a fact in each body. In reverse a round settles one atom,
    so that n atoms take n rounds."""
    p = Program()
    p.fact(*names('f', facts))
    p.atom(1, *names('a', n))
    at = lambda i: 'a%d' % (n - 1 - i if reverse else i)
    p.rule(at(0), 'f0')
    for i in range(1, n):
        for c in range(copies):
            more = ['f%d' % ((i * facts // n + c) % facts)] if joined else []
            p.rule(at(i), at(i - 1), *more)
    return p


def chain_family(_):
    yield '16', chain(16, 1, 1, False, False)
    yield '512', chain(512, 1, 1, False, False)
    yield '512x4', chain(512, 1, 4, False, False)
    yield '128-joined', chain(128, 16, 1, True, False)
    yield '512-joined', chain(512, 32, 1, True, False)
    yield '512x4-joined', chain(512, 12, 4, True, False)


def heavy(n, rules, half, sets):
    """A chain in the worst order whose links also conjoin two large lower functions that exclude each other, by the last fact only: the
    conjunction walks both and gives never. With several sets the pairs turn, so that a small table of answers forgets them."""
    p = Program()
    facts = 4 * half + 1
    p.fact(*names('f', facts))
    for j in range(sets):
        p.atom(1, 'even%d' % j, 'odd%d' % j)
    for j in range(sets):
        for i in range(half):
            p.rule('even%d' % j, 'f%d' % (2 * i), 'f%d' % (2 * (half + (i + j) % half)), 'f%d' % (facts - 1))
            p.rule('odd%d' % j, 'f%d' % (2 * i + 1), 'f%d' % (2 * (half + (i + j) % half) + 1), '~f%d' % (facts - 1))
    p.atom(2, *names('a', n))
    p.rule('a%d' % (n - 1), 'f0')
    for i in range(n - 1):
        p.rule('a%d' % i, 'a%d' % (i + 1))
        for j in range(rules):
            p.rule('a%d' % i, 'even%d' % ((i + j) % sets), 'odd%d' % ((i + j // sets + j) % sets))
    return p


def reversed_family(_):
    yield '16', chain(16, 1, 1, False, True)
    yield '512', chain(512, 1, 1, False, True)
    yield '512x4', chain(512, 1, 4, False, True)
    yield '128-joined', chain(128, 16, 1, True, True)
    yield '512-joined', chain(512, 32, 1, True, True)
    yield '512x4-joined', chain(512, 12, 4, True, True)
    yield 'heavy64', heavy(64, 1, 5, 1)
    yield 'heavy500x3', heavy(500, 3, 5, 1)
    yield 'turning12x9', heavy(12, 9, 7, 3)


# ---- graph: the paths of document 000's example ----

def graph(edges, nodes, mode, both_ways=False):
    """Paths: an edge, or an edge and then a path. mode 'all': between all pairs; 'to': to the last node; 'from': from the first node,
    a path and then an edge. Each edge is a fact; both_ways: it leads back too."""
    p = Program()
    p.fact(*names('e', len(edges)))
    steps = [(a, b, 'e%d' % i) for i, (a, b) in enumerate(edges)]
    if both_ways:
        steps += [(b, a, e) for a, b, e in steps]
    pairs = {'all': [(a, b) for a in range(nodes) for b in range(nodes)], 'to': [(a, nodes - 1) for a in range(nodes)],
             'from': [(0, b) for b in range(nodes)]}[mode]
    path = lambda a, b: 'path%d_%d' % (a, b)
    p.atom(1, *(path(a, b) for a, b in pairs))
    for a, b in pairs:
        for x, y, e in steps:
            if mode == 'from' and y == b:
                if x == 0:
                    p.rule(path(0, b), e)
                p.rule(path(0, b), path(0, x), e)
            if mode != 'from' and x == a:
                if y == b:
                    p.rule(path(a, b), e)
                p.rule(path(a, b), e, path(y, b))
    return p


def ring(n):
    return [(i, (i + 1) % n) for i in range(n)]


def grid(width, height):
    right = [(y * width + x, y * width + x + 1) for y in range(height) for x in range(width - 1)]
    down = [(y * width + x, (y + 1) * width + x) for y in range(height - 1) for x in range(width)]
    return sorted(right + down)


def drawn_edges(chance, nodes, count):
    return sorted(chance.sample([(a, b) for a in range(nodes) for b in range(nodes) if a != b], count))


def graph_family(chance):
    yield 'three', graph([(1, 0), (1, 2), (0, 2), (2, 0)], 3, 'all')
    yield 'ring16', graph(ring(16), 16, 'all')
    yield 'ring22', graph(ring(22), 22, 'all')
    yield 'ring14-both', graph(ring(14), 14, 'all', True)
    yield 'ring16-from', graph(ring(16) + [(b, a) for a, b in ring(16)], 16, 'from')
    yield 'grid3x3', graph(grid(3, 3), 9, 'all', True)
    yield 'grid3x4-from', graph(grid(3, 4), 12, 'from', True)
    yield 'grid4x4-down', graph(grid(4, 4), 16, 'all')
    yield 'grid3x5-to', graph(grid(3, 5), 15, 'to', True)
    yield 'drawn10-16', graph(drawn_edges(chance, 10, 16), 10, 'all')
    yield 'drawn12-20', graph(drawn_edges(chance, 12, 20), 12, 'from')
    yield 'drawn20-30', graph(drawn_edges(chance, 20, 30), 20, 'from')


# ---- smokers: source document 000's other example, stress and influence ----

def smokers(chance, n, edges, upper=True):
    """Who smokes by stress or by a friend, in rings; above that who is at risk, and with negation who is well."""
    p = Program()
    friends = drawn_edges(chance, n, edges)
    p.fact(*names('stress', n))
    p.fact(*('influence%d_%d' % pair for pair in friends))
    p.atom(1, *names('smokes', n))
    for i in range(n):
        p.rule('smokes%d' % i, 'stress%d' % i)
        for a, b in friends:
            if b == i:
                p.rule('smokes%d' % i, 'influence%d_%d' % (a, b), 'smokes%d' % a)
    if not upper:
        return p
    p.atom(2, *names('risk', n))
    p.atom(3, *names('well', n))
    for i in range(n):
        p.rule('risk%d' % i, 'smokes%d' % i, '~stress%d' % i)
        for a, b in friends:
            if a == i:
                p.rule('risk%d' % i, 'smokes%d' % b, 'smokes%d' % i)
        p.rule('well%d' % i, '~risk%d' % i)
        p.rule('well%d' % i, '~smokes%d' % i, 'risk%d' % ((i + 1) % n))
    return p


def smokers_family(chance):
    yield '4', smokers(chance, 4, 5)
    yield '5', smokers(chance, 5, 8)
    yield '6', smokers(chance, 6, 9)
    yield '7', smokers(chance, 7, 9)
    yield '9', smokers(chance, 9, 11)
    yield '12-flat', smokers(chance, 12, 14, False)
    yield '10-flat', smokers(chance, 10, 15, False)


# ---- circuit: one layer a gate level, no rings: each update is made twice, the second time with nothing to do ----

def circuit(chance, inputs, faults, width, depth, near=True):
    """Gates over the level below, some of them stuck at 0 or at 1 by a fault."""
    p = Program()
    below = names('in', inputs)
    p.fact(*below)
    p.fact(*names('fault', faults))
    free = names('fault', faults)
    for level in range(1, depth + 1):
        gates = names('gate%d_' % level, width)
        p.atom(level, *gates)
        for g, gate in enumerate(gates):
            at = g * len(below) // width
            a, b = below[at], below[(at + 1) % len(below)] if near else chance.choice(below)
            stuck = []
            if free and (g + level) % 2 == 0:
                fault = free.pop(0)
                if chance.random() < 0.5:
                    stuck = ['~' + fault]
                else:
                    p.rule(gate, fault)
            bodies = {'and': [(a, b)], 'or': [(a,), (b,)], 'nand': [('~' + a,), ('~' + b,)], 'nor': [('~' + a, '~' + b)],
                      'xor': [(a, '~' + b), ('~' + a, b)]}
            for body in bodies[chance.choice(sorted(bodies))]:
                p.rule(gate, *body, *stuck)
        below = gates
    return p


def adder(bits, faulty):
    """A ripple adder, the bits of both numbers side by side; faulty: a carry may be stuck at 1."""
    p = Program()
    for i in range(bits):
        p.fact('a%d' % i, 'b%d' % i, *(['stuck%d' % i] if faulty else []))
    for i in range(bits):
        a, b, half, total, carry, last = ('%s%d' % (word, i) for word in ('a', 'b', 'half', 'sum', 'carry', 'stuck'))
        before = 'carry%d' % (i - 1)
        p.atom(2 * i + 1, half)
        p.atom(2 * i + 2, total, carry)
        p.rule(half, a, '~' + b)
        p.rule(half, '~' + a, b)
        p.rule(carry, a, b)
        if i == 0:
            p.rule(total, half)
        else:
            p.rule(total, half, '~' + before)
            p.rule(total, '~' + half, before)
            p.rule(carry, half, before)
        if faulty:
            p.rule(carry, last)
    return p


def circuit_family(chance):
    yield 'adder4', adder(4, False)
    yield 'adder10-faulty', adder(10, True)
    yield 'adder16', adder(16, False)
    yield 'w6d4', circuit(chance, 8, 6, 6, 4)
    yield 'w8d5', circuit(chance, 10, 8, 8, 5)
    yield 'w8d12', circuit(chance, 10, 8, 8, 12)
    yield 'w12d3', circuit(chance, 16, 12, 12, 3)
    yield 'w16d16', circuit(chance, 14, 10, 16, 16)


# ---- parity: two nodes a fact, and exponentially many ways through them ----

def counting(facts, modulus, upward=True):
    """How many facts are on, modulo a number: one atom for each rest after each fact."""
    p = Program()
    p.fact(*names('f', facts))
    for i in range(facts):
        fact = 'f%d' % (i if upward else facts - 1 - i)
        p.atom(i + 1, *names('rest%d_' % i, modulus))
        for r in range(modulus):
            if i > 0:
                p.rule('rest%d_%d' % (i, r), 'rest%d_%d' % (i - 1, r), '~' + fact)
                p.rule('rest%d_%d' % (i, r), 'rest%d_%d' % (i - 1, (r - 1) % modulus), fact)
            elif r < 2:
                p.rule('rest0_%d' % r, fact if r == 1 else '~' + fact)
    return p


def parity_family(_):
    for n in (8, 12, 16, 24, 32):
        yield str(n), counting(n, 2)
    yield '32-downward', counting(32, 2, False)
    yield '24-mod3', counting(24, 3)
    yield '28-mod3', counting(28, 3)


# ---- wide: many rules for one atom, many literals for one rule ----

def wide(chance, facts, derived, rules, literals, window):
    """Sums of products over facts near each other."""
    p = Program()
    p.fact(*names('f', facts))
    for d in range(derived):
        p.atom(1 + d % 3, 'w%d' % d)
    for r in range(rules):
        at = chance.randrange(facts)
        p.rule('w%d' % (r % derived), *(chance.choice(('', '', '~')) + 'f%d' % ((at + chance.randrange(window)) % facts)
                                          for _ in range(literals)))
    return p


def sums(turn):
    """64 atoms, each the sum of all 32 facts, in orders that `turn` gives."""
    p = Program()
    p.fact(*names('f', 32))
    p.atom(1, *names('w', 64))
    for d in range(64):
        for i in range(32):
            p.rule('w%d' % d, 'f%d' % turn(i, d))
    return p


def crossed(half):
    """The sum of f(i) and f(i + half): 2^(half + 1) nodes in this order of the facts. Above it, its negation."""
    p = Program()
    p.fact(*names('f', 2 * half))
    p.atom(1, 'x')
    p.atom(2, 'y')
    for i in range(half):
        p.rule('x', 'f%d' % i, 'f%d' % (i + half))
    p.rule('y', '~x')
    return p


def wide_family(chance):
    yield 'sums', sums(lambda i, d: 31 - (i * 5 + d // 32) % 32)
    yield 'sums-turned', sums(lambda i, d: (i * 5 + d // 8) % 32)
    yield '3of24', wide(chance, 24, 6, 48, 3, 5)
    yield '4of16', wide(chance, 16, 24, 192, 4, 4)
    yield '16of32', wide(chance, 32, 256, 1536, 16, 2)
    yield 'crossed7', crossed(7)
    yield 'crossed8', crossed(8)


# ---- repeat: the same rules again and again ----

def repeat_family(chance):
    p = Program()
    p.fact(*names('f', 16))
    p.atom(1, 'a0', 'a1')
    for r in range(2048):
        p.rule('a%d' % (r % 2), *names('f', 13))
    yield 'one-body', p

    p = Program()
    p.fact(*names('f', 16))
    p.atom(1, *names('a', 32))
    for d in range(32):
        p.rule('a%d' % d, 'f%d' % (d // 2))
        bodies = [['f%d' % min(15, d // 2 + chance.randrange(3)) for _ in range(3)] + ['a%d' % ((d + chance.choice((1, 31))) % 32)]
                  for _ in range(4)]
        for r in range(60):
            p.rule('a%d' % d, *bodies[r % 4])
    yield 'rings', p

    p = Program()
    p.fact(*names('f', 20))
    p.atom(1, *names('a', 8))
    p.atom(2, *names('b', 8))
    for r in range(1024):
        i = r * 7 % 17
        p.rule('a%d' % (r % 8), *('f%d' % (i + k) for k in (0, 0, 1, 0, 2)))
        p.rule('b%d' % (r % 8), '~a%d' % (r % 8), 'a%d' % ((r % 8 + r // 512 + 1) % 8), '~a%d' % (r % 8), 'f%d' % (r % 3))
    yield 'negated', p

    yield 'small', chain(8, 4, 16, True, True)


# ---- full: files that need more than 4,096 nodes, early or late ----

def late(chained):
    """A chain in the worst order, and only then a sum that does not fit."""
    p = Program()
    p.fact(*names('f', 32))
    p.atom(1, *names('a', chained))
    p.atom(2, 'x')
    p.rule('a%d' % (chained - 1), 'f0')
    for i in range(chained - 1):
        p.rule('a%d' % i, 'a%d' % (i + 1))
    for i in range(16):
        p.rule('x', 'f%d' % i, 'f%d' % (i + 16), 'a0')
        p.rule('x', 'f%d' % i, 'f%d' % (i + 16))
    return p


def full_family(chance):
    yield 'crossed12', crossed(12)
    yield 'crossed16', crossed(16)
    yield '3of32', wide(chance, 32, 16, 512, 3, 32)
    yield 'sums', sums(lambda i, d: (i * 5 + d) % 32)
    yield 'drawn10-32', graph(drawn_edges(chance, 10, 32), 10, 'all')
    yield 'circuit', circuit(chance, 20, 12, 24, 12, False)
    yield 'smokers', smokers(chance, 10, 22)
    yield 'grid4x4-to', graph(grid(4, 4), 16, 'to', True)
    yield 'late', late(400)


FAMILIES = {'bench': bench_family, 'chain': chain_family, 'reversed': reversed_family, 'graph': graph_family, 'smokers': smokers_family,
            'circuit': circuit_family, 'parity': parity_family, 'wide': wide_family, 'repeat': repeat_family, 'full': full_family}


def main():
    if len(sys.argv) not in (2, 3):
        sys.exit(__doc__)
    folder, seed = sys.argv[1], sys.argv[2] if len(sys.argv) == 3 else '1'
    os.makedirs(folder, exist_ok=True)
    for family, make in FAMILIES.items():
        chance = random.Random('%s %s' % (seed, family))
        for name, program in make(chance):
            with open(os.path.join(folder, '%s-%s.reach' % (family, name)), 'wb') as out:
                out.write(program.bytes(chance))


main()
