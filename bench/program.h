/* program.h - a program file checked, sorted and run in rounds, with no word of diagrams: what the hand-written engine and the engine over
 * BuDDy share, so that these two differ in their diagrams alone. Written from document 01; nothing of the library is used.
 *
 * A round counts one update for each atom of the layer, but only the atoms that read something changed are worked out again: the others
 * would build what is there already. So the counts are document 01's and the work is not. */
#ifndef BENCH_PROGRAM_H
#define BENCH_PROGRAM_H

#include <stddef.h>
#include <stdint.h>
#include <string.h>

enum { FACTS = 32, DERIVED = 512, ATOMS = 544, RULES = 2048, LITERALS = 32768 };

struct program {
    const uint8_t *file;
    uint32_t facts, derived, rules;
    uint64_t total;
    uint32_t refusal, detail;
    uint16_t first[DERIVED + 1];       /* the rules of derived atom d stand at place[first[d]] to place[first[d + 1] - 1], in file order */
    uint16_t place[RULES];             /* where a rule begins in the file */
    uint16_t order[DERIVED];           /* the derived atoms layer by layer, ascending in each */
    uint16_t start[258];               /* layer l is order[start[l]] to order[start[l + 1] - 1] */
    uint16_t reader[DERIVED + 1];      /* the readers of derived atom d: readers[reader[d]] to readers[reader[d + 1] - 1] */
    uint16_t readers[LITERALS];        /* places in order of the atoms of the same layer whose rules read d */
    uint64_t dirty[DERIVED / 64];      /* one bit a place in order: to be worked out again */
    uint64_t updates;                  /* updates of whole rounds */
    uint32_t now;                      /* updates made in this round */
};

static inline uint32_t two(const uint8_t *at)
{
    return (uint32_t)at[0] | (uint32_t)at[1] << 8;
}

static inline uint32_t four(const uint8_t *at)
{
    return two(at) | two(at + 2) << 16;
}

static inline int refuse(struct program *p, uint32_t refusal, uint32_t detail)
{
    p->refusal = refusal;
    p->detail = detail;
    return 0;
}

/* Refusals 1 to 4. */
static inline int check_table(struct program *p, const uint8_t *file, size_t length)
{
    if (length < 28 || length > 65536) return refuse(p, 1, 0);
    if (two(file) != 1 || two(file + 2) != 3) return refuse(p, 2, 0);
    if (two(file + 4) != 1 || two(file + 12) != 2 || two(file + 20) != 3) return refuse(p, 2, 0);
    p->facts = two(file + 6);
    p->derived = two(file + 14);
    p->rules = two(file + 22);
    if (p->facts > FACTS || p->derived > DERIVED || p->rules > RULES) return refuse(p, 3, 0);
    if (four(file + 8) != 28 || four(file + 16) != 28 + 4 * p->facts) return refuse(p, 4, 0);
    if (four(file + 24) != 28 + 4 * p->facts + p->derived || four(file + 24) > length) return refuse(p, 4, 0);
    return 1;
}

/* Refusals 5 to 7. Fills the layers of all atoms. */
static inline int check_atoms(struct program *p, uint8_t *layer)
{
    const uint8_t *at = p->file + 28;
    int large = 0;
    uint32_t i;
    p->total = 1;
    for (i = 0; i < p->facts; i++, at += 4) {
        uint64_t sum = (uint64_t)two(at) + two(at + 2);
        if (sum == 0) return refuse(p, 5, i);
        large |= __builtin_mul_overflow(p->total, sum, &p->total);
        layer[i] = 0;
    }
    if (large) return refuse(p, 6, 0);
    for (i = 0; i < p->derived; i++) {
        if (at[i] == 0) return refuse(p, 7, p->facts + i);
        layer[p->facts + i] = at[i];
    }
    return 1;
}

/* The pairs (atom, reader) of one layer, as the rules come; a pair that comes again at once is kept once. */
struct pairs {
    uint32_t count;
    uint16_t last[ATOMS];
    uint16_t atom[LITERALS], reader[LITERALS];
};

/* Refusals 8 to 11. Fills the heads and the places of the rules, in file order, and the pairs. */
static inline int check_rules(struct program *p, size_t length, const uint8_t *layer, uint16_t *head, uint16_t *place, struct pairs *pairs)
{
    const uint8_t *at = p->file + 28 + 4 * p->facts + p->derived, *end = p->file + length;
    uint32_t atoms = p->facts + p->derived, rule, i;
    for (rule = 0; rule < p->rules; rule++) {
        uint32_t h, body;
        if (end - at < 4) return refuse(p, 8, rule);
        h = two(at);
        body = two(at + 2);
        if (body > 16) return refuse(p, 9, rule);
        if (end - at - 4 < (ptrdiff_t)(2 * body)) return refuse(p, 8, rule);
        if (h < p->facts || h >= atoms) return refuse(p, 10, rule);
        head[rule] = (uint16_t)(h - p->facts);
        place[rule] = (uint16_t)(at - p->file);
        at += 4;
        for (i = 0; i < body; i++, at += 2) {
            uint32_t literal = two(at), atom = literal >> 1;
            if (atom >= atoms) return refuse(p, 10, rule);
            if (layer[atom] + (literal & 1) > layer[h]) return refuse(p, 11, rule);
            if (layer[atom] == layer[h] && pairs->last[atom] != h) {
                pairs->last[atom] = (uint16_t)h;
                pairs->atom[pairs->count] = (uint16_t)(atom - p->facts);
                pairs->reader[pairs->count++] = (uint16_t)(h - p->facts);
            }
        }
    }
    return at == end ? 1 : refuse(p, 8, p->rules);
}

/* first and place: the rules sorted by head. */
static inline void sort_rules(struct program *p, const uint16_t *head, const uint16_t *place)
{
    uint16_t next[DERIVED];
    uint32_t i, sum = 0;
    memset(next, 0, p->derived * sizeof next[0]);
    for (i = 0; i < p->rules; i++) next[head[i]]++;
    for (i = 0; i < p->derived; i++) {
        p->first[i] = (uint16_t)sum;
        sum += next[i];
        next[i] = p->first[i];
    }
    p->first[p->derived] = (uint16_t)sum;
    for (i = 0; i < p->rules; i++) p->place[next[head[i]]++] = place[i];
}

/* order, start and the place of each atom in order. */
static inline void sort_atoms(struct program *p, const uint8_t *layer, uint16_t *where)
{
    uint16_t next[257];
    uint32_t i;
    memset(p->start, 0, sizeof p->start);
    for (i = 0; i < p->derived; i++) p->start[layer[i] + 1]++;
    for (i = 1; i < 258; i++) p->start[i] = (uint16_t)(p->start[i] + p->start[i - 1]);
    memcpy(next, p->start, sizeof next);
    for (i = 0; i < p->derived; i++) {
        where[i] = next[layer[i]]++;
        p->order[where[i]] = (uint16_t)i;
    }
}

/* reader and readers: the pairs sorted by atom. */
static inline void sort_pairs(struct program *p, const struct pairs *pairs, const uint16_t *where)
{
    uint16_t next[DERIVED];
    uint32_t i, sum = 0;
    memset(next, 0, p->derived * sizeof next[0]);
    for (i = 0; i < pairs->count; i++) next[pairs->atom[i]]++;
    for (i = 0; i < p->derived; i++) {
        p->reader[i] = (uint16_t)sum;
        sum += next[i];
        next[i] = p->reader[i];
    }
    p->reader[p->derived] = (uint16_t)sum;
    for (i = 0; i < pairs->count; i++) p->readers[next[pairs->atom[i]]++] = where[pairs->reader[i]];
}

/* Checks a file and sorts it; 0 where it is refused. */
static inline int program_load(struct program *p, const uint8_t *file, size_t length)
{
    static struct pairs pairs;
    uint8_t layer[ATOMS];
    uint16_t head[RULES], place[RULES], where[DERIVED];
    p->file = file;
    p->refusal = p->detail = 0;
    p->updates = 0;
    p->now = 0;
    if (!check_table(p, file, length) || !check_atoms(p, layer)) return 0;
    pairs.count = 0;
    memset(pairs.last, 0xff, sizeof pairs.last);
    if (!check_rules(p, length, layer, head, place, &pairs)) return 0;
    sort_rules(p, head, place);
    sort_atoms(p, layer + p->facts, where);
    sort_pairs(p, &pairs, where);
    return 1;
}

/* Updates a derived atom by its rules and says whether it changed. */
typedef int (*program_update)(const struct program *p, uint32_t derived);

/* One round over order[from] to order[to - 1]; whether an atom changed. A reader further on is worked out in this round, another one in
 * the next. */
static inline int program_round(struct program *p, uint32_t from, uint32_t to, program_update update)
{
    uint32_t word, k;
    int changed = 0;
    for (word = from / 64; word <= (to - 1) / 64; word++) {
        uint64_t ahead = ~(uint64_t)0, bits;
        while ((bits = p->dirty[word] & ahead) != 0) {
            uint64_t bit = bits & -bits;
            uint32_t i = 64 * word + (uint32_t)__builtin_ctzll(bits), d = p->order[i];
            p->dirty[word] ^= bit;
            ahead = ~(bit | (bit - 1));
            p->now = i - from;
            if (!update(p, d)) continue;
            changed = 1;
            for (k = p->reader[d]; k < p->reader[d + 1]; k++) p->dirty[p->readers[k] / 64] |= (uint64_t)1 << p->readers[k] % 64;
        }
    }
    return changed;
}

/* Runs all layers. The budget of the reading program is never spent: it is enough for 512 atoms in one layer. */
static inline void program_rounds(struct program *p, program_update update)
{
    uint32_t layer, i;
    memset(p->dirty, 0, sizeof p->dirty);
    for (layer = 1; layer < 256; layer++) {
        uint32_t from = p->start[layer], to = p->start[layer + 1];
        int changed = 1;
        if (from == to) continue;
        for (i = from; i < to; i++) p->dirty[i / 64] |= (uint64_t)1 << i % 64;
        while (changed) {
            changed = program_round(p, from, to, update);
            p->updates += to - from;
        }
    }
}

#endif
