/* Times reach_read against a plain C loop that makes the same tests, on legal files of 65,536 bytes.
 * Not part of the gate. From the root of the repository:
 *
 *     cc -O2 -Iinclude bench/read.c target/staticlib/libreach.a -o target/bench-read
 *     target/bench-read
 *
 * Before any time is taken, both must give equal answers on the files and on many damaged copies. */
#define _POSIX_C_SOURCE 199309L

#include "reach.h"

#include <inttypes.h>
#include <stdio.h>
#include <stdlib.h>
#include <string.h>
#include <time.h>

#define LENGTH 65536
#define FACTS 32
#define ROUNDS 101
#define CALLS 20
#define DAMAGES 20000

/* ---- The plain loop: document 01's tests 1 to 11, for speed, without any proof. ---- */

static uint32_t two(const uint8_t *at)
{
    return (uint32_t)at[0] | (uint32_t)at[1] << 8;
}

static uint32_t four(const uint8_t *at)
{
    return two(at) | two(at + 2) << 16;
}

static reach_counts refused(uint32_t number, uint32_t detail)
{
    reach_counts counts = {0, 0, 0, 0, 0};
    counts.refusal = number;
    counts.detail = detail;
    return counts;
}

/* Tests the rules; fills the answer in where it refuses. The layers have room for every atom, facts at 0. */
static int rules_refused(const uint8_t *at, const uint8_t *end, uint32_t rules,
                         const uint8_t *layers, uint32_t facts, uint32_t atoms, reach_counts *answer)
{
    uint32_t rule, i;
    for (rule = 0; rule < rules; rule++) {
        uint32_t head, length, top;
        if (end - at < 4) return *answer = refused(8, rule), 1;
        head = two(at);
        length = two(at + 2);
        at += 4;
        if (length > 16) return *answer = refused(9, rule), 1;
        if ((uint32_t)(end - at) < 2 * length) return *answer = refused(8, rule), 1;
        if (head < facts || head >= atoms) return *answer = refused(10, rule), 1;
        top = layers[head];
        for (i = 0; i < length; i++, at += 2) {
            uint32_t literal = two(at);
            if (literal >> 1 >= atoms) return *answer = refused(10, rule), 1;
            /* A negated literal counts as one layer higher, so one comparison serves both signs. */
            if (layers[literal >> 1] + (literal & 1) > top) return *answer = refused(11, rule), 1;
        }
    }
    if (at != end) return *answer = refused(8, rules), 1;
    return 0;
}

/* Refusals 1 to 4. */
static uint32_t header_refused(const uint8_t *file, size_t length)
{
    uint32_t facts, derived, rules;
    if (length < 28 || length > 65536) return 1;
    if (two(file) != 1 || two(file + 2) != 3) return 2;
    if (two(file + 4) != 1 || two(file + 12) != 2 || two(file + 20) != 3) return 2;
    facts = two(file + 6);
    derived = two(file + 14);
    rules = two(file + 22);
    if (facts > 32 || derived > 512 || rules > 2048) return 3;
    if (four(file + 8) != 28 || four(file + 16) != 28 + 4 * facts) return 4;
    if (four(file + 24) != 28 + 4 * facts + derived || four(file + 24) > length) return 4;
    return 0;
}

static reach_counts plain_read(const uint8_t *file, size_t length)
{
    uint8_t layers[REACH_PLACES];
    uint32_t number = header_refused(file, length), facts, derived, i;
    const uint8_t *bytes;
    reach_counts answer = {0, 0, 0, 0, 1};
    int too_large = 0;

    if (number != 0) return refused(number, 0);
    facts = two(file + 6);
    derived = two(file + 14);
    for (i = 0; i < facts; i++) {
        uint64_t sum = (uint64_t)two(file + 28 + 4 * i) + two(file + 30 + 4 * i);
        if (sum == 0) return refused(5, i);
        if (answer.total > UINT64_MAX / sum) too_large = 1;
        answer.total *= sum;
        layers[i] = 0;
    }
    if (too_large) return refused(6, 0);
    bytes = file + 28 + 4 * facts;
    for (i = 0; i < derived; i++) {
        if (bytes[i] == 0) return refused(7, facts + i);
        layers[facts + i] = bytes[i];
    }
    answer.facts = facts;
    answer.derived = derived;
    rules_refused(bytes + derived, file + length, two(file + 22), layers, facts, facts + derived, &answer);
    return answer;
}

/* ---- The files. ---- */

static uint64_t state = 1;

static uint32_t below(uint32_t limit)
{
    state ^= state << 13;
    state ^= state >> 7;
    state ^= state << 17;
    return (uint32_t)(state >> 33) % limit;
}

static uint8_t *put2(uint8_t *at, uint32_t value)
{
    at[0] = (uint8_t)value;
    at[1] = (uint8_t)(value >> 8);
    return at + 2;
}

static uint8_t *put_entry(uint8_t *at, uint32_t kind, uint32_t items, uint32_t offset)
{
    at = put2(at, kind);
    at = put2(at, items);
    at = put2(at, offset);
    return put2(at, offset >> 16);
}

/* Layers rise with the atoms, two atoms to a layer about, so that literals come from many layers. */
static uint8_t layer_of(uint32_t atom)
{
    return (uint8_t)(atom < FACTS ? 0 : 1 + (atom - FACTS) * 255 / 512);
}

static uint32_t legal_literal(uint32_t head)
{
    uint32_t atom = below(head + 1);
    return 2 * atom + (layer_of(atom) < layer_of(head) ? below(2) : 0);
}

/* Fills a file of LENGTH bytes; the literals are shared out over the rules as equally as can be. */
static void make_file(uint8_t *file, uint32_t derived, uint32_t rules)
{
    uint32_t literals = (LENGTH - (28 + 4 * FACTS + derived + 4 * rules)) / 2;
    uint32_t i, j;
    uint8_t *at = put2(put2(file, 1), 3);
    at = put_entry(at, 1, FACTS, 28);
    at = put_entry(at, 2, derived, 28 + 4 * FACTS);
    at = put_entry(at, 3, rules, 28 + 4 * FACTS + derived);
    for (i = 0; i < FACTS; i++) at = put2(put2(at, 1), 1 + below(3));
    for (i = 0; i < derived; i++) *at++ = layer_of(FACTS + i);
    for (i = 0; i < rules; i++) {
        uint32_t head = FACTS + below(derived);
        uint32_t length = literals / rules + (i < literals % rules);
        at = put2(put2(at, head), length);
        for (j = 0; j < length; j++) at = put2(at, legal_literal(head));
    }
}

/* ---- Comparing and timing. ---- */

static int same(reach_counts a, reach_counts b)
{
    return a.refusal == b.refusal && a.detail == b.detail && a.facts == b.facts && a.derived == b.derived
        && a.total == b.total;
}

/* Stops the program where the two differ; says whether the file was accepted. */
static int compare(const uint8_t *file, size_t length)
{
    reach_counts ours = reach_read(file, length), plain = plain_read(file, length);
    if (!same(ours, plain)) {
        fprintf(stderr, "answers differ: reach_read %" PRIu32 " %" PRIu32 ", plain %" PRIu32 " %" PRIu32 "\n",
                ours.refusal, ours.detail, plain.refusal, plain.detail);
        exit(1);
    }
    return ours.refusal == 0;
}

static void compare_damaged(const uint8_t *file)
{
    static uint8_t copy[LENGTH];
    uint32_t i, accepted = 0;
    if (!compare(file, LENGTH)) {
        fprintf(stderr, "the file is refused\n");
        exit(1);
    }
    memcpy(copy, file, LENGTH);
    for (i = 0; i < DAMAGES; i++) {
        uint32_t at = below(LENGTH), length = below(4) == 0 ? below(LENGTH + 1) : LENGTH;
        copy[at] = (uint8_t)below(256);
        accepted += (uint32_t)compare(copy, length);
        copy[at] = file[at];
    }
    printf("answers equal on %d damaged copies, %" PRIu32 " of them accepted\n", DAMAGES, accepted);
}

/* Through a volatile pointer, so that neither loop is moved into the timing or left out. */
typedef reach_counts (*reader)(const uint8_t *, size_t);

static double nanoseconds(reader volatile *call, const uint8_t *file)
{
    struct timespec start, end;
    uint64_t sum = 0;
    int i;
    clock_gettime(CLOCK_MONOTONIC, &start);
    for (i = 0; i < CALLS; i++) sum += (*call)(file, LENGTH).total;
    clock_gettime(CLOCK_MONOTONIC, &end);
    if (sum == 0) exit(1);
    return ((double)(end.tv_sec - start.tv_sec) * 1e9 + (double)(end.tv_nsec - start.tv_nsec)) / CALLS;
}

static int ascending(const void *a, const void *b)
{
    double left = *(const double *)a, right = *(const double *)b;
    return (left > right) - (left < right);
}

static void bench(const char *name, uint32_t derived, uint32_t rules)
{
    static uint8_t file[LENGTH];
    static double ours[ROUNDS], plain[ROUNDS];
    reader volatile our_call = reach_read, plain_call = plain_read;
    int round;
    make_file(file, derived, rules);
    printf("%s: F %d, D %" PRIu32 ", R %" PRIu32 "\n", name, FACTS, derived, rules);
    compare_damaged(file);
    for (round = 0; round < ROUNDS; round++) {
        ours[round] = nanoseconds(&our_call, file);
        plain[round] = nanoseconds(&plain_call, file);
    }
    qsort(ours, ROUNDS, sizeof ours[0], ascending);
    qsort(plain, ROUNDS, sizeof plain[0], ascending);
    printf("  ns per file    best  median\n");
    printf("  reach_read %8.0f %7.0f\n", ours[0], ours[ROUNDS / 2]);
    printf("  plain      %8.0f %7.0f\n", plain[0], plain[ROUNDS / 2]);
    printf("  ratio      %8.2f %7.2f\n", ours[0] / plain[0], ours[ROUNDS / 2] / plain[ROUNDS / 2]);
}

int main(void)
{
    bench("bodies of 16 literals", 508, 1802);
    bench("2,048 rules", 512, 2048);
    return 0;
}
