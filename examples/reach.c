/* reach.c - a whole host: loads a program file, runs it to the finish, prints the weight of every atom, asks one question
 * with evidence and writes one listing.
 *
 *   reach FILE [QUERY LITERAL.. ]   a literal is 2 * atom, plus 1 if negated
 */
#include "reach.h"
#include <inttypes.h>
#include <stdio.h>
#include <stdlib.h>

static uint8_t file[65537];
static uint32_t nodes[REACH_NODES];
static uint16_t places[REACH_PLACES];
static uint64_t numbers[REACH_NUMBERS];
static uint8_t listing[6 + 6 * REACH_NODES];

static int refused(uint32_t refusal, uint32_t detail) {
    printf("refused %" PRIu32 " %" PRIu32 "\n", refusal, detail);
    return 1;
}

static int weights(size_t length, reach_state state, uint32_t atoms) {
    for (uint32_t atom = 0; atom < atoms; atom++) {
        reach_weighed w = reach_weight(file, length, nodes, REACH_NODES, places, REACH_PLACES, state, atom,
                                       numbers, REACH_NUMBERS);
        if (w.refusal) return refused(w.refusal, w.detail);
        printf("%" PRIu32 " %" PRIu64 "\n", atom, w.weight);
    }
    return 0;
}

static int given(size_t length, reach_state state, uint32_t query, const uint16_t *evidence, size_t count) {
    reach_shared s = reach_given(file, length, nodes, REACH_NODES, places, REACH_PLACES, state, query,
                                 evidence, count, numbers, REACH_NUMBERS);
    if (s.refusal) return refused(s.refusal, s.detail);
    printf("given %" PRIu64 " of %" PRIu64 "\n", s.both, s.evidence);
    return 0;
}

static int list(size_t length, reach_state state, uint32_t atom) {
    reach_listed l = reach_listing(file, length, nodes, REACH_NODES, places, REACH_PLACES, state, atom,
                                   listing, sizeof listing);
    if (l.refusal) return refused(l.refusal, l.detail);
    printf("listing");
    for (uint64_t i = 0; i < l.length; i++) printf(" %02X", listing[i]);
    printf("\n");
    return 0;
}

int main(int argc, char **argv) {
    FILE *in = argc > 1 ? fopen(argv[1], "rb") : NULL;
    if (!in) {
        fprintf(stderr, "usage: reach FILE [QUERY LITERAL..]\n");
        return 2;
    }
    size_t length = fread(file, 1, sizeof file, in);
    fclose(in);

    reach_counts counts = reach_read(file, length);
    if (counts.refusal) return refused(counts.refusal, counts.detail);
    reach_step loaded = reach_load(file, length, nodes, REACH_NODES, places, REACH_PLACES);
    if (loaded.refusal) return refused(loaded.refusal, loaded.detail);
    reach_ran ran = reach_run(file, length, nodes, REACH_NODES, places, REACH_PLACES, loaded.state, REACH_BUDGET);
    if (ran.refusal) return refused(ran.refusal, ran.detail);
    if (ran.outcome == REACH_RAN_FULL) {
        printf("full %" PRIu64 "\n", ran.updates);
        return 1;
    }
    printf("atoms %" PRIu32 " facts %" PRIu32 " total %" PRIu64 " updates %" PRIu64 "\n", counts.facts + counts.derived,
           counts.facts, counts.total, ran.updates);
    if (weights(length, ran.state, counts.facts + counts.derived)) return 1;
    if (argc > 2) {
        uint16_t evidence[64];
        size_t count = 0;
        for (int i = 3; i < argc && count < 64; i++) evidence[count++] = (uint16_t)atoi(argv[i]);
        uint32_t query = (uint32_t)atoi(argv[2]);
        if (given(length, ran.state, query, evidence, count)) return 1;
        return list(length, ran.state, query);
    }
    return 0;
}
