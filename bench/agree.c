/* agree.c - compares the library with the hand-written engine and, where it is compiled in, with BuDDy on drawn files and stores of drawn
 * size: refusal and detail, outcome, updates made, and the weights of all atoms.
 *
 *     agree SEED COUNT
 *
 * Half of the files have a byte changed, taken out or added. The last line counts what came out; a difference is printed with the number of
 * its draw, and the status is 1. */
#include "engine.h"
#include "reach.h"

#include <inttypes.h>
#include <stdio.h>
#include <stdlib.h>
#include <string.h>


static uint8_t file[65536];
static size_t length;

/* ---- Drawing. ---- */

static uint64_t chance;

static uint32_t below(uint32_t limit)
{
    chance ^= chance << 13;
    chance ^= chance >> 7;
    chance ^= chance << 17;
    return (uint32_t)(chance >> 33) % limit;
}

static void put1(uint32_t value)
{
    file[length++] = (uint8_t)value;
}

static void put2(uint32_t value)
{
    put1(value);
    put1(value >> 8);
}

static void put_entry(uint32_t kind, uint32_t items, uint32_t offset)
{
    put2(kind);
    put2(items);
    put2(offset);
    put2(0);
}

/* A literal that the head's layer allows; never none, since the head itself is one. */
static uint32_t literal(const uint8_t *layer, uint32_t atoms, uint32_t head)
{
    for (;;) {
        uint32_t atom = below(atoms), negated = below(3) == 0;
        if (layer[atom] + negated <= layer[head]) return 2 * atom + negated;
    }
}

static void draw_file(void)
{
    uint8_t layer[REACH_PLACES] = {0};
    uint32_t facts = below(13), derived = below(4) == 0 ? below(60) : below(10), rules = derived == 0 ? 0 : below(4 * derived + 1), i, j;
    uint32_t layers = 1 + below(4), longest = 1 + below(6);
    length = 0;
    put2(1);
    put2(3);
    put_entry(1, facts, 28);
    put_entry(2, derived, 28 + 4 * facts);
    put_entry(3, rules, 28 + 4 * facts + derived);
    for (i = 0; i < facts; i++) {
        put2(1 + below(20));
        put2(below(20));
    }
    for (i = 0; i < derived; i++) put1(layer[facts + i] = (uint8_t)(1 + below(layers) * (layers == 4 ? 60 : 1)));
    for (i = 0; i < rules; i++) {
        uint32_t head = facts + below(derived), body = below(40) == 0 ? 16 : below(longest + 1);
        put2(head);
        put2(body);
        for (j = 0; j < body; j++) put2(literal(layer, facts + derived, head));
    }
}

static void damage(void)
{
    uint32_t at = below((uint32_t)length), how = below(8);
    if (how == 0) length = at;
    else if (how == 1) put1(below(256));
    else if (how == 2) file[below(28)] ^= (uint8_t)(1u << below(8));
    else if (how < 5) file[at] = (uint8_t)below(256);
    else file[at] ^= (uint8_t)(1u << below(8));
}

/* ---- The sides. ---- */

typedef struct {
    engine_answer answer;
    uint64_t weights[REACH_PLACES];
} whole;

/* The library's counts are those of reach_read, where it does not refuse. */
static void library(uint32_t room, whole *w)
{
    static uint32_t nodes[REACH_NODES];
    static uint16_t places[REACH_PLACES];
    static uint64_t numbers[REACH_NUMBERS];
    reach_step loaded = reach_load(file, length, nodes, room, places, REACH_PLACES);
    reach_counts counts = reach_read(file, length);
    reach_ran ran;
    uint32_t a;
    w->answer.refusal = loaded.refusal;
    w->answer.detail = loaded.detail;
    if (loaded.refusal != 0) return;
    ran = reach_run(file, length, nodes, room, places, REACH_PLACES, loaded.state, REACH_BUDGET);
    w->answer.refusal = ran.refusal;
    w->answer.detail = ran.detail;
    w->answer.outcome = ran.outcome;
    w->answer.updates = ran.updates;
    w->answer.facts = counts.facts;
    w->answer.derived = counts.derived;
    w->answer.total = counts.total;
    for (a = 0; ran.outcome == REACH_RAN_FINISHED && a < counts.facts + counts.derived; a++)
        w->weights[a] = reach_weight(file, length, nodes, room, places, REACH_PLACES, ran.state, a, numbers, room + 2).weight;
}

static void engine(uint32_t room, whole *w)
{
    w->answer = engine_run(file, length, room);
    if (w->answer.outcome == REACH_RAN_FINISHED) engine_weights(w->weights);
}

#ifdef BUDDY
static void buddy(uint32_t room, whole *w)
{
    buddy_start();
    w->answer = buddy_run(file, length, room);
    if (w->answer.outcome == REACH_RAN_FINISHED) buddy_weights(w->weights);
    buddy_end();
}
#endif

static int same(const whole *a, const whole *b)
{
    return a->answer.refusal == b->answer.refusal && a->answer.detail == b->answer.detail && a->answer.outcome == b->answer.outcome
        && a->answer.updates == b->answer.updates && a->answer.facts == b->answer.facts && a->answer.derived == b->answer.derived
        && a->answer.total == b->answer.total && memcmp(a->weights, b->weights, sizeof a->weights) == 0;
}

static void say(const char *name, const engine_answer *a)
{
    printf(" %s %" PRIu32 " %" PRIu32 " %" PRIu32 " %" PRIu64, name, a->refusal, a->detail, a->outcome, a->updates);
}

static int compare(uint32_t number, uint32_t room, const whole *ours, void (*side)(uint32_t, whole *), const char *name)
{
    static whole other;
    memset(&other, 0, sizeof other);
    side(room, &other);
    if (same(ours, &other)) return 1;
    printf("DIFFERENT draw %" PRIu32 " room %" PRIu32 ":", number, room);
    say("library", &ours->answer);
    say(name, &other.answer);
    puts(memcmp(ours->weights, other.weights, sizeof other.weights) == 0 ? "" : ", and weights");
    return 0;
}

int main(int count, char **words)
{
    static whole ours;
    uint32_t seed, draws, i, outcomes[4] = {0, 0, 0, 0};
    int ok = 1;
    if (count != 3) return 2;
    seed = (uint32_t)strtoul(words[1], NULL, 10);
    draws = (uint32_t)strtoul(words[2], NULL, 10);
    for (i = 0; i < draws; i++) {
        uint32_t room;
        chance = ((uint64_t)seed << 32 | i) * 0x9e3779b97f4a7c15u + 1;
        below(2);
        draw_file();
        if (below(2) == 0) damage();
        room = below(2) == 0 ? REACH_NODES : below(60);
        memset(&ours, 0, sizeof ours);
        library(room, &ours);
        outcomes[ours.answer.outcome]++;
        ok &= compare(i, room, &ours, engine, "engine");
#ifdef BUDDY
        ok &= compare(i, room, &ours, buddy, "BuDDy");
#endif
    }
    printf("%" PRIu32 " files: %" PRIu32 " finished, %" PRIu32 " full, ", draws, outcomes[REACH_RAN_FINISHED], outcomes[REACH_RAN_FULL]);
    printf("%" PRIu32 " refused; %s\n", outcomes[REACH_RAN_REFUSED], ok ? "all answers equal" : "answers differ");
    return !ok;
}
