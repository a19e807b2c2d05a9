/* host.c - times the library, the hand-written engine and, where it is compiled in, BuDDy, in one process and on the same files.
 *
 *     host FILE...
 *
 * One line a file: name, outcome, updates, nodes, then nanoseconds as best of some rounds: library run, library whole, engine run, engine
 * whole, and BuDDy run, BuDDy whole, BuDDy start, or three times '-'.
 *
 *   run     the file is checked, loaded and run. Each side starts from the file's bytes and checks all of document 01's refusals. The
 *           library checks the file twice, since reach_run tests whether everything fits together; a host pays for both calls, so both
 *           are timed. Clearing: the library zeroes the lent store and its tables inside the time. The engine clears its table of nodes
 *           inside the time, but not its table of combinations, whose entries name their job; that is a choice of the engine and in its
 *           favour. BuDDy's clearing is its start, below.
 *   whole   the same and then the weights of all atoms: the library by one reach_weight an atom, which is what its header offers; the
 *           others in one pass.
 *   start   BuDDy's tables laid out and freed (bdd_init, bdd_done), which its other two times leave out.
 *
 * Nothing is kept from one job to the next. The sides take turns in 25 rounds, and processor time is measured, so that other work on the
 * machine counts little and hits all sides. In a round a side repeats its job until two milliseconds have passed, and the best tenth of a
 * millisecond counts: so each side is timed on a processor that has just done the same job. All answers are compared first; a difference
 * is printed and the status is 1. */
#define _POSIX_C_SOURCE 199309L

#include "engine.h"
#include "reach.h"

#include <inttypes.h>
#include <stdio.h>
#include <stdlib.h>
#include <string.h>
#include <time.h>

#define ROUNDS 25
#define BATCH 1e5  /* nanoseconds between two looks at the clock */
#define LEAST 2e6  /* nanoseconds of one side in a round */
#define ENOUGH 2e8 /* nanoseconds of one side over all rounds, but for the first two rounds */

static uint8_t file[65537];
static size_t length;

/* ---- The three sides, each with an answer and weights. ---- */

static uint32_t nodes[REACH_NODES];
static uint16_t places[REACH_PLACES];
static uint64_t numbers[REACH_NUMBERS];
static reach_state state;

static engine_answer library_run(void)
{
    engine_answer answer = {0, 0, 0, 0, 0, 0, 0};
    reach_step loaded = reach_load(file, length, nodes, REACH_NODES, places, REACH_PLACES);
    reach_ran ran;
    answer.refusal = loaded.refusal;
    answer.detail = loaded.detail;
    if (loaded.refusal != 0) return answer;
    ran = reach_run(file, length, nodes, REACH_NODES, places, REACH_PLACES, loaded.state, REACH_BUDGET);
    answer.refusal = ran.refusal;
    answer.detail = ran.detail;
    answer.outcome = ran.outcome;
    answer.updates = ran.updates;
    state = ran.state;
    return answer;
}

static void library_weights(uint64_t *weights, uint32_t atoms)
{
    uint32_t a;
    for (a = 0; a < atoms; a++)
        weights[a] = reach_weight(file, length, nodes, REACH_NODES, places, REACH_PLACES, state, a, numbers, REACH_NUMBERS).weight;
}

static engine_answer hand_run(void)
{
    return engine_run(file, length, REACH_NODES);
}

static void hand_weights(uint64_t *weights, uint32_t atoms)
{
    (void)atoms;
    engine_weights(weights);
}

#ifdef BUDDY
static engine_answer bdd_run(void)
{
    return buddy_run(file, length, REACH_NODES);
}

static void bdd_weights(uint64_t *weights, uint32_t atoms)
{
    (void)atoms;
    buddy_weights(weights);
}
#endif

typedef struct {
    const char *name;
    engine_answer (*run)(void);
    void (*weights)(uint64_t *, uint32_t);
    void (*start)(void), (*end)(void);
} side;

static const side sides[] = {
    {"library", library_run, library_weights, NULL, NULL},
    {"engine", hand_run, hand_weights, NULL, NULL},
#ifdef BUDDY
    {"BuDDy", bdd_run, bdd_weights, buddy_start, buddy_end},
#endif
};

#define SIDES (sizeof sides / sizeof sides[0])

/* ---- Comparing. ---- */

typedef struct {
    engine_answer answer;
    uint64_t weights[REACH_PLACES];
} whole;

static uint32_t atoms_of(void)
{
    reach_counts counts = reach_read(file, length);
    return counts.facts + counts.derived;
}

static whole job(const side *s, uint32_t atoms)
{
    whole w;
    memset(&w, 0, sizeof w);
    if (s->start != NULL) s->start();
    w.answer = s->run();
    if (w.answer.outcome == REACH_RAN_FINISHED) s->weights(w.weights, atoms);
    if (s->end != NULL) s->end();
    return w;
}

static int same(const whole *a, const whole *b)
{
    return a->answer.refusal == b->answer.refusal && a->answer.detail == b->answer.detail && a->answer.outcome == b->answer.outcome
        && a->answer.updates == b->answer.updates && memcmp(a->weights, b->weights, sizeof a->weights) == 0;
}

static void say(const char *name, const engine_answer *a)
{
    printf(" %s %" PRIu32 " %" PRIu32 " %" PRIu32 " %" PRIu64, name, a->refusal, a->detail, a->outcome, a->updates);
}

/* Every side's refusal and detail, outcome, updates and weights are the library's; its counts and total are those of reach_read. */
static int agree(const char *name, whole *first)
{
    reach_counts counts = reach_read(file, length);
    uint32_t atoms = counts.facts + counts.derived;
    size_t i;
    int ok = 1;
    *first = job(&sides[0], atoms);
    for (i = 1; i < SIDES; i++) {
        whole w = job(&sides[i], atoms);
        engine_answer a = w.answer;
        if (same(first, &w) && (a.refusal != 0 || (a.facts == counts.facts && a.derived == counts.derived && a.total == counts.total)))
            continue;
        printf("DIFFERENT %s:", name);
        say(sides[0].name, &first->answer);
        say(sides[i].name, &a);
        puts(memcmp(first->weights, w.weights, sizeof w.weights) == 0 ? "" : ", and weights");
        ok = 0;
    }
    return ok;
}

/* ---- Timing. ---- */

static uint64_t sink[REACH_PLACES];

static double look; /* what one look at the clock costs */

/* The processor time of this process, so that other work on the machine counts little. */
static double now(void)
{
    struct timespec t;
    clock_gettime(CLOCK_PROCESS_CPUTIME_ID, &t);
    return (double)t.tv_sec * 1e9 + (double)t.tv_nsec;
}

static void measure_look(void)
{
    int i;
    for (i = 0; i < 10000; i++) {
        double start = now(), time = now() - start;
        if (i == 0 || time < look) look = time;
    }
}

/* One job; the time of its run, or of its run and its weights. */
static double once(const side *s, int weights, uint32_t atoms)
{
    double start, time;
    engine_answer answer;
    if (s->start != NULL) s->start();
    start = now();
    answer = s->run();
    if (weights && answer.outcome == REACH_RAN_FINISHED) s->weights(sink, atoms);
    time = now() - start - look;
    if (s->end != NULL) s->end();
    return time;
}

/* The mean of as many jobs as fill a batch. A side without a start is timed over all of them at once, so that the clock costs nothing. */
static double mean(const side *s, int weights, uint32_t atoms, long repeats)
{
    double sum = 0, start = now();
    long i;
    if (s->start != NULL) {
        for (i = 0; i < repeats; i++) sum += once(s, weights, atoms);
        return sum / (double)repeats;
    }
    for (i = 0; i < repeats; i++) {
        engine_answer answer = s->run();
        if (weights && answer.outcome == REACH_RAN_FINISHED) s->weights(sink, atoms);
    }
    return (now() - start) / (double)repeats;
}

static double start_and_end(const side *s)
{
    double start = now();
    s->start();
    s->end();
    return now() - start;
}

typedef struct {
    double best[2]; /* run, whole */
    long repeats[2];
    double spent[2];
    double start;
} times;

static void round_of(const side *s, uint32_t atoms, times *t, int round)
{
    int k;
    for (k = 0; k < 2; k++) {
        double start = now(), last = start, next;
        if (round > 1 && t->spent[k] > ENOUGH) continue;
        do {
            double time = mean(s, k, atoms, t->repeats[k]);
            next = now();
            if (t->best[k] == 0 || time < t->best[k]) t->best[k] = time;
            if (round == 0) t->repeats[k] = (long)(BATCH / (next - last)) + 1;
            last = next;
        } while (next - start < LEAST);
        t->spent[k] += next - start;
    }
    if (s->start != NULL) {
        double time = start_and_end(s);
        if (round == 0 || time < t->start) t->start = time;
    }
}

static void bench(const char *name, const whole *first)
{
    times t[SIDES];
    uint32_t atoms = atoms_of();
    engine_answer a = first->answer;
    size_t i;
    int round;
    memset(t, 0, sizeof t);
    for (i = 0; i < SIDES; i++) t[i].repeats[0] = t[i].repeats[1] = 1;
    for (round = 0; round < ROUNDS; round++)
        for (i = 0; i < SIDES; i++) round_of(&sides[i], atoms, &t[i], round);
    printf("%s %s %" PRIu64 " %" PRIu32, name,
           a.refusal != 0 ? "refused" : a.outcome == REACH_RAN_FINISHED ? "finished" : "full", a.updates, state.nodes);
    for (i = 0; i < SIDES; i++) printf(" %.0f %.0f", t[i].best[0], t[i].best[1]);
    if (SIDES == 3) printf(" %.0f\n", t[SIDES - 1].start);
    else printf(" - - -\n");
    fflush(stdout);
}

static int read_file(const char *path)
{
    FILE *in = fopen(path, "rb");
    if (in == NULL) return 0;
    length = fread(file, 1, sizeof file, in);
    return fclose(in) == 0;
}

int main(int count, char **paths)
{
    static whole first;
    int i, ok = 1;
    measure_look();
    for (i = 1; i < count; i++) {
        const char *slash = strrchr(paths[i], '/');
        const char *name = slash == NULL ? paths[i] : slash + 1;
        if (!read_file(paths[i])) {
            fprintf(stderr, "cannot read %s\n", paths[i]);
            return 2;
        }
        if (agree(name, &first)) bench(name, &first);
        else ok = 0;
    }
    return !ok;
}
