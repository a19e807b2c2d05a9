/* engine.h - one job as a host sees it: a file checked, loaded and run, then the weights of all atoms. engine.c does it by hand, buddy.cpp
 * over BuDDy. */
#ifndef BENCH_ENGINE_H
#define BENCH_ENGINE_H

#include <stddef.h>
#include <stdint.h>

#ifdef __cplusplus
extern "C" {
#endif

typedef struct {
    uint32_t refusal; /* 0: run; else document 01's number, and every other number but the detail is 0 */
    uint32_t detail;
    uint32_t outcome; /* 0 refused, 1 finished, 3 full, as REACH_RAN_.. of reach.h */
    uint32_t facts;
    uint32_t derived;
    uint64_t total;
    uint64_t updates;
} engine_answer;

/* Loads and runs a file with room for N nodes, 4,096 at most. */
engine_answer engine_run(const uint8_t *file, size_t length, uint32_t room);

/* After a finished run: the weights of all atoms. The file must stand as it was. */
void engine_weights(uint64_t *weights);

/* The same two, and what BuDDy needs before and after each job: its tables laid out and freed. */
void buddy_start(void);
engine_answer buddy_run(const uint8_t *file, size_t length, uint32_t room);
void buddy_weights(uint64_t *weights);
void buddy_end(void);

#ifdef __cplusplus
}
#endif

#endif
