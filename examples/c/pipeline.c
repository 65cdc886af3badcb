/* Producers push numbers, consumers pop them, over either queue: each producer's values come in order, each once.
 *
 *     pipeline THREADS VALUES: half of the threads push, half pop; so many values go through each queue.
 */
#define _POSIX_C_SOURCE 200809L

#include "msq.h"

#include <pthread.h>
#include <sched.h>
#include <stdio.h>
#include <stdlib.h>
#include <string.h>
#include <time.h>

#define NODES 1024
#define MOST 32
#define OUT_OF_ORDER 100

/* Each has a cache line of its own: a call writes the seat. */
struct worker {
    __attribute__((aligned(64))) msq_seat seat;
    uint64_t values;     /* how many each producer pushes */
    uint64_t next[MOST]; /* above the last value of each producer that this consumer popped */
    uint64_t *popped;    /* a bit for each value of each producer that this consumer popped */
    uint64_t count;      /* how many it popped */
    int failed;
};

static void *push_all(void *given) {
    struct worker *me = given;
    for (uint64_t value = 0; value < me->values;) {
        uint32_t code = msq_try_push(&me->seat, value, 8);
        if (code == MSQ_OK) {
            value++;
        } else if (code == MSQ_NO_NODE || code == MSQ_BUSY) {
            sched_yield();
        } else {
            me->failed = (int)code;
            break;
        }
    }
    return NULL;
}

static void *pop_all(void *given) {
    struct worker *me = given;
    for (;;) {
        msq_value value;
        uint32_t code = msq_try_pop(&me->seat, 8, &value);
        if (code == MSQ_OK) {
            if (value.from >= MOST || value.body < me->next[value.from] || value.body >= me->values) {
                me->failed = OUT_OF_ORDER;
                return NULL;
            }
            me->next[value.from] = value.body + 1;
            uint64_t place = (value.from - 1) * me->values + value.body;
            me->popped[place / 64] |= (uint64_t)1 << place % 64;
            me->count++;
        } else if (code == MSQ_EMPTY || code == MSQ_BUSY) {
            sched_yield();
        } else {
            me->failed = code == MSQ_CLOSED ? 0 : (int)code;
            return NULL;
        }
    }
}

/* Shuts the queue, when all producers are done. */
static uint32_t shut(msq_seat *seat) {
    for (;;) {
        uint32_t code = msq_try_shut(seat, 8);
        if (code != MSQ_BUSY) {
            return code;
        }
        sched_yield();
    }
}

static int fail(const char *what, unsigned code) {
    fprintf(stderr, "pipeline: %s: %u\n", what, code);
    return 1;
}

/* Whether the consumers together popped each of so many values, and none of them twice. */
static int each_once(const struct worker *takers, unsigned count, uint64_t values) {
    for (uint64_t word = 0; word <= values / 64; word++) {
        uint64_t all = 0, twice = 0;
        for (unsigned k = 0; k < count; k++) {
            twice |= all & takers[k].popped[word];
            all |= takers[k].popped[word];
        }
        uint64_t due = word < values / 64 ? UINT64_MAX : ((uint64_t)1 << values % 64) - 1;
        if (twice || all != due) {
            return 0;
        }
    }
    return 1;
}

/* Runs the workers, the first half of which push: the time that they took, in ns, or -1. */
static double time_of(struct worker *workers, unsigned half) {
    pthread_t ids[MOST];
    struct timespec began, ended;
    clock_gettime(CLOCK_MONOTONIC, &began);
    for (unsigned k = 0; k < 2 * half; k++) {
        pthread_create(&ids[k], NULL, k < half ? push_all : pop_all, &workers[k]);
    }
    for (unsigned k = 0; k < half; k++) {
        pthread_join(ids[k], NULL);
    }
    uint32_t code = shut(&workers[0].seat);
    for (unsigned k = half; k < 2 * half; k++) {
        pthread_join(ids[k], NULL);
    }
    clock_gettime(CLOCK_MONOTONIC, &ended);
    return code == MSQ_OK ? (double)(ended.tv_sec - began.tv_sec) * 1e9 + (double)(ended.tv_nsec - began.tv_nsec) : -1;
}

/* What the workers found, and what is left of the queue. */
static int judge(struct worker *workers, unsigned half, uint64_t each) {
    msq_seat seats[MOST];
    uint64_t count = 0;
    for (unsigned k = 0; k < 2 * half; k++) {
        seats[k] = workers[k].seat;
        if (workers[k].failed) {
            return fail(workers[k].failed == OUT_OF_ORDER ? "out of order" : "refused", (unsigned)workers[k].failed);
        }
        count += workers[k].count;
    }
    if (count != half * each || !each_once(workers + half, half, half * each)) {
        return fail("a value is lost, or came twice", (unsigned)count);
    }
    msq_value left[NODES];
    msq_rest rest;
    uint32_t code = msq_close(seats, 2 * half, left, NODES, &rest);
    if (code != MSQ_OK || rest.left != 0 || rest.taken != count || !rest.whole || !rest.was_shut) {
        return fail("close", code);
    }
    return 0;
}

static int run(uint32_t kind, unsigned threads, uint64_t values) {
    unsigned half = threads / 2;
    uint64_t each = values / half;
    uint8_t roles[MOST] = {0};
    msq_seat seats[MOST];
    struct worker workers[MOST];
    memset(seats, 0, sizeof seats);
    memset(workers, 0, sizeof workers);
    for (unsigned k = 0; k < 2 * half; k++) {
        roles[k] = k < half ? MSQ_GIVER : MSQ_TAKER;
        workers[k].values = each;
        workers[k].popped = calloc(half * each / 64 + 1, sizeof(uint64_t));
        if (!workers[k].popped) {
            return fail("memory", MSQ_MEMORY);
        }
    }
    uint32_t code = msq_create(kind, NODES, MSQ_MOST_COUNT, roles, 2 * half, seats, 2 * half);
    if (code != MSQ_OK) {
        return fail("create", code);
    }
    for (unsigned k = 0; k < 2 * half; k++) {
        workers[k].seat = seats[k];
    }
    double time = time_of(workers, half);
    if (time < 0) {
        return fail("shut", 0);
    }
    int failed = judge(workers, half, each);
    for (unsigned k = 0; k < 2 * half; k++) {
        free(workers[k].popped);
    }
    if (!failed) {
        printf("%s: %u threads, %llu values in order, each once; %.0f ns each\n", msq_kind_name(kind), 2 * half,
               (unsigned long long)(half * each), time / (double)(half * each));
    }
    return failed;
}

int main(int argc, char **argv) {
    unsigned threads = argc > 1 ? (unsigned)atoi(argv[1]) : 4;
    uint64_t values = argc > 2 ? strtoull(argv[2], NULL, 10) : 100000;
    if (threads < 2 || threads > MOST - 1) {
        return fail("threads", threads);
    }
    return run(MSQ_NON_BLOCKING, threads, values) || run(MSQ_TWO_LOCK, threads, values) || run(MSQ_RING, threads, values);
}
