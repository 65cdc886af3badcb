/* Times calls of libmsq: `calls QUEUE KIND COUNT [MANY]` prints how many nanoseconds the works of KIND took, each thread COUNT
 * times. QUEUE is non-blocking, two-lock or ring, KIND one, four, pair or two; bench/queues/works.rs says what a thread does in
 * each. With MANY, up to 64, that many values go at one call, and COUNT still counts values. */
#define _POSIX_C_SOURCE 200809L

#include "msq.h"

#include <pthread.h>
#include <sched.h>
#include <stdio.h>
#include <stdlib.h>
#include <string.h>
#include <time.h>

enum { NODES = 65, TURNS = 8, MOST = 4, MOST_AT_ONCE = 64 };
enum work { PAIRS, PUSHES, POPS };

struct kind {
    const char *name;
    unsigned threads;
    enum work works[MOST];
};

static const struct kind kinds[] = {
    {"one", 1, {PAIRS}},
    {"four", 4, {PAIRS, PAIRS, PAIRS, PAIRS}},
    {"pair", 2, {PUSHES, POPS}},
    {"two", 4, {PUSHES, PUSHES, POPS, POPS}},
};

/* Each has a cache line of its own. */
struct worker {
    _Alignas(64) msq_seat seat;
    enum work work;
    uint64_t count;
    size_t many;
};

/* As crossbeam's backoff: spins longer each time, and then yields. */
static void snooze(unsigned *step) {
    if (*step <= 6) {
        for (unsigned k = 0; k < 1u << *step; k++) {
#if defined(__x86_64__)
            __builtin_ia32_pause();
#else
            __asm__ volatile("" ::: "memory");
#endif
        }
    } else {
        sched_yield();
    }
    if (*step <= 10) {
        ++*step;
    }
}

static void push(msq_seat *seat) {
    uint32_t code = msq_try_push(seat, 1, TURNS);
    for (unsigned step = 0; code == MSQ_BUSY || code == MSQ_NO_NODE; code = msq_try_push(seat, 1, TURNS)) {
        snooze(&step);
    }
}

static void pop(msq_seat *seat) {
    msq_value value;
    uint32_t code = msq_try_pop(seat, TURNS, &value);
    for (unsigned step = 0; code == MSQ_BUSY || code == MSQ_EMPTY; code = msq_try_pop(seat, TURNS, &value)) {
        snooze(&step);
    }
}

static void push_many(msq_seat *seat, size_t many) {
    static const uint64_t bodies[MOST_AT_ONCE];
    size_t count;
    for (unsigned step = 0; many > 0; many -= count) {
        if (msq_push_all(seat, bodies, many, TURNS, &count) != MSQ_OK) {
            snooze(&step);
        }
    }
}

static void pop_many(msq_seat *seat, size_t many) {
    msq_value values[MOST_AT_ONCE];
    size_t count;
    for (unsigned step = 0; many > 0; many -= count) {
        if (msq_pop_up_to(seat, TURNS, values, many, &count) != MSQ_OK) {
            snooze(&step);
        }
    }
}

static void *works(void *given) {
    struct worker *me = given;
    for (uint64_t k = 0; k < me->count; k += me->many) {
        if (me->work != POPS) {
            me->many > 1 ? push_many(&me->seat, me->many) : push(&me->seat);
        }
        if (me->work != PUSHES) {
            me->many > 1 ? pop_many(&me->seat, me->many) : pop(&me->seat);
        }
    }
    return NULL;
}

static int time_of(uint32_t queue, const struct kind *kind, uint64_t count, size_t many) {
    const uint8_t roles[MOST] = {MSQ_BOTH, MSQ_BOTH, MSQ_BOTH, MSQ_BOTH};
    msq_seat seats[MOST] = {0};
    struct worker workers[MOST];
    pthread_t ids[MOST];
    struct timespec began, ended;
    if (msq_create(queue, NODES, MSQ_MOST_COUNT, roles, kind->threads, seats, kind->threads) != MSQ_OK) {
        return 1;
    }
    clock_gettime(CLOCK_MONOTONIC, &began);
    for (unsigned k = 0; k < kind->threads; k++) {
        workers[k] = (struct worker){seats[k], kind->works[k], count, many};
        if (pthread_create(&ids[k], NULL, works, &workers[k])) {
            return 1;
        }
    }
    for (unsigned k = 0; k < kind->threads; k++) {
        pthread_join(ids[k], NULL);
    }
    clock_gettime(CLOCK_MONOTONIC, &ended);
    for (unsigned k = 0; k < kind->threads; k++) {
        msq_drop(&workers[k].seat);
    }
    printf("%lld\n", (long long)(ended.tv_sec - began.tv_sec) * 1000000000 + (ended.tv_nsec - began.tv_nsec));
    return 0;
}

int main(int argc, char **argv) {
    size_t many = argc == 5 ? strtoull(argv[4], NULL, 10) : 1;
    if ((argc == 4 || argc == 5) && many >= 1 && many <= MOST_AT_ONCE) {
        uint32_t queue = MSQ_NON_BLOCKING;
        while (queue < MSQ_RING && strcmp(argv[1], msq_kind_name(queue)) != 0) {
            queue++;
        }
        for (size_t k = 0; k < sizeof kinds / sizeof *kinds; k++) {
            if (strcmp(argv[2], kinds[k].name) == 0) {
                return time_of(queue, &kinds[k], strtoull(argv[3], NULL, 10), many);
            }
        }
    }
    fputs("calls non-blocking|two-lock|ring one|four|pair|two COUNT [MANY]\n", stderr);
    return 2;
}
