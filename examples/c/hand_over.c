/* Givers hand objects of their own over to takers, by their addresses: on Linux on x86-64 these fit into a body. What a giver
 * wrote into an object before its push, the taker reads, and frees; the header tells a thread sanitizer so.
 *
 *     hand_over THREADS VALUES: half of the threads push, half pop; so many objects go through each queue.
 *
 * Compiled with TOUCHES_LATE a giver writes into the object again behind its push, which a thread sanitizer has to report.
 */
#include "msq.h"

#include <pthread.h>
#include <sched.h>
#include <stdio.h>
#include <stdlib.h>

#define NODES 64
#define MOST 32

struct object {
    uint64_t number, twice;
};

struct worker {
    __attribute__((aligned(64))) msq_seat seat;
    uint64_t values; /* how many objects a giver hands over */
    uint64_t sum;    /* of the numbers that a taker read */
    bool failed;
};

static bool push(msq_seat *seat, struct object *object) {
    for (;;) {
        uint32_t code = msq_try_push(seat, (uint64_t)(uintptr_t)object, 8);
        if (code != MSQ_NO_NODE && code != MSQ_BUSY) {
            return code == MSQ_OK;
        }
        sched_yield();
    }
}

static void *give_all(void *given) {
    struct worker *me = given;
    for (uint64_t number = 1; number <= me->values && !me->failed; number++) {
        struct object *object = malloc(sizeof *object);
        me->failed = object == NULL;
        if (object != NULL) {
            *object = (struct object){number, 2 * number};
            me->failed = !push(&me->seat, object);
#ifdef TOUCHES_LATE
            *(volatile uint64_t *)&object->number = number;
#endif
        }
    }
    return NULL;
}

static void *take_all(void *given) {
    struct worker *me = given;
    for (;;) {
        msq_value value;
        uint32_t code = msq_try_pop(&me->seat, 8, &value);
        if (code == MSQ_OK) {
            struct object *object = (struct object *)(uintptr_t)value.body;
            me->failed = me->failed || object->twice != 2 * object->number;
            me->sum += object->number;
            free(object);
        } else if (code == MSQ_EMPTY || code == MSQ_BUSY) {
            sched_yield();
        } else {
            me->failed = me->failed || code != MSQ_CLOSED;
            return NULL;
        }
    }
}

/* Runs the workers, the first half of which give, and shuts the queue behind the last object. */
static void work(struct worker *workers, unsigned half) {
    pthread_t ids[MOST];
    for (unsigned k = 0; k < 2 * half; k++) {
        pthread_create(&ids[k], NULL, k < half ? give_all : take_all, &workers[k]);
    }
    for (unsigned k = 0; k < half; k++) {
        pthread_join(ids[k], NULL);
    }
    while (msq_try_shut(&workers[0].seat, 8) == MSQ_BUSY) {
        sched_yield();
    }
    for (unsigned k = half; k < 2 * half; k++) {
        pthread_join(ids[k], NULL);
    }
}

static int run(uint32_t kind, unsigned half, uint64_t each) {
    uint8_t roles[MOST];
    msq_seat seats[MOST] = {{0}};
    struct worker workers[MOST] = {0};
    uint64_t sum = 0;
    bool failed = false;
    for (unsigned k = 0; k < 2 * half; k++) {
        roles[k] = k < half ? MSQ_GIVER : MSQ_TAKER;
    }
    if (msq_create(kind, NODES, MSQ_MOST_COUNT, roles, 2 * half, seats, 2 * half) != MSQ_OK) {
        return 1;
    }
    for (unsigned k = 0; k < 2 * half; k++) {
        workers[k].seat = seats[k];
        workers[k].values = each;
    }
    work(workers, half);
    for (unsigned k = 0; k < 2 * half; k++) {
        sum += workers[k].sum;
        failed = failed || workers[k].failed;
        msq_drop(&workers[k].seat);
    }
    if (failed || sum != half * (each * (each + 1) / 2)) {
        fprintf(stderr, "hand_over: an object is lost, came twice, or isn't as it was handed over\n");
        return 1;
    }
    printf("%s: %u threads, %llu objects as they were handed over, each once\n", msq_kind_name(kind), 2 * half,
           (unsigned long long)(half * each));
    return 0;
}

int main(int argc, char **argv) {
    unsigned threads = argc > 1 ? (unsigned)atoi(argv[1]) : 4;
    uint64_t values = argc > 2 ? strtoull(argv[2], NULL, 10) : 20000;
    if (threads < 2 || threads > MOST) {
        return 2;
    }
    for (uint32_t kind = MSQ_NON_BLOCKING; kind <= MSQ_RING; kind++) {
        if (run(kind, threads / 2, values / (threads / 2))) {
            return 1;
        }
    }
    return 0;
}
