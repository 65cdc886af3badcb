/* Calls of each sort on one queue: threads that push and pop, wait, try, wait for a time and select, with references that come and go,
 * and a close while all of them are at it, again and again. Each object comes once, those of one thread in its order, and nobody is
 * left asleep.
 *
 *     mixed THREADS VALUES: so many objects through queues with room for 1, 2 and 64, by each kind. Prints a line each. */
#include "msq_queue.h"

#include <pthread.h>
#include <stdio.h>

#define MOST_THREADS 32

static msq_queue *queue, *beside; /* nothing goes through the second one */
static unsigned givers;
static uint64_t last;         /* how many pushes there are before the close */
static uint64_t pushed, popped, pushed_sum, popped_sum;
static unsigned wrong;

static void is_wrong(const char *what, uint64_t number) {
    if (__atomic_fetch_add(&wrong, 1, __ATOMIC_SEQ_CST) < 10) {
        fprintf(stderr, "mixed: %s: %llu\n", what, (unsigned long long)number);
    }
}

static uint64_t drawn(uint64_t *seed) {
    *seed ^= *seed << 13;
    *seed ^= *seed >> 7;
    *seed ^= *seed << 17;
    return *seed;
}

/* An object that tells who pushed it, and which of its own it is. */
static void *object_of(unsigned giver, uint64_t number) {
    return (void *)(uintptr_t)(number * MOST_THREADS + giver + MOST_THREADS);
}

static msq_code push_somehow(void *object, uint64_t way) {
    msq_case cases[] = {{beside, MSQ_FOR_OBJECTS, NULL, MSQ_OK}, {queue, MSQ_FOR_ROOM, object, MSQ_OK}};
    switch (way % 4) {
    case 0:
        return msq_queue_push(queue, object);
    case 1:
        return msq_queue_try_push(queue, object);
    case 2:
        return msq_queue_push_for(queue, object, way % 100000);
    default:
        return msq_select(cases, 2, way % 100000) == 1 ? cases[1].code : MSQ_TIMED_OUT;
    }
}

static msq_code pop_somehow(void **object, uint64_t way) {
    msq_case cases[] = {{beside, MSQ_FOR_OBJECTS, NULL, MSQ_OK}, {queue, MSQ_FOR_OBJECTS, NULL, MSQ_OK}};
    switch (way % 4) {
    case 0:
        return msq_queue_pop(queue, object);
    case 1:
        return msq_queue_try_pop(queue, object);
    case 2:
        return msq_queue_pop_for(queue, object, way % 100000);
    default:
        if (msq_select(cases, 2, way % 100000) != 1) {
            return MSQ_TIMED_OUT;
        }
        *object = cases[1].object;
        return cases[1].code;
    }
}

static void *give(void *given) {
    const unsigned giver = (unsigned)(uintptr_t)given;
    uint64_t seed = 88172645463325252u + giver, number = 0;
    for (;;) {
        msq_queue *own = msq_queue_ref(queue);
        const msq_code code = push_somehow(object_of(giver, number), drawn(&seed) >> 8);
        msq_queue_unref(own);
        if (code == MSQ_CLOSED) {
            return NULL;
        }
        if (code == MSQ_OK) {
            __atomic_fetch_add(&pushed_sum, (uintptr_t)object_of(giver, number++), __ATOMIC_SEQ_CST);
            if (__atomic_add_fetch(&pushed, 1, __ATOMIC_SEQ_CST) == last) {
                msq_queue_close(queue);
            }
        } else if (code != MSQ_FULL && code != MSQ_BUSY && code != MSQ_TIMED_OUT) {
            is_wrong(msq_strerror(code), number);
        }
    }
}

static void take_one(void *object, uint64_t *next) {
    const uint64_t word = (uintptr_t)object - MOST_THREADS, giver = word % MOST_THREADS, number = word / MOST_THREADS;
    if (giver >= givers || number < next[giver]) {
        is_wrong("out of order", word);
        return;
    }
    next[giver] = number + 1;
    __atomic_fetch_add(&popped, 1, __ATOMIC_SEQ_CST);
    __atomic_fetch_add(&popped_sum, (uintptr_t)object, __ATOMIC_SEQ_CST);
}

static void *take(void *given) {
    uint64_t seed = 1181783497276652981u + (uintptr_t)given, next[MOST_THREADS] = {0};
    for (;;) {
        void *object = NULL;
        const msq_code code = pop_somehow(&object, drawn(&seed) >> 8);
        if (code == MSQ_CLOSED) {
            return NULL;
        }
        if (code == MSQ_OK) {
            take_one(object, next);
        } else if (code != MSQ_EMPTY && code != MSQ_BUSY && code != MSQ_TIMED_OUT) {
            is_wrong(msq_strerror(code), 0);
        }
    }
}

/* Up to so many objects go through a queue until it is closed: how many did. */
static uint64_t pass(msq_kind kind, unsigned threads, size_t capacity) {
    pthread_t ids[MOST_THREADS];
    pushed = popped = pushed_sum = popped_sum = 0;
    if (msq_queue_new_of(&queue, kind, capacity, threads / 2 + 1, NULL, NULL) != MSQ_OK ||
        msq_queue_new(&beside, 1, NULL, NULL) != MSQ_OK) {
        is_wrong("no queue", 0);
        return 0;
    }
    for (unsigned k = 0; k < threads; k++) {
        if (pthread_create(&ids[k], NULL, k < givers ? give : take, (void *)(uintptr_t)k) != 0) {
            is_wrong("no thread", k);
            return 0;
        }
    }
    for (unsigned k = 0; k < threads; k++) {
        pthread_join(ids[k], NULL);
    }
    if (popped != pushed || popped_sum != pushed_sum || msq_queue_len(queue) != 0) {
        is_wrong("not each once", popped);
    }
    msq_queue_unref(queue);
    msq_queue_unref(beside);
    return pushed;
}

int main(int count, char **words) {
    const unsigned threads = count == 3 ? (unsigned)strtoul(words[1], NULL, 10) : 0;
    const uint64_t values = count == 3 ? strtoull(words[2], NULL, 10) : 0;
    uint64_t seed = 1;
    if (threads < 2 || threads > MOST_THREADS || values == 0) {
        fprintf(stderr, "usage: mixed THREADS VALUES\n");
        return 2;
    }
    givers = threads / 2;
    for (uint32_t kind = MSQ_NON_BLOCKING; kind <= MSQ_RING; kind++) {
        for (size_t capacity = 1; capacity <= 64; capacity = capacity == 1 ? 2 : 32 * capacity) {
            uint64_t came = 0;
            while (came < values && wrong == 0) {
                const uint64_t rest = values - came, most = values / 8 + 1;
                last = drawn(&seed) % (rest < most ? rest : most) + 1;
                came += pass((msq_kind)kind, threads, capacity);
            }
            if (wrong == 0) {
                printf("%s, room for %zu: %llu values in order, each once\n", msq_kind_name(kind), capacity, (unsigned long long)came);
            }
        }
    }
    return wrong != 0;
}
