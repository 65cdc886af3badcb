/* What each call by a seat answers where others are in the way, on Linux: one thread pushes and pops, and is stopped within a call by a
 * signal. Prints how many answers were as they should be. */
#define _POSIX_C_SOURCE 200809L

#include "families.h"

#include <pthread.h>
#include <sched.h>
#include <signal.h>
#include <stdatomic.h>
#include <stdlib.h>

enum { TRIES = 1000000 };

static atomic_bool over, stops, rests;

/* Stops the thread where it is, until it is let go. */
static void stop_here(int number) {
    (void)number;
    atomic_store(&rests, true);
    while (atomic_load(&stops)) {
        sched_yield();
    }
    atomic_store(&rests, false);
}

static void *push_and_pop(void *given) {
    while (!atomic_load(&over)) {
        all->push_and_pop();
    }
    return given;
}

static void await_rest(bool due) {
    while (atomic_load(&rests) != due) {
        sched_yield();
    }
}

static void stop(pthread_t other) {
    atomic_store(&stops, true);
    pthread_kill(other, SIGUSR1);
    await_rest(true);
}

static void let_go(void) {
    atomic_store(&stops, false);
    await_rest(false);
}

/* Another thread stops with the lock of Tail, and with that of Head: those that need it are busy. */
static void locks_are_held(pthread_t other) {
    bool tail = false, head = false;
    for (int k = 0; k < TRIES && !(tail && head); k++) {
        stop(other);
        if (!tail && all->pushes[0].make() == MSQ_BUSY) {
            tail = true;
            each(all->pushes, "a held lock", MSQ_BUSY);
        }
        if (!head && all->pops[0].make() == MSQ_BUSY) {
            head = true;
            each(all->pops, "a held lock", MSQ_BUSY);
        }
        let_go();
        if (!tail) { /* what was pushed goes, else the queue is full at last, and a push lacks a node before it looks at the lock */
            all->pops[0].make();
        }
    }
    expect(all->name, "a stop", "with either lock", tail && head, true);
}

/* Another thread stops before it has filled the place at the front of a ring, which is then shut: it holds the value, which no pop
 * gets yet. */
static void a_place_is_claimed(pthread_t other) {
    bool claimed = false;
    for (int k = 0; k < TRIES && !claimed; k++) {
        stop(other);
        claimed = all->pops[0].make() == MSQ_BUSY;
        if (claimed) {
            each(all->pops, "a claimed place", MSQ_BUSY);
            first_of(all->shuts, "a claimed place", MSQ_OK);
            seen("a claimed place of a ring that is shut", MSQ_OK);
        }
        let_go();
    }
    expect(all->name, "a stop", "with a place", claimed, true);
}

/* Beside a thread that pushes and pops by seats of its own. */
static void beside_another(uint32_t kind, void (*look)(pthread_t other)) {
    pthread_t other;
    opens(kind, 16, MSQ_MOST_COUNT, SEATS);
    atomic_store(&over, false);
    if (pthread_create(&other, NULL, push_and_pop, NULL) != 0) {
        exit(1);
    }
    look(other);
    atomic_store(&over, true);
    pthread_join(other, NULL);
    all->drop();
}

int main(void) {
    struct sigaction action = {.sa_handler = stop_here};
    sigaction(SIGUSR1, &action, NULL);
    turns = 16; /* as many as there are nodes: a push of words tries each place for them, and is busy by the lock alone */
    for (all = families; all < families + FAMILIES; all++) {
        beside_another(MSQ_TWO_LOCK, locks_are_held);
        if (all->has_ring) {
            beside_another(MSQ_RING, a_place_is_claimed);
        }
    }
    return told();
}
