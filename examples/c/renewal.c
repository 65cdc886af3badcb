/* A queue that lasts, of queues that don't: where one is worn out or too small, a further one is linked behind it, and each
 * thread goes on there at its own pace.
 *
 *     renewal THREADS VALUES: half of the threads push, half pop; so many values go through queues of each kind.
 *
 * A giver sees that its queue is worn by MSQ_WORN_FREE, and that it is full by MSQ_NO_NODE. It makes a further queue,
 * publishes the link to it, and then shuts its own: in this order, so that who is told MSQ_CLOSED always finds the link, and
 * a refused malloc has shut nothing. Who is told MSQ_CLOSED goes on at the next queue. Nothing is lost, and each giver's
 * values come in order, since no push stands after a shut, and a pop is told MSQ_CLOSED only where the queue is empty too.
 *
 * For that
 *  - no seat both pushes and pops, and a limit is at least 2 * nodes - 3: Free then wears out before Tail, which would refuse
 *    the shut, and before Head. The greatest limits of up to 2^31 nodes are.
 *  - a limit is odd, as all greatest ones are: at an even one a worn queue may tell MSQ_NO_NODE for good.
 *  - there are more nodes than givers: else these could link one queue after the other, and push nothing.
 */
#include "msq.h"

#include <pthread.h>
#include <sched.h>
#include <stdatomic.h>
#include <stdio.h>
#include <stdlib.h>

#define MOST 32
#define FIRST_NODES 8
#define MOST_NODES 64
#define LIMIT (2 * MOST_NODES + 1) /* so small that it wears out; MSQ_MOST_COUNT otherwise */

/* One queue of the whole, with a seat for each member, and the link to the one behind it: none, the_end or a queue. */
struct segment {
    struct {
        _Alignas(64) msq_seat seat; /* each call writes it */
    } of[MOST];
    uint32_t nodes;
    atomic_uint members; /* how many have not gone on from here */
    _Atomic(struct segment *) next;
};

static struct segment the_end;

/* The whole. */
struct whole {
    uint32_t kind;
    unsigned givers, members; /* givers are the first of these */
    struct segment *first;
    atomic_uint queues;
};

/* A thread that calls the whole, and where it stands. */
struct member {
    struct whole *whole;
    unsigned number;
    struct segment *at;
};

static msq_seat *seat(struct member *me) {
    return &me->at->of[me->number].seat;
}

/* A further queue for all members; none where memory is refused. */
static struct segment *make(struct whole *whole, uint32_t nodes) {
    uint8_t roles[MOST];
    msq_seat seats[MOST] = {{0}};
    struct segment *made = aligned_alloc(64, sizeof *made);
    for (unsigned k = 0; k < whole->members; k++) {
        roles[k] = k < whole->givers ? MSQ_GIVER : MSQ_TAKER;
    }
    if (made == NULL ||
        msq_create(whole->kind, nodes, LIMIT, roles, whole->members, seats, whole->members) != MSQ_OK) {
        free(made);
        return NULL;
    }
    for (unsigned k = 0; k < whole->members; k++) {
        made->of[k].seat = seats[k];
    }
    made->nodes = nodes;
    atomic_init(&made->members, whole->members);
    atomic_init(&made->next, NULL);
    return made;
}

/* Takes a member away from its queue, which goes with the last one. */
static void leave(struct member *me) {
    msq_drop(seat(me));
    if (atomic_fetch_sub(&me->at->members, 1) == 1) {
        free(me->at);
    }
}

/* Goes on to the next queue, where there is one: behind a queue that was found shut there is, or the whole is shut. */
static bool go_on(struct member *me) {
    struct segment *next = atomic_load(&me->at->next);
    if (next == NULL || next == &the_end) {
        return false;
    }
    leave(me);
    me->at = next;
    return true;
}

/* Shuts the queue where this giver stands, or finds it shut. */
static uint32_t shut(struct member *me) {
    for (;;) {
        uint32_t code = msq_try_shut(seat(me), 8);
        if (code != MSQ_BUSY) {
            return code == MSQ_CLOSED ? MSQ_OK : code;
        }
        sched_yield();
    }
}

/* Links a further queue, unless another giver did, and then shuts this one. */
static uint32_t renew(struct member *me) {
    struct segment *none = NULL;
    if (atomic_load(&me->at->next) == NULL) {
        uint32_t nodes = me->at->nodes < MOST_NODES ? 2 * me->at->nodes : MOST_NODES;
        struct segment *made = make(me->whole, nodes);
        if (made == NULL) {
            return MSQ_MEMORY;
        }
        if (atomic_compare_exchange_strong(&me->at->next, &none, made)) {
            atomic_fetch_add(&me->whole->queues, 1);
        } else {
            for (unsigned k = 0; k < me->whole->members; k++) {
                msq_drop(&made->of[k].seat);
            }
            free(made);
        }
    }
    return shut(me);
}

/* Pushes a body on the whole: MSQ_OK, MSQ_CLOSED or MSQ_MEMORY. */
static uint32_t give(struct member *me, uint64_t body) {
    for (;;) {
        uint32_t code = msq_try_push(seat(me), body, 8);
        if (code == MSQ_BUSY || (code == MSQ_NO_NODE && me->at->nodes == MOST_NODES)) {
            sched_yield();
            continue;
        }
        if (code == MSQ_NO_NODE || code == MSQ_WORN_FREE) {
            code = renew(me);
            code = code == MSQ_OK ? MSQ_CLOSED : code;
        }
        if (code != MSQ_CLOSED || !go_on(me)) {
            return code;
        }
    }
}

/* Pops from the whole: MSQ_OK, MSQ_EMPTY, MSQ_BUSY, or MSQ_CLOSED where it is shut and empty. */
static uint32_t take(struct member *me, msq_value *value) {
    uint32_t code;
    do {
        code = msq_try_pop(seat(me), 8, value);
    } while (code == MSQ_CLOSED && go_on(me));
    return code;
}

/* Shuts the whole, behind all that was given: MSQ_OK, or MSQ_CLOSED where it was shut before. */
static uint32_t end(struct member *me) {
    for (;;) {
        struct segment *next = NULL;
        bool mine = atomic_compare_exchange_strong(&me->at->next, &next, &the_end);
        uint32_t code = shut(me);
        if (mine || code != MSQ_OK) {
            return code;
        }
        if (!go_on(me)) {
            return MSQ_CLOSED;
        }
    }
}

/* What a thread does, and what it found. */
struct worker {
    struct member member;
    uint64_t values; /* how many each giver pushes */
    uint64_t next[MOST];
    atomic_uchar *seen; /* how often each value was popped */
    uint32_t failed;
};

static void *push_all(void *given) {
    struct worker *me = given;
    for (uint64_t body = 0; body < me->values && me->failed == MSQ_OK; body++) {
        me->failed = give(&me->member, body);
    }
    return NULL;
}

/* A giver is the same number in each queue, so that its values are told apart by it. */
static void *pop_all(void *given) {
    struct worker *me = given;
    msq_value value;
    for (;;) {
        uint32_t code = take(&me->member, &value);
        if (code == MSQ_EMPTY || code == MSQ_BUSY) {
            sched_yield();
        } else if (code != MSQ_OK) {
            me->failed = code == MSQ_CLOSED ? MSQ_OK : code;
            return NULL;
        } else if (value.body < me->next[value.from] || value.body >= me->values) {
            me->failed = MSQ_BAD_SIZE;
            return NULL;
        } else {
            me->next[value.from] = value.body + 1;
            atomic_fetch_add(&me->seen[(value.from - 1) * me->values + value.body], 1);
        }
    }
}

static int fail(const char *what, unsigned code) {
    fprintf(stderr, "renewal: %s: %u\n", what, code);
    return 1;
}

/* Runs all members, the givers first, and shuts the whole behind the last value. */
static uint32_t work(struct worker *workers, unsigned givers, unsigned members) {
    pthread_t ids[MOST];
    for (unsigned k = 0; k < members; k++) {
        pthread_create(&ids[k], NULL, k < givers ? push_all : pop_all, &workers[k]);
    }
    for (unsigned k = 0; k < givers; k++) {
        pthread_join(ids[k], NULL);
    }
    uint32_t code = end(&workers[0].member);
    for (unsigned k = givers; k < members; k++) {
        pthread_join(ids[k], NULL);
    }
    for (unsigned k = 0; k < members; k++) {
        code = code == MSQ_OK ? workers[k].failed : code;
        while (go_on(&workers[k].member)) {
        }
        leave(&workers[k].member);
    }
    return code;
}

static int run(uint32_t kind, unsigned threads, uint64_t values) {
    static struct worker workers[MOST];
    unsigned givers = threads / 2;
    uint64_t each = values / givers;
    struct whole whole = {.kind = kind, .givers = givers, .members = 2 * givers};
    atomic_uchar *seen = calloc(values, sizeof *seen);
    whole.first = make(&whole, FIRST_NODES > givers ? FIRST_NODES : 2 * givers);
    if (seen == NULL || whole.first == NULL) {
        return fail("memory", MSQ_MEMORY);
    }
    atomic_init(&whole.queues, 1);
    for (unsigned k = 0; k < whole.members; k++) {
        workers[k] = (struct worker){.member = {&whole, k, whole.first}, .values = each, .seen = seen};
    }
    uint32_t code = work(workers, givers, whole.members);
    if (code != MSQ_OK) {
        return fail("a call", code);
    }
    for (uint64_t place = 0; place < each * givers; place++) {
        if (atomic_load(&seen[place]) != 1) {
            return fail("a value is lost, or came twice", (unsigned)place);
        }
    }
    free(seen);
    printf("%s: %u threads, %llu values in order, each once; %u queues\n",
           kind == MSQ_NON_BLOCKING ? "non-blocking" : "two-lock", whole.members, (unsigned long long)(each * givers),
           atomic_load(&whole.queues));
    return 0;
}

int main(int argc, char **argv) {
    unsigned threads = argc > 1 ? (unsigned)atoi(argv[1]) : 4;
    uint64_t values = argc > 2 ? strtoull(argv[2], NULL, 10) : 40000;
    if (threads < 2 || threads > MOST - 1) {
        return fail("threads", threads);
    }
    return run(MSQ_NON_BLOCKING, threads, values) || run(MSQ_TWO_LOCK, threads, values);
}
