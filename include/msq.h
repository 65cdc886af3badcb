/*
 * Bounded queues for any number of threads that push and pop: first in, first out.
 * docs/LIBRARY.md says how to build libmsq.a, and docs/LIBRARY_C.md has a first program.
 *
 * A thread calls by a seat of its own, of type msq_seat. Set it to zeros before it is filled: that is an empty one. No call
 * waits, but for the lock of MSQ_DEBUG, and none takes memory but msq_create and msq_close. What is said here of waiting, memory
 * and steps is read off the code, and not proved.
 *
 * Each call is a macro over an inline function at the end of this header, which tells misuse that it sees: seats of two queues that
 * meet or close and, with MSQ_DEBUG, two calls at one time on one seat or on it and a copy, at the price of a lock as a call begins
 * and as it ends. Compiled for the thread sanitizer these are reported in its way, and objects that were handed over by a queue are
 * not; compiled for the address sanitizer a copy of a seat that was dropped is.
 *
 * What the caller owes, and nothing here checks but for what MSQ_DEBUG tells:
 *  - An msq_seat is all zeros, or what the last call left in it. It is never copied beside the one that goes on in use.
 *  - A seat is in one call at a time. It may go to another thread by a start or join, a lock, or a SeqCst atomic.
 *  - Each pointer points to what its type says, and to as many as the length beside it says; no two point to one place.
 *  - No call is made by a signal handler, or in a forked child.
 */
#ifndef MSQ_H
#define MSQ_H

#include "msq_codes.h"

/* Bodies are below this number. */
#define MSQ_BODIES ((uint64_t)1 << 48)
/* The greatest limit, which asks for as much as a queue can have, and the greatest number of nodes. */
#define MSQ_MOST_COUNT (((uint64_t)1 << 62) - 1)
#define MSQ_MOST_NODES UINT32_C(4294967294)

#ifdef __cplusplus
extern "C" {
#endif

enum msq_role { MSQ_GIVER = 1, MSQ_TAKER = 2, MSQ_BOTH = 3 };

typedef struct msq_seat { void *at; bool full; } msq_seat;

/* How many values a queue held: at least and at most so many. */
typedef struct msq_length {
    uint64_t least, most;
} msq_length;

/* How many pushes a queue has left at least, and how often the counts of three of its words can still be raised. Of MSQ_RING
 * `tail` is `pushes` again, and the other two are UINT64_MAX. */
typedef struct msq_remaining {
    uint64_t pushes;
    uint64_t free; /* Free's: each node taken from the free list raises it, and each one given back */
    uint64_t tail; /* Tail's: of MSQ_NON_BLOCKING each push raises it; of MSQ_TWO_LOCK nothing does, and it stays the limit */
    uint64_t head; /* Head's: each value popped raises it */
} msq_remaining;

/* Makes a queue with `nodes` nodes, from 2 on (room for one value less than nodes, and for one less for each seat in which a
 * node waits), and fills seat k with one of role k; 65,535 seats at most. Counts go up to `limit`, 1 or more, or to the greatest
 * count that so many nodes leave room for, where that is less: take MSQ_MOST_COUNT, but for tests. Up to 65,534 nodes that is
 * 2^48 - 1, enough for nearly 2^47 pushes and as many pops; docs/QUEUES.md has the others. An even limit may wear out with an
 * empty free list: a push then answers MSQ_NO_NODE for good, in place of MSQ_WORN_FREE. The greatest counts are odd. MSQ_RING
 * has room for `nodes` values, and never holds more; it has 32,767 seats at most. At least `limit` pushes are done before it
 * wears out, or 2^62 less its places, more than any program makes, where that is fewer. MSQ_OK; MSQ_IN_USE where one of the
 * seats is full; else MSQ_BAD_SIZE where a number is out of its range, or there are fewer seats than roles, or more; else
 * MSQ_MEMORY. Refused, it changes no seat. */
MSQ_NODISCARD uint32_t msq_create(uint32_t kind, uint32_t nodes, uint64_t limit, const uint8_t *roles, size_t roles_len,
                                  msq_seat *seats, size_t seats_len);

/* Pushes a body, below MSQ_BODIES, in so many turns at most, 1 or more (8 is a good number). MSQ_OK, MSQ_NO_NODE, MSQ_BUSY,
 * MSQ_CLOSED, MSQ_BAD_SIZE, MSQ_NO_SEAT or MSQ_NO_ROLE; of MSQ_NON_BLOCKING also MSQ_WORN_FREE, MSQ_WORN_NEXT or MSQ_WORN_TAIL,
 * of MSQ_TWO_LOCK MSQ_WORN_FREE, of MSQ_RING MSQ_WORN_TAIL. Refused, nothing was pushed. */
MSQ_NODISCARD uint32_t msq_try_push(msq_seat *seat, uint64_t body, uint32_t turns);

/* Pops the value at the front into `value`, in so many turns at most, 1 or more. MSQ_OK, MSQ_EMPTY, MSQ_BUSY, MSQ_CLOSED,
 * MSQ_BAD_SIZE, MSQ_NO_SEAT or MSQ_NO_ROLE; of MSQ_NON_BLOCKING also MSQ_WORN_TAIL, of MSQ_TWO_LOCK MSQ_WORN_HEAD. Refused or
 * empty, the queue's values and `value` are as before. */
MSQ_NODISCARD uint32_t msq_try_pop(msq_seat *seat, uint32_t turns, msq_value *value);

/* Shuts the queue, in so many turns at most, 1 or more: no push comes after it, and what is in the queue stays to be popped. The
 * seat is one that may push. MSQ_OK, MSQ_BUSY but of MSQ_RING, MSQ_CLOSED where it was shut before, MSQ_BAD_SIZE, MSQ_NO_SEAT or
 * MSQ_NO_ROLE; of MSQ_NON_BLOCKING also MSQ_WORN_TAIL. */
MSQ_NODISCARD uint32_t msq_try_shut(msq_seat *seat, uint32_t turns);

/* Pushes these bodies in their order, as msq_try_push does, until one is refused: how many were pushed goes to `pushed`, and the
 * code is that of the one which was refused, or 0. To MSQ_RING as many go at one step as there is room for, up to 32; else each
 * goes by itself. Pushes of other seats may come between them. Each step has so many turns. Where there are no bodies, any seat
 * will do; without a seat 0 is written. */
MSQ_NODISCARD uint32_t msq_push_all(msq_seat *seat, const uint64_t *bodies, size_t bodies_len, uint32_t turns, size_t *pushed);

/* Pops values, as many as there is room for, as msq_try_pop does, until the queue is found empty or a pop is refused: they go to
 * `values`, from the front, and how many to `popped`. The code is that of the pop that took none, or 0. From MSQ_RING up to 32
 * come at one step; else each comes by itself. Pops of other seats may come between them. Each step has so many turns. Without a
 * seat 0 is written. */
MSQ_NODISCARD uint32_t msq_pop_up_to(msq_seat *seat, uint32_t turns, msq_value *values, size_t values_len, size_t *popped);

/* Tells a seat that may push and pop whether to keep the node that its pop frees for its next push; a new seat doesn't. Pop and
 * push then spare their steps at the free list, and the node is no room for others. Another seat, and one of MSQ_RING, is as
 * before. MSQ_OK or MSQ_NO_SEAT. */
uint32_t msq_keep_nodes(msq_seat *seat, bool keeps);

/* Whether the queue holds a value, as it was at a moment of this call; any seat may ask, and nothing is popped. It is proved
 * that all that the seat did or found before is counted in. MSQ_OK where the queue holds a value; MSQ_EMPTY where it is empty,
 * MSQ_CLOSED where it is shut too, so that nothing comes any more; MSQ_BUSY where pops took effect meanwhile: look again.
 * MSQ_NO_SEAT. */
MSQ_NODISCARD uint32_t msq_emptiness(msq_seat *seat);

/* Writes bounds of how many values the queue held at a moment of this call; any seat may ask. It is proved that all that the
 * seat did or found before is counted in. The bounds are one number where no other call is under way, which is only tested.
 * MSQ_OK; MSQ_UNCOUNTED of MSQ_TWO_LOCK, whose Tail counts no pushes; MSQ_NO_SEAT. Refused, it writes nothing. */
MSQ_NODISCARD uint32_t msq_len(msq_seat *seat, msq_length *length);

/* Writes how many pushes are left at least until a word wears out; any seat may ask. While fewer pushes begin, done or refused,
 * those under way too, no call is answered MSQ_WORN_FREE, MSQ_WORN_TAIL or MSQ_WORN_HEAD. That a call begins one push isn't
 * proved, nor any of this of MSQ_RING. It is no limit: more may be left, about twice as many where seats keep nodes. MSQ_OK or
 * MSQ_NO_SEAT; refused, it writes nothing. */
MSQ_NODISCARD uint32_t msq_left(msq_seat *seat, msq_remaining *left);

/* Both seats have then seen one history: what one did before, the other has seen. MSQ_OK; MSQ_TWO_QUEUES where they are of two
 * queues, or MSQ_NO_SEAT: nothing is then changed. */
uint32_t msq_meet(msq_seat *one, msq_seat *other);

/* Ends the queue of these seats, which are all of its seats that were not dropped, and empties them. The values left, from the
 * front, go to `values`, as many as have room there: `nodes` of msq_create are enough for all. MSQ_OK; MSQ_TWO_QUEUES where they
 * are not all of one queue, MSQ_BAD_SIZE where there is no seat, MSQ_NO_SEAT where one is empty, MSQ_IN_USE where the queue has
 * a further seat or, of MSQ_RING, had one that was dropped (such a ring can't be closed: pop it empty, and drop its seats), or
 * MSQ_MEMORY: each seat is then as it was. MSQ_RACED where the queue got a further seat while it was closed: all seats are then
 * empty, and the queue goes on without them. No call gives a queue a further seat, so this comes only where a duty above wasn't
 * kept. When these last three come no clause says. Refused, it writes nothing. */
MSQ_NODISCARD uint32_t msq_close(msq_seat *seats, size_t seats_len, msq_value *values, size_t values_len, msq_rest *rest);

/* Drops a seat, which is empty afterwards. With the last seat of a queue its memory is freed, which is only tested. */
void msq_drop(msq_seat *seat);

/* A call with these seats, of this queue where one is known, or with the seat of this block; `older` is one that began before
 * it. */
struct msq_call {
    const msq_seat *seats, *end;
    void *queue;
    const void *block;
    struct msq_call *older;
};

#if defined(MSQ_THREAD_SANITIZER)
void __tsan_acquire(void *at);
void __tsan_release(void *at);
void __tsan_write_range(void *at, long bytes);
#elif defined(MSQ_DEBUG)
/* All calls that run, behind a lock: one list for the program, whichever of its files define it. */
struct msq_calls {
    bool locked;
    struct msq_call *newest;
};
__attribute__((weak)) struct msq_calls msq_running = {false, NULL};
#endif

#ifdef __cplusplus
}
#endif

MSQ_BEGIN

/* The name of a full seat's queue: the first word of its block, which is a pointer to the queue; none of an empty one. */
MSQ_INLINE void *msq_queue_of(const msq_seat *seat) {
    return seat->full ? *(void *const *)seat->at : NULL;
}

#if defined(MSQ_DEBUG) && !defined(MSQ_THREAD_SANITIZER)

/* Whether a call that runs, up to this one, uses one of these places, or a seat of one of them from another place. */
MSQ_INLINE bool msq_is_used(const struct msq_call *newest, const msq_seat *seats, const msq_seat *end) {
    for (; newest != NULL; newest = newest->older) {
        if (newest->seats < end && seats < newest->end) {
            return true;
        }
        for (const msq_seat *one = seats; one < end; one++) {
            if (one->full && newest->block == one->at) {
                return true;
            }
        }
    }
    return false;
}

MSQ_INLINE void msq_lock_calls(void) {
    while (__atomic_test_and_set(&msq_running.locked, __ATOMIC_ACQUIRE)) {
    }
}

#endif

/* Begins a call: whether no other one uses these seats. Without MSQ_DEBUG and the thread sanitizer it at most looks for dropped
 * ones. The thread sanitizer is told: what was done before a call began is seen after each call of its queue that ends later, as
 * all accesses are SeqCst. One that is the last may free the seat's block and the queue, which name others before it ends. */
MSQ_INLINE bool msq_begin(struct msq_call *call, msq_seat *seats, size_t seats_len, bool is_last) {
    bool is_used = false;
    call->queue = NULL;
#if defined(MSQ_THREAD_SANITIZER)
    __tsan_write_range(seats, (long)(seats_len * sizeof *seats));
    for (size_t k = 0; k < seats_len; k++) {
        if (seats[k].full) {
            __tsan_write_range(seats[k].at, 1);
        }
    }
    call->queue = seats_len > 0 ? msq_queue_of(seats) : NULL;
    if (call->queue != NULL) {
        __tsan_release(call->queue);
    }
    if (call->queue != NULL && is_last) {
        __tsan_acquire(call->queue);
        call->queue = NULL;
    }
#elif defined(MSQ_DEBUG)
    call->seats = seats;
    call->end = seats + seats_len;
    msq_lock_calls();
    is_used = msq_is_used(msq_running.newest, seats, call->end);
    if (!is_used) {
        call->block = seats_len == 1 && seats->full && !is_last ? seats->at : NULL;
        call->older = msq_running.newest;
        msq_running.newest = call;
    }
    __atomic_clear(&msq_running.locked, __ATOMIC_RELEASE);
#endif
#if defined(MSQ_ADDRESS_SANITIZER)
    for (size_t k = 0; k < seats_len && !is_used; k++) {
        if (seats[k].full) {
            (void)*(const volatile char *)seats[k].at;
        }
    }
#endif
    (void)seats, (void)seats_len, (void)is_last;
    return !is_used;
}

/* Ends a call that has begun. */
MSQ_INLINE void msq_end(struct msq_call *call) {
#if defined(MSQ_THREAD_SANITIZER)
    if (call->queue != NULL) {
        __tsan_acquire(call->queue);
    }
#elif defined(MSQ_DEBUG)
    struct msq_call **place = &msq_running.newest;
    msq_lock_calls();
    while (*place != call) {
        place = &(*place)->older;
    }
    *place = call->older;
    __atomic_clear(&msq_running.locked, __ATOMIC_RELEASE);
#endif
    (void)call;
}

/* Whether the full ones of these seats are of one queue. */
MSQ_INLINE bool msq_of_one_queue(const msq_seat *seats, size_t seats_len) {
    void *queue = NULL;
    for (size_t k = 0; k < seats_len; k++) {
        if (seats[k].full && queue != NULL && msq_queue_of(&seats[k]) != queue) {
            return false;
        }
        queue = seats[k].full ? msq_queue_of(&seats[k]) : queue;
    }
    return true;
}

/* What a call by these seats answers. */
#define MSQ_BY_SEATS(seats, count, call)                                                                               \
    struct msq_call around;                                                                                            \
    uint32_t code;                                                                                                     \
    if (!msq_begin(&around, (msq_seat *)(void *)(seats), count, false)) {                                              \
        return MSQ_TWO_CALLS;                                                                                          \
    }                                                                                                                  \
    code = call;                                                                                                       \
    msq_end(&around);                                                                                                  \
    return code;

/* The calls that values of each width have: their names with `width`, the first ones with `tries`; what a push gets, a pop
 * writes. */
#define MSQ_CALLS_OF(width, tries, seat_of, given, item)                                                               \
    MSQ_NODISCARD MSQ_INLINE uint32_t msq_checked_##width##create(uint32_t kind, uint32_t nodes, uint64_t limit,       \
                                                                  const uint8_t *roles, size_t roles_len,              \
                                                                  seat_of *seats, size_t seats_len) {                  \
        MSQ_BY_SEATS(seats, seats_len, msq_##width##create(kind, nodes, limit, roles, roles_len, seats, seats_len))    \
    }                                                                                                                  \
    MSQ_NODISCARD MSQ_INLINE uint32_t msq_checked_##width##push(seat_of *seat, given value, uint32_t turns) {          \
        MSQ_BY_SEATS(seat, 1, msq_##tries##push(seat, value, turns))                                                   \
    }                                                                                                                  \
    MSQ_NODISCARD MSQ_INLINE uint32_t msq_checked_##width##pop(seat_of *seat, uint32_t turns, item *out) {             \
        MSQ_BY_SEATS(seat, 1, msq_##tries##pop(seat, turns, out))                                                      \
    }                                                                                                                  \
    MSQ_NODISCARD MSQ_INLINE uint32_t msq_checked_##width##shut(seat_of *seat, uint32_t turns) {                       \
        MSQ_BY_SEATS(seat, 1, msq_##tries##shut(seat, turns))                                                          \
    }                                                                                                                  \
    MSQ_NODISCARD MSQ_INLINE uint32_t msq_checked_##width##emptiness(seat_of *seat) {                                  \
        MSQ_BY_SEATS(seat, 1, msq_##width##emptiness(seat))                                                            \
    }                                                                                                                  \
    MSQ_NODISCARD MSQ_INLINE uint32_t msq_checked_##width##len(seat_of *seat, msq_length *length) {                    \
        MSQ_BY_SEATS(seat, 1, msq_##width##len(seat, length))                                                          \
    }                                                                                                                  \
    /* A seat has already met itself. */                                                                               \
    MSQ_INLINE uint32_t msq_checked_##width##meet(seat_of *one, seat_of *other) {                                      \
        msq_seat *first = (msq_seat *)(void *)one, *second = (msq_seat *)(void *)other;                                \
        struct msq_call around, beside;                                                                                \
        uint32_t code = MSQ_TWO_CALLS;                                                                                 \
        if (!msq_begin(&around, first, 1, false)) {                                                                    \
            return code;                                                                                               \
        }                                                                                                              \
        if (first == second) {                                                                                         \
            code = first->full ? MSQ_OK : MSQ_NO_SEAT;                                                                 \
        } else if (msq_begin(&beside, second, 1, false)) {                                                             \
            code = MSQ_TWO_QUEUES;                                                                                     \
            if (!first->full || !second->full || msq_queue_of(first) == msq_queue_of(second)) {                        \
                code = msq_##width##meet(one, other);                                                                  \
            }                                                                                                          \
            msq_end(&beside);                                                                                          \
        }                                                                                                              \
        msq_end(&around);                                                                                              \
        return code;                                                                                                   \
    }                                                                                                                  \
    MSQ_NODISCARD MSQ_INLINE uint32_t msq_checked_##width##close(seat_of *seats, size_t seats_len, item *left,         \
                                                                 size_t left_len, msq_rest *rest) {                    \
        msq_seat *all = (msq_seat *)(void *)seats;                                                                     \
        struct msq_call around;                                                                                        \
        uint32_t code = MSQ_TWO_QUEUES;                                                                                \
        if (!msq_begin(&around, all, seats_len, true)) {                                                               \
            return MSQ_TWO_CALLS;                                                                                      \
        }                                                                                                              \
        if (msq_of_one_queue(all, seats_len)) {                                                                        \
            code = msq_##width##close(seats, seats_len, left, left_len, rest);                                         \
        }                                                                                                              \
        msq_end(&around);                                                                                              \
        return code;                                                                                                   \
    }                                                                                                                  \
    /* With MSQ_DEBUG it drops nothing where another call uses the seat. */                                            \
    MSQ_INLINE void msq_checked_##width##drop(seat_of *seat) {                                                         \
        struct msq_call around;                                                                                        \
        if (msq_begin(&around, (msq_seat *)(void *)seat, 1, true)) {                                                   \
                msq_##width##drop(seat);                                                                                   \
            msq_end(&around);                                                                                          \
        }                                                                                                              \
    }

MSQ_CALLS_OF(, try_, msq_seat, uint64_t, msq_value)

/* Those that numbers alone have. */
MSQ_NODISCARD MSQ_INLINE uint32_t msq_checked_push_all(msq_seat *seat, const uint64_t *bodies, size_t bodies_len,
                                                       uint32_t turns, size_t *pushed) {
    *pushed = 0;
    MSQ_BY_SEATS(seat, 1, msq_push_all(seat, bodies, bodies_len, turns, pushed))
}
MSQ_NODISCARD MSQ_INLINE uint32_t msq_checked_pop_up_to(msq_seat *seat, uint32_t turns, msq_value *values, size_t values_len,
                                                        size_t *popped) {
    *popped = 0;
    MSQ_BY_SEATS(seat, 1, msq_pop_up_to(seat, turns, values, values_len, popped))
}
MSQ_INLINE uint32_t msq_checked_keep_nodes(msq_seat *seat, bool keeps) {
    MSQ_BY_SEATS(seat, 1, msq_keep_nodes(seat, keeps))
}
MSQ_NODISCARD MSQ_INLINE uint32_t msq_checked_left(msq_seat *seat, msq_remaining *left) {
    MSQ_BY_SEATS(seat, 1, msq_left(seat, left))
}

MSQ_END

#define msq_create(...) msq_checked_create(__VA_ARGS__)
#define msq_try_push(...) msq_checked_push(__VA_ARGS__)
#define msq_try_pop(...) msq_checked_pop(__VA_ARGS__)
#define msq_try_shut(...) msq_checked_shut(__VA_ARGS__)
#define msq_push_all(...) msq_checked_push_all(__VA_ARGS__)
#define msq_pop_up_to(...) msq_checked_pop_up_to(__VA_ARGS__)
#define msq_keep_nodes(...) msq_checked_keep_nodes(__VA_ARGS__)
#define msq_emptiness(...) msq_checked_emptiness(__VA_ARGS__)
#define msq_len(...) msq_checked_len(__VA_ARGS__)
#define msq_left(...) msq_checked_left(__VA_ARGS__)
#define msq_meet(...) msq_checked_meet(__VA_ARGS__)
#define msq_close(...) msq_checked_close(__VA_ARGS__)
#define msq_drop(...) msq_checked_drop(__VA_ARGS__)

#endif
