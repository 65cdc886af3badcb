/*
 * A queue of pointers for any threads, which share it by its address: first in, first out, with room for exactly as many as are
 * asked for. It is counted: msq_queue_ref makes a reference more, and with the last msq_queue_unref it is freed. A thread that
 * calls it has a reference, or knows of one that stays meanwhile.
 *
 * Of each call there are four: one that waits as long as it takes, a try that never waits, and two with a time. A try tells EMPTY,
 * FULL or BUSY; what has a time tells MSQ_TIMED_OUT, whatever was in the way. MSQ_CLOSED tells that the queue was closed, to a pop
 * once it is empty too; MSQ_WORN that the counts of its words are at their limit, which of MSQ_RING takes 2^62 pushes, and of the
 * others 2^47. What isn't done leaves the object with the caller.
 *
 * An object that was pushed is popped once; those of one thread come in its order. A pointer is below 2^48, as each address of a
 * program on x86-64 Linux is that asks for none above. No call is made by a signal handler, or in a forked child.
 *
 * That nobody sleeps on beside what it waits for is proved of the steps of a call; the table and the sleep around them, in
 * msq_calls.h, are tested.
 */
#ifndef MSQ_QUEUE_H
#define MSQ_QUEUE_H

#include "msq_calls.h"

/* A side of a queue: who waits for an object, or for room. */
typedef enum msq_side { MSQ_FOR_OBJECTS = MSQ_POPS, MSQ_FOR_ROOM = MSQ_PUSHES } msq_side;

/* A push of an object, or a pop, of which one of several is to be done; `code` is what it answered. */
typedef struct msq_case {
    msq_queue *queue;
    msq_side side;
    void *object;
    msq_code code;
} msq_case;

/* How many calls of further threads may be under way at one moment where nothing else is said, and the cases of one msq_select. */
#define MSQ_CALLS_AT_ONCE 16
#define MSQ_MOST_CASES 64
/* The greatest limit, which asks for as much as a queue can have. */
#define MSQ_MOST (((uint64_t)1 << 62) - 1)

MSQ_BEGIN

/* A new queue, whose words count up to a limit. Its handles are made at the front of their places, and then put apart. */
MSQ_NODISCARD MSQ_INLINE msq_code msq_queue_open(msq_queue **queue, msq_kind kind, size_t capacity, unsigned calls, uint64_t limit,
                                                 bool is_wide, msq_free_one free_one, void *context) {
    const size_t leased = calls > 0 ? calls : capacity < MSQ_CALLS_AT_ONCE - 2 ? capacity + 2 : MSQ_CALLS_AT_ONCE;
    const size_t most = leased < MSQ_OWNERS ? leased : MSQ_OWNERS, few = capacity / 2 < most ? capacity / 2 : most;
    const size_t owned = leased + few > INT16_MAX ? 0 : few, count = owned + leased;
    msq_queue *made = (msq_queue *)calloc(1, sizeof *made);
    struct msq_place *places = (struct msq_place *)calloc(count, sizeof *places);
    msq_share *shares = (msq_share *)(void *)places;
    msq_code code = MSQ_MEMORY;
    if (capacity > UINT32_MAX || count > INT16_MAX) {
        code = MSQ_BAD_SIZE;
    } else if (made != NULL && places != NULL && is_wide) {
        code = (msq_code)msq_words_shares_create((uint32_t)kind, (uint32_t)capacity, limit, (msq_words_share *)(void *)shares, count);
    } else if (made != NULL && places != NULL) {
        code = (msq_code)msq_shares_create((uint32_t)kind, (uint32_t)capacity, limit, shares, count);
    }
    if (code != MSQ_OK) {
        free(places);
        free(made);
        return code;
    }
    for (size_t k = count; k-- > 0;) {
        const struct msq_place place = {shares[k], false, {0}};
        places[k] = place;
    }
    const msq_queue filled = {places, msq_owners, owned, leased, capacity, 1, {{NULL, 0}, {NULL, 0}}, false, is_wide, free_one, context};
    *made = filled;
    *queue = made;
    return MSQ_OK;
}

/* What a call answers that has a time, or none, or whose try found nothing so. */
MSQ_INLINE msq_code msq_told(msq_queue *queue, msq_code code, bool has_time, msq_code nothing) {
    if (code == MSQ_CLOSED || code == MSQ_WORN) {
        __atomic_store_n(&queue->is_closed, true, __ATOMIC_RELAXED);
    }
    if (has_time && (code == MSQ_EMPTY || code == MSQ_BUSY)) {
        return MSQ_TIMED_OUT;
    }
    return code == MSQ_EMPTY ? nothing : code;
}

/* A push up to this moment, or a stop, if there is one. */
MSQ_INLINE msq_code msq_queue_put(msq_queue *queue, void *object, bool tries, const struct timespec *until, const uint32_t *stop) {
    struct msq_going push;
    if ((uint64_t)(uintptr_t)object >> 48 != 0) {
        return MSQ_BAD_SIZE;
    }
    msq_start(&push, MSQ_PUSHES, true, (uintptr_t)object);
    return msq_told(queue, msq_make(queue, &push, !tries, until, stop), until != NULL || stop != NULL, MSQ_FULL);
}

/* A pop up to this moment, or a stop, if there is one. */
MSQ_INLINE msq_code msq_queue_get(msq_queue *queue, void **object, bool tries, const struct timespec *until, const uint32_t *stop) {
    struct msq_going pop;
    msq_code code;
    msq_start(&pop, MSQ_POPS, true, 0);
    code = msq_make(queue, &pop, !tries, until, stop);
    if (code == MSQ_OK) {
        *object = (void *)(uintptr_t)pop.word;
    }
    return msq_told(queue, code, until != NULL || stop != NULL, MSQ_EMPTY);
}

MSQ_INLINE void msq_queue_free_one(const msq_queue *queue, void *object) {
    if (queue->free_one != NULL) {
        queue->free_one(object, queue->context);
    }
}

/* Drops all handles, put together again. Of a list of pointers whose words are worn, they end the queue, and what no pop gives is
 * freed; where there is no memory for these objects, they are lost. */
MSQ_INLINE void msq_queue_drop(const msq_queue *queue, size_t left) {
    msq_share *shares = (msq_share *)(void *)queue->places;
    msq_value *values = left > 0 ? (msq_value *)calloc(left, sizeof *values) : NULL;
    const size_t count = queue->owned + queue->calls;
    msq_rest rest = {0, 0, false, false};
    for (size_t k = 1; k < count; k++) {
        shares[k] = queue->places[k].share;
    }
    if (values == NULL || msq_shares_close(shares, count, values, left, &rest) != MSQ_OK) {
        rest.left = 0;
    }
    for (size_t k = 0; k < count; k++) {
        if (queue->is_wide) {
            msq_words_share_drop((msq_words_share *)(void *)&shares[k]);
        } else {
            msq_share_drop(&shares[k]);
        }
    }
    for (size_t k = 0; k < left && k < rest.left; k++) {
        msq_queue_free_one(queue, (void *)(uintptr_t)values[k].body);
    }
    free(values);
}

/* Gives up the calls of all cases but this one: each hands on what it may have been woken for. */
MSQ_INLINE void msq_give_up_but(const msq_case *cases, struct msq_going *calls, size_t count, size_t done) {
    for (size_t k = 0; k < count; k++) {
        if (k != done && calls[k].begun && calls[k].act.what != MSQ_TELL) {
            (void)msq_call_give_up(&calls[k].call);
            calls[k].tries = true;
            msq_go_on(cases[k].queue, &calls[k], true);
            msq_finish(cases[k].queue, &calls[k], NULL, NULL);
        }
    }
}

/* Whether a call has an answer other than that its time was over: it is then that of its case. */
MSQ_INLINE bool msq_is_done(msq_case *one, const struct msq_going *it) {
    if (it->act.what != MSQ_TELL) {
        return false;
    }
    one->code = msq_told(one->queue, msq_answer(it), true, MSQ_TIMED_OUT);
    if (one->code == MSQ_OK && one->side == MSQ_FOR_OBJECTS) {
        one->object = (void *)(uintptr_t)it->word;
    }
    return one->code != MSQ_TIMED_OUT;
}

/* Steps the calls of all cases until one is done, which is told, or all are late: then it is as many as there are. */
MSQ_INLINE size_t msq_first_done(msq_case *cases, struct msq_going *calls, size_t count, const struct timespec *until, bool past) {
    for (unsigned times = 0;; past = past || msq_is_past(until)) {
        struct msq_sleep_word words[MSQ_MOST_CASES];
        size_t asleep = 0, late = 0;
        for (size_t k = 0; k < count; k++) {
            if (calls[k].act.what != MSQ_TELL) {
                msq_go_on(cases[k].queue, &calls[k], past);
            }
            if (msq_is_done(&cases[k], &calls[k])) {
                return k;
            }
            late += calls[k].act.what == MSQ_TELL;
            if (calls[k].act.what == MSQ_SLEEP) {
                words[asleep++] = msq_sleep_word_of(calls[k].act.heard, calls[k].act.word);
            }
        }
        if (late == count) {
            return count;
        }
        if (asleep == count) {
            msq_sleep_on(words, count, until);
            times = 0;
        } else {
            msq_back_off(&times);
        }
    }
}

/* A queue with room for exactly `capacity` objects, 1 or more, and one reference. What is left with the last reference goes to
 * free_one, from the front, unless that is NULL. The first is of a kind, and so many calls of it, up to 32,767, may be under way at
 * one moment beside those that sleep; further ones wait for these, or are told MSQ_BUSY. 0 is as many as the second one takes,
 * which is a ring: two more than it has room for, and MSQ_CALLS_AT_ONCE at most. Beside these the first threads that call any queue,
 * as many, up to 64 and half of the room, have a handle of their own. A handle takes some 280 bytes. MSQ_OK, MSQ_BAD_SIZE or
 * MSQ_MEMORY: refused, `queue` is as it was. */
MSQ_NODISCARD MSQ_INLINE msq_code msq_queue_new_of(msq_queue **queue, msq_kind kind, size_t capacity, unsigned calls,
                                                   msq_free_one free_one, void *context) {
    return msq_queue_open(queue, kind, capacity, calls, MSQ_MOST, false, free_one, context);
}
MSQ_NODISCARD MSQ_INLINE msq_code msq_queue_new(msq_queue **queue, size_t capacity, msq_free_one free_one, void *context) {
    return msq_queue_new_of(queue, MSQ_RING, capacity, 0, free_one, context);
}

/* The queue, with one reference more. */
MSQ_INLINE msq_queue *msq_queue_ref(msq_queue *queue) {
    __atomic_fetch_add(&queue->references, 1, __ATOMIC_RELAXED);
    return queue;
}

/* Pushes an object at the back. MSQ_OK, MSQ_CLOSED or MSQ_WORN, or MSQ_BAD_SIZE of a pointer from 2^48 on; the try also MSQ_FULL
 * or MSQ_BUSY, and those with a time MSQ_TIMED_OUT. The last one's moment is of CLOCK_MONOTONIC. */
MSQ_NODISCARD MSQ_INLINE msq_code msq_queue_push(msq_queue *queue, void *object) {
    return msq_queue_put(queue, object, false, NULL, NULL);
}
MSQ_NODISCARD MSQ_INLINE msq_code msq_queue_try_push(msq_queue *queue, void *object) {
    return msq_queue_put(queue, object, true, NULL, NULL);
}
MSQ_NODISCARD MSQ_INLINE msq_code msq_queue_push_for(msq_queue *queue, void *object, uint64_t ns) {
    const struct timespec until = msq_moment_in(ns);
    return msq_queue_put(queue, object, false, &until, NULL);
}
MSQ_NODISCARD MSQ_INLINE msq_code msq_queue_push_until(msq_queue *queue, void *object, const struct timespec *at) {
    return msq_queue_put(queue, object, false, at, NULL);
}

/* Pops the object at the front, which is written at MSQ_OK alone. MSQ_OK, MSQ_CLOSED or MSQ_WORN; the try also MSQ_EMPTY or
 * MSQ_BUSY, and those with a time MSQ_TIMED_OUT. */
MSQ_NODISCARD MSQ_INLINE msq_code msq_queue_pop(msq_queue *queue, void **object) {
    return msq_queue_get(queue, object, false, NULL, NULL);
}
MSQ_NODISCARD MSQ_INLINE msq_code msq_queue_try_pop(msq_queue *queue, void **object) {
    return msq_queue_get(queue, object, true, NULL, NULL);
}
MSQ_NODISCARD MSQ_INLINE msq_code msq_queue_pop_for(msq_queue *queue, void **object, uint64_t ns) {
    const struct timespec until = msq_moment_in(ns);
    return msq_queue_get(queue, object, false, &until, NULL);
}
MSQ_NODISCARD MSQ_INLINE msq_code msq_queue_pop_until(msq_queue *queue, void **object, const struct timespec *at) {
    return msq_queue_get(queue, object, false, at, NULL);
}

/* No more pushes: what is in the queue stays to be popped, and all that sleep are told. Of a closed queue nothing. */
MSQ_INLINE void msq_queue_close(msq_queue *queue) {
    struct msq_going shut;
    msq_start(&shut, MSQ_SHUTS, false, 0);
    msq_go_on(queue, &shut, false);
    msq_finish(queue, &shut, NULL, NULL);
    __atomic_store_n(&queue->is_closed, true, __ATOMIC_RELAXED);
}

/* Whether no push is done any more: a close is over, or a call was told MSQ_CLOSED or MSQ_WORN. */
MSQ_INLINE bool msq_queue_is_closed(const msq_queue *queue) {
    return __atomic_load_n(&queue->is_closed, __ATOMIC_RELAXED);
}

/* How many objects the queue holds, never more than its capacity; exact while no call is under way. */
MSQ_INLINE size_t msq_queue_len(const msq_queue *queue) {
    struct msq_place *place = msq_take_once_free(queue);
    uint64_t len = 0;
    (void)(queue->is_wide ? msq_words_share_len((msq_words_share *)(void *)&place->share, &len) : msq_share_len(&place->share, &len));
    msq_give(place);
    return (size_t)len;
}
MSQ_INLINE size_t msq_queue_capacity(const msq_queue *queue) {
    return queue->capacity;
}

/* One reference less; of NULL nothing. */
MSQ_INLINE void msq_queue_unref(msq_queue *queue) {
    void *object;
    msq_code code = MSQ_OK;
    if (queue == NULL || __atomic_fetch_sub(&queue->references, 1, __ATOMIC_ACQ_REL) != 1) {
        return;
    }
    while (!queue->is_wide && (code = msq_queue_get(queue, &object, true, NULL, NULL)) == MSQ_OK) {
        msq_queue_free_one(queue, object);
    }
    for (size_t k = 0; k < 2; k++) {
        if (queue->watches[k].more > 0) {
            syscall(SYS_close, (long)queue->watches[k].more - 1);
        }
    }
    msq_queue_drop(queue, code == MSQ_WORN ? msq_queue_len(queue) : 0);
    free(queue->places);
    free(queue);
}

/* A descriptor, of the queue, that is readable after an object came, or room, or the queue was closed, and at first: whoever
 * polls it reads its eight bytes and then tries until the queue is empty, or full. -1, and errno, where there can be none. */
MSQ_INLINE int msq_queue_fd(msq_queue *queue, msq_side side) {
    struct msq_watch *watch = &queue->watches[side];
    int more = __atomic_load_n(&watch->more, __ATOMIC_SEQ_CST), made;
    struct msq_place *place;
    msq_act act;
    if (more > 0) {
        return more - 1;
    }
    made = (int)syscall(SYS_eventfd2, 0L, 02004000L); /* it neither blocks, nor goes to another program */
    if (made < 0) {
        return made;
    }
    if (!__atomic_compare_exchange_n(&watch->more, &more, made + 1, false, __ATOMIC_SEQ_CST, __ATOMIC_SEQ_CST)) {
        syscall(SYS_close, (long)made);
        return more - 1;
    }
    place = msq_take_once_free(queue);
    if (msq_share_listen(&place->share, (uint8_t)side, &act) == MSQ_OK) {
        __atomic_store_n(&watch->word, act.word, __ATOMIC_SEQ_CST);
    }
    msq_give(place);
    msq_signal(watch); /* also for what was rung before the word was known */
    return made;
}

/* Does one of these cases, up to MSQ_MOST_CASES, and tells which, with its answer in its `code`: MSQ_OK, MSQ_CLOSED or MSQ_WORN.
 * It waits for so many nanoseconds at most: 0 tries each, and MSQ_FOREVER is as long as it takes. -1 where none was done in
 * time, or where there are more cases than that, or the `code` of one is MSQ_BAD_SIZE, whose pointer is from 2^48 on. Wants
 * Linux 5.16 to sleep; before that it yields. */
MSQ_NODISCARD MSQ_INLINE ptrdiff_t msq_select(msq_case *cases, size_t count, uint64_t ns) {
    const struct timespec until = msq_moment_in(ns);
    struct msq_going calls[MSQ_MOST_CASES];
    size_t done;
    if (count > MSQ_MOST_CASES) {
        return -1;
    }
    for (size_t k = 0; k < count; k++) {
        void *object = cases[k].side == MSQ_FOR_ROOM ? cases[k].object : NULL;
        cases[k].code = (uint64_t)(uintptr_t)object >> 48 == 0 ? MSQ_TIMED_OUT : MSQ_BAD_SIZE;
        if (cases[k].code == MSQ_BAD_SIZE) {
            return -1;
        }
        msq_start(&calls[k], (uint8_t)cases[k].side, ns == 0, (uintptr_t)object);
    }
    done = msq_first_done(cases, calls, count, ns == MSQ_FOREVER ? NULL : &until, ns == 0);
    msq_give_up_but(cases, calls, count, done);
    return done < count ? (ptrdiff_t)done : -1;
}

MSQ_END

#endif
