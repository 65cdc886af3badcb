/*
 * Calls that may wait, step by step: what msq_queue.h, and what C++ and Rust have in its place, stand on.
 *
 * A call is stepped by the library, which touches the queue and tells what is to be done before the next step: to let others run,
 * to sleep on a word unless it has changed, or to wake who sleeps on it. A step has a handle to itself. So the handles of a queue
 * lie in a table: the first ones are owned by threads, and of the others a call takes a free one; each is given back before the
 * call sleeps. This table and the sleep are all that isn't proved of a call.
 */
#ifndef MSQ_CALLS_H
#define MSQ_CALLS_H

#include "msq_codes.h"

#include <linux/futex.h>
#include <pthread.h>
#include <sched.h>
#include <stdlib.h>
#include <sys/syscall.h>

#ifdef __cplusplus
#include <time.h>
#include <unistd.h>
extern "C" {
#else
extern int clock_gettime(int clock, struct timespec *now); /* time.h and unistd.h name these not to each standard */
extern long syscall(long number, ...);
#endif

/* A handle of a queue of pointers, and of one of three words. All zeros are an empty one. */
typedef struct msq_share { void *at; bool full; } msq_share;
typedef struct msq_words_share { msq_share share; } msq_words_share;

/* A call between two steps, by the library's numbers. */
typedef struct msq_waiting_call {
    uint64_t word, heard;
    uint8_t task, phase, then, code, looks;
    bool tries, woken, last, rings_values, rings_room, rings_all;
} msq_waiting_call;

/* What is to be done before the next step, and the code of one that tells. The system compares the low half of the word. */
typedef struct msq_act {
    uint32_t what, code;
    uint64_t *word;
    uint32_t heard, many;
} msq_act;

enum msq_what { MSQ_TELL = 0, MSQ_YIELD = 1, MSQ_SLEEP = 2, MSQ_WAKE = 3 };
enum msq_found { MSQ_DONE = 0, MSQ_NOTHING = 1, MSQ_IN_THE_WAY = 2, MSQ_ENDED = 3, MSQ_WORE_OUT = 4 };
enum msq_task { MSQ_PUSHES = 0, MSQ_POPS = 1, MSQ_SHUTS = 2, MSQ_ENDS_SENDER = 3, MSQ_ENDS_RECEIVER = 4 };

/* Makes a queue of a kind with room for exactly so many values, 1 or more, and fills these handles, 65,535 at most, or 32,767 of
 * MSQ_RING. Each of its sides has one end. MSQ_OK, MSQ_IN_USE where a handle is full, MSQ_BAD_SIZE or MSQ_MEMORY. */
MSQ_NODISCARD uint32_t msq_shares_create(uint32_t kind, uint32_t capacity, uint64_t limit, msq_share *shares, size_t shares_len);

/* Begins a call of a task with a word, by a handle, and makes its first steps. One that tries never waits, and is in one piece.
 * The word is then what the call has: what a pop popped, or what a push that isn't done keeps. Where `act` tells, the call is
 * over, and `call` isn't written. MSQ_OK, MSQ_NO_SEAT, or MSQ_BAD_SIZE where there is no such task or the word is from 2^48 on:
 * then nothing is written. */
MSQ_NODISCARD uint32_t msq_share_begin(msq_share *share, uint8_t task, bool tries, uint64_t *word, msq_waiting_call *call,
                                       msq_act *act);

/* Makes the next steps of a call; `past` is whether its time is. MSQ_OK, MSQ_NO_SEAT, or MSQ_BAD_SIZE where it is no call. */
uint32_t msq_call_step(msq_share *share, msq_waiting_call *call, bool past, msq_act *act);

/* Gives a call up that is to sleep, or to let others run: it is stepped until it tells, without a sleep. MSQ_OK or MSQ_BAD_SIZE. */
uint32_t msq_call_give_up(msq_waiting_call *call);

/* How many values the queue holds, never more than it has room for. MSQ_OK or MSQ_NO_SEAT. */
uint32_t msq_share_len(msq_share *share, uint64_t *len);

/* One more listens for good, for what calls of this task wait for, and never sleeps: `act` has the word of its bell, which calls
 * are then told to wake. MSQ_OK, MSQ_NO_SEAT, or MSQ_BAD_SIZE of a task that waits for nothing. */
MSQ_NODISCARD uint32_t msq_share_listen(msq_share *share, uint8_t task, msq_act *act);

/* Ends the queue of these handles, which are all of it, and empties them: the values left, from the front, go to `values`, as
 * many as have room there. MSQ_OK; MSQ_NO_SEAT where a handle is empty, MSQ_BAD_SIZE where there is none, MSQ_IN_USE of a ring
 * with further ones, MSQ_MEMORY, or MSQ_RACED where another handle has a share: all are empty then. Refused, it writes nothing. */
MSQ_NODISCARD uint32_t msq_shares_close(msq_share *shares, size_t shares_len, msq_value *values, size_t values_len, msq_rest *rest);

/* Drops a handle, which is empty afterwards. With the last one the queue's memory is freed. */
void msq_share_drop(msq_share *share);

/* Those of queues of three words are as those of pointers. The words of a call lie in its caller's memory from begin to end:
 * what a push pushes, or what a pop popped; else they stay. Its `word` is 0, and msq_call_give_up gives it up. */
MSQ_NODISCARD uint32_t msq_words_shares_create(uint32_t kind, uint32_t capacity, uint64_t limit, msq_words_share *shares,
                                               size_t shares_len);
MSQ_NODISCARD uint32_t msq_words_share_begin(msq_words_share *share, uint8_t task, bool tries, msq_words *words,
                                             msq_waiting_call *call, msq_act *act);
uint32_t msq_words_call_step(msq_words_share *share, msq_words *words, msq_waiting_call *call, bool past, msq_act *act);
uint32_t msq_words_share_len(msq_words_share *share, uint64_t *len);
MSQ_NODISCARD uint32_t msq_words_share_listen(msq_words_share *share, uint8_t task, msq_act *act);
MSQ_NODISCARD uint32_t msq_words_shares_close(msq_words_share *shares, size_t shares_len, msq_item *items, size_t items_len,
                                              msq_rest *rest);
void msq_words_share_drop(msq_words_share *share);

#if defined(MSQ_THREAD_SANITIZER)
void __tsan_acquire(void *at);
void __tsan_release(void *at);
#endif

/* A handle, and whether a call has it: so far apart that two lie in lines of the cache of their own. */
struct msq_place {
    msq_share share;
    bool taken;
    char apart[64 - sizeof(msq_share) - sizeof(bool)];
};

/* A descriptor that is written to where this word is rung, and one more than it; 0 is none. */
struct msq_watch { uint64_t *word; int more; };

/* What is done with an object that is left at the end, with the context that the caller gave. */
typedef void (*msq_free_one)(void *object, void *context);

/* How many threads have numbers, at most, and these threads, each by its identity, which one that ends leaves to whoever gets it
 * next: a list for a program, and for each shared library. */
#define MSQ_OWNERS 64
__attribute__((weak, visibility("hidden"))) uintptr_t msq_owners[MSQ_OWNERS] = {0};

/* A queue, of pointers or of three words: its handles, those that threads own, by their numbers in a list, before those that calls
 * lease, and the descriptors of those that wait for room, and for values. What is in it is its own. */
typedef struct msq_queue {
    struct msq_place *places;
    const uintptr_t *list;
    size_t owned, calls, capacity, references;
    struct msq_watch watches[2];
    bool is_closed, is_wide;
    msq_free_one free_one;
    void *context;
} msq_queue;

#ifdef __cplusplus
}
#endif

#define MSQ_FOREVER UINT64_MAX /* a time that is never over */

MSQ_BEGIN

/* The moment in so many nanoseconds, by CLOCK_MONOTONIC. */
MSQ_INLINE struct timespec msq_moment_in(uint64_t ns) {
    struct timespec moment = {0, 0};
    clock_gettime(1, &moment);
    moment.tv_nsec += (long)(ns % 1000000000);
    moment.tv_sec += (time_t)(ns / 1000000000) + moment.tv_nsec / 1000000000;
    moment.tv_nsec %= 1000000000;
    return moment;
}

/* Whether there is such a moment, and it is past. */
MSQ_INLINE bool msq_is_past(const struct timespec *until) {
    struct timespec now;
    if (until == NULL) {
        return false;
    }
    now = msq_moment_in(0);
    return now.tv_sec > until->tv_sec || (now.tv_sec == until->tv_sec && now.tv_nsec >= until->tv_nsec);
}

/* The number of this thread, its place in the list; MSQ_OWNERS where that is full. */
MSQ_INLINE size_t msq_number(void) {
    static __thread size_t above; /* one above it */
    if (above == 0) {
        const uintptr_t me = (uintptr_t)pthread_self();
        size_t k = 0;
        for (uintptr_t who = 0; k < MSQ_OWNERS; k++, who = 0) {
            if (__atomic_compare_exchange_n(&msq_owners[k], &who, me, false, __ATOMIC_SEQ_CST, __ATOMIC_SEQ_CST) || who == me) {
                break;
            }
        }
        above = k + 1;
    }
    return above - 1;
}

/* Takes a handle that is free: this thread's own, which no other thread takes, unless a call of its has it already; else one of
 * those that are leased. NULL where none is. */
MSQ_INLINE struct msq_place *msq_take(const msq_queue *queue) {
    const size_t number = msq_number();
    size_t k;
    if (number < queue->owned && queue->list == msq_owners) {
        struct msq_place *own = &queue->places[number];
        if (!__atomic_load_n(&own->taken, __ATOMIC_ACQUIRE)) {
            __atomic_store_n(&own->taken, true, __ATOMIC_RELAXED);
            return own;
        }
    }
    k = (uint32_t)((uintptr_t)pthread_self() >> 12) * UINT32_C(2654435769) * (uint64_t)queue->calls >> 32; /* far from others' */
    for (size_t looked = 0; looked < queue->calls; looked++) {
        struct msq_place *place = &queue->places[queue->owned + k];
        if (!__atomic_load_n(&place->taken, __ATOMIC_RELAXED) && !__atomic_exchange_n(&place->taken, true, __ATOMIC_ACQUIRE)) {
            return place;
        }
        k = k + 1 < queue->calls ? k + 1 : 0;
    }
    return NULL;
}

/* Takes a handle once one is free. */
MSQ_INLINE struct msq_place *msq_take_once_free(const msq_queue *queue) {
    struct msq_place *place;
    while ((place = msq_take(queue)) == NULL) {
        sched_yield();
    }
    return place;
}

MSQ_INLINE void msq_give(struct msq_place *place) {
    __atomic_store_n(&place->taken, false, __ATOMIC_RELEASE);
}

/* Makes a descriptor readable. */
MSQ_INLINE void msq_signal(const struct msq_watch *watch) {
    const uint64_t once = 1;
    syscall(SYS_write, (long)__atomic_load_n(&watch->more, __ATOMIC_SEQ_CST) - 1, &once, (long)sizeof once);
}

/* Wakes so many that sleep on a word, and tells who watches it. */
MSQ_INLINE void msq_wake(const msq_queue *queue, const msq_act *act) {
    syscall(SYS_futex, act->word, (long)FUTEX_WAKE_PRIVATE, (long)act->many, NULL, NULL, 0L);
    for (size_t k = 0; k < 2; k++) {
        if (__atomic_load_n(&queue->watches[k].word, __ATOMIC_SEQ_CST) == act->word) {
            msq_signal(&queue->watches[k]);
        }
    }
}

/* A word of those on which a thread sleeps at one time, as the system has it. */
struct msq_sleep_word { uint64_t heard, word; uint32_t flags, none; };

MSQ_INLINE struct msq_sleep_word msq_sleep_word_of(uint32_t heard, const void *word) {
    const struct msq_sleep_word made = {heard, (uintptr_t)word, 2 | FUTEX_PRIVATE_FLAG, 0}; /* 2: it has 32 bits */
    return made;
}

/* Sleeps unless one of these words has changed since it was heard, until a wake or this moment, if there is one. */
MSQ_INLINE void msq_sleep_on(const struct msq_sleep_word *words, size_t count, const struct timespec *until) {
    /* futex_waitv, which older headers don't name; before Linux 5.16 there is none */
    if (syscall(449, words, (long)count, 0L, until, 1L) < 0) {
        sched_yield();
    }
}

/* The same on the word of a call; also until `stop`, if there is one, isn't 0, and a wake of it. */
MSQ_INLINE void msq_sleep(const msq_act *act, const struct timespec *until, const uint32_t *stop) {
    if (stop != NULL) {
        const struct msq_sleep_word words[] = {msq_sleep_word_of(act->heard, act->word), msq_sleep_word_of(0, stop)};
        msq_sleep_on(words, 2, until);
    } else {
        syscall(SYS_futex, act->word, (long)FUTEX_WAIT_BITSET_PRIVATE, (long)act->heard, until, NULL, (long)FUTEX_BITSET_MATCH_ANY);
    }
}

/* Stops the calls that have this word: they end as those whose time is over. */
MSQ_INLINE void msq_stop(uint32_t *stop) {
    __atomic_store_n(stop, 1, __ATOMIC_SEQ_CST);
    syscall(SYS_futex, stop, (long)FUTEX_WAKE_PRIVATE, (long)INT32_MAX, NULL, NULL, 0L);
}

/* A call under way: its word or words, what is to be done before its next step, and whether it has made one. */
struct msq_going {
    uint64_t word;
    msq_words words;
    uint8_t task;
    bool tries, begun;
    msq_waiting_call call;
    msq_act act;
};

MSQ_INLINE void msq_start(struct msq_going *it, uint8_t task, bool tries, uint64_t word) {
    it->word = word;
    it->task = task;
    it->tries = tries;
    it->begun = false;
    it->act.what = MSQ_YIELD;
}

/* Makes the next steps of a call by a handle of its queue. */
MSQ_INLINE void msq_step(const msq_queue *queue, msq_share *share, struct msq_going *it, bool past) {
    msq_words_share *wide = (msq_words_share *)(void *)share;
    if (queue->is_wide && it->begun) {
        (void)msq_words_call_step(wide, &it->words, &it->call, past, &it->act);
    } else if (queue->is_wide) {
        it->begun = msq_words_share_begin(wide, it->task, it->tries, &it->words, &it->call, &it->act) == MSQ_OK;
    } else if (it->begun) {
        (void)msq_call_step(share, &it->call, past, &it->act);
        it->word = it->call.word;
    } else {
        it->begun = msq_share_begin(share, it->task, it->tries, &it->word, &it->call, &it->act) == MSQ_OK;
    }
}

/* Steps a call by a free handle until it is to sleep, lets others run, or tells; on the way it wakes whom it is to wake. Where
 * no handle is free it lets others run; if its time was over before its first step, it tells that they were in the way. */
MSQ_INLINE void msq_go_on(const msq_queue *queue, struct msq_going *it, bool past) {
    struct msq_place *place = msq_take(queue);
    if (place == NULL) {
        it->act.what = past && !it->begun ? MSQ_TELL : MSQ_YIELD;
        it->act.code = MSQ_IN_THE_WAY;
        return;
    }
#if defined(MSQ_THREAD_SANITIZER)
    __tsan_release(queue->places);
#endif
    for (msq_step(queue, &place->share, it, past); it->act.what == MSQ_WAKE; msq_step(queue, &place->share, it, past)) {
        msq_wake(queue, &it->act);
    }
#if defined(MSQ_THREAD_SANITIZER)
    __tsan_acquire(queue->places);
#endif
    msq_give(place);
}

/* Lets others go on that are in the way: it spins, longer each time, and lets them run after that. */
MSQ_INLINE void msq_back_off(unsigned *times) {
    if (*times >= 12) {
        sched_yield();
        return;
    }
    for (unsigned k = 0; k < 1u << (*times < 6 ? *times : 6); k++) {
        __builtin_ia32_pause();
    }
    ++*times;
}

/* Makes a call to its end that has begun: it sleeps until then, or until this moment, or a stop, if there is one. */
MSQ_INLINE void msq_finish(const msq_queue *queue, struct msq_going *it, const struct timespec *until, const uint32_t *stop) {
    unsigned times = 0;
    while (it->act.what != MSQ_TELL) {
        if (it->act.what == MSQ_SLEEP) {
            msq_sleep(&it->act, until, stop);
            times = 0;
        } else {
            msq_back_off(&times);
        }
        msq_go_on(queue, it, it->tries || msq_is_past(until) || (stop != NULL && __atomic_load_n(stop, __ATOMIC_SEQ_CST) != 0));
    }
}

/* What a call that tells has found: MSQ_OK, MSQ_EMPTY, of a push too where there is no room, MSQ_BUSY, MSQ_CLOSED or MSQ_WORN. */
MSQ_INLINE msq_code msq_answer(const struct msq_going *it) {
    static const msq_code answers[] = {MSQ_OK, MSQ_EMPTY, MSQ_BUSY, MSQ_CLOSED, MSQ_WORN};
    return answers[it->act.code];
}

/* Makes a push or a pop, which tries first, and then waits, if it is to. */
MSQ_INLINE msq_code msq_make(const msq_queue *queue, struct msq_going *it, bool waits, const struct timespec *until,
                             const uint32_t *stop) {
    msq_go_on(queue, it, true);
    msq_finish(queue, it, NULL, NULL);
    if (waits && (it->act.code == MSQ_NOTHING || it->act.code == MSQ_IN_THE_WAY)) {
        msq_start(it, it->task, false, it->word);
        msq_go_on(queue, it, false);
        msq_finish(queue, it, until, stop);
    }
    return msq_answer(it);
}

MSQ_END

#endif
