/* Two calls at one time on one seat, or on it and a copy, are told. With MSQ_DEBUG by a code: two threads push by one seat, and it
 * prints how many of their values came. Else the thread sanitizer reports two calls that nothing orders, of a seat and of its copy.
 *
 *     misuse copy: the calls are of a seat and of its copy.
 *     misuse stale: a copy of a seat that was dropped makes a call, which the address sanitizer reports.
 *     misuse null: a call has NULL in place of a seat, which ends the program by a signal, and the address sanitizer reports. */
#include "msq_words.h"

#include <pthread.h>
#include <sched.h>
#include <stdatomic.h>
#include <stdio.h>
#include <string.h>

#define VALUES 100000

static msq_seat seats[2];
static atomic_int others; /* how many calls were refused, or made; relaxed, so that it orders nothing */
static unsigned wrong;

static void expect(const char *what, uint64_t found, uint64_t due) {
    if (found != due) {
        wrong++;
        fprintf(stderr, "misuse: %s: %llu, and not %llu\n", what, (unsigned long long)found, (unsigned long long)due);
    }
}

static void create(void) {
    const uint8_t roles[] = {MSQ_GIVER, MSQ_TAKER};
    expect("create", msq_create(MSQ_NON_BLOCKING, 1024, MSQ_MOST_COUNT, roles, 2, seats, 2), MSQ_OK);
}

/* A copy of a seat makes a call after that was dropped. */
static int use_a_stale_copy(void) {
    create();
    msq_seat copy = seats[0];
    msq_drop(&seats[0]);
    expect("a push", msq_try_push(&copy, 1, 8), MSQ_OK);
    return 0;
}

/* A call without the address of a seat. */
static int use_null(void) {
    msq_seat *volatile none = NULL;
    expect("a push", msq_try_push(none, 1, 8), MSQ_OK);
    return 0;
}

#ifdef MSQ_DEBUG

/* Each call, while another one uses the seat. */
static void each_call_is_refused(void) {
    const uint8_t role[] = {MSQ_BOTH};
    const uint64_t bodies = 1;
    msq_seat empty = {0};
    msq_value value = {7, 7};
    msq_length length = {9, 9};
    msq_remaining left = {9, 9, 9, 9};
    msq_rest rest;
    struct msq_call call;
    size_t count = 9;
    expect("the other call", msq_begin(&call, &seats[0], 1, false), true);
    expect("a push", msq_try_push(&seats[0], 1, 8), MSQ_TWO_CALLS);
    expect("a pop", msq_try_pop(&seats[0], 8, &value), MSQ_TWO_CALLS);
    expect("a shut", msq_try_shut(&seats[0], 8), MSQ_TWO_CALLS);
    expect("a push of many", msq_push_all(&seats[0], &bodies, 1, 8, &count), MSQ_TWO_CALLS);
    expect("none", count, 0);
    count = 9;
    expect("a pop of many", msq_pop_up_to(&seats[0], 8, &value, 1, &count), MSQ_TWO_CALLS);
    expect("none", count, 0);
    expect("to keep nodes", msq_keep_nodes(&seats[0], true), MSQ_TWO_CALLS);
    expect("a look", msq_emptiness(&seats[0]), MSQ_TWO_CALLS);
    expect("a length", msq_len(&seats[0], &length), MSQ_TWO_CALLS);
    expect("what is left", msq_left(&seats[0], &left), MSQ_TWO_CALLS);
    expect("nothing is written", value.body + length.least + left.pushes, 7 + 9 + 9);
    expect("a meeting", msq_meet(&seats[0], &seats[1]), MSQ_TWO_CALLS);
    expect("a meeting, the other way round", msq_meet(&seats[1], &seats[0]), MSQ_TWO_CALLS);
    expect("a close", msq_close(seats, 2, &value, 1, &rest), MSQ_TWO_CALLS);
    msq_drop(&seats[0]);
    expect("a drop", seats[0].full, true);
    expect("another seat", msq_try_pop(&seats[1], 8, &value), MSQ_EMPTY);
    msq_end(&call);
    expect("the other call", msq_begin(&call, &empty, 1, false), true);
    expect("create", msq_create(MSQ_TWO_LOCK, 4, 1, role, 1, &empty, 1), MSQ_TWO_CALLS);
    msq_end(&call);
    expect("the other call", msq_begin(&call, &seats[1], 1, false), true);
    expect("a close by it as the second seat", msq_close(seats, 2, &value, 1, &rest), MSQ_TWO_CALLS);
    expect("the first seat", msq_try_pop(&seats[0], 8, &value), MSQ_NO_ROLE);
    msq_end(&call);
    expect("a meeting with itself", msq_meet(&seats[0], &seats[0]), MSQ_OK);
}

/* The same of a queue of words. */
static void each_call_of_words_is_refused(void) {
    const uint8_t roles[] = {MSQ_GIVER, MSQ_TAKER};
    const msq_words words = {{1, 2, 3}};
    msq_words_seat two[2] = {{{0}}, {{0}}};
    msq_item item = {{{7, 7, 7}}, 7};
    msq_length length = {9, 9};
    msq_rest rest;
    struct msq_call call;
    expect("create", msq_words_create(MSQ_NON_BLOCKING, 8, MSQ_MOST_COUNT, roles, 2, two, 2), MSQ_OK);
    expect("the other call", msq_begin(&call, &two[0].seat, 1, false), true);
    expect("a push", msq_words_push(&two[0], &words, 8), MSQ_TWO_CALLS);
    expect("a pop", msq_words_pop(&two[0], 8, &item), MSQ_TWO_CALLS);
    expect("a shut", msq_words_shut(&two[0], 8), MSQ_TWO_CALLS);
    expect("a look", msq_words_emptiness(&two[0]), MSQ_TWO_CALLS);
    expect("a length", msq_words_len(&two[0], &length), MSQ_TWO_CALLS);
    expect("nothing is written", item.from + length.least, 7 + 9);
    expect("a meeting", msq_words_meet(&two[0], &two[1]), MSQ_TWO_CALLS);
    expect("a meeting, the other way round", msq_words_meet(&two[1], &two[0]), MSQ_TWO_CALLS);
    expect("a close", msq_words_close(two, 2, &item, 1, &rest), MSQ_TWO_CALLS);
    msq_words_drop(&two[0]);
    expect("a drop", two[0].seat.full, true);
    expect("another seat", msq_words_pop(&two[1], 8, &item), MSQ_EMPTY);
    msq_end(&call);
    expect("a close", msq_words_close(two, 2, &item, 1, &rest), MSQ_OK);
}

/* Each call by a copy of a seat that another call uses. */
static void copies_are_refused(void) {
    msq_seat copies[2] = {seats[0], seats[1]};
    msq_value value = {7, 7};
    msq_rest rest;
    struct msq_call call;
    expect("the other call", msq_begin(&call, &seats[0], 1, false), true);
    expect("a push", msq_try_push(&copies[0], 1, 8), MSQ_TWO_CALLS);
    expect("a look", msq_emptiness(&copies[0]), MSQ_TWO_CALLS);
    expect("a meeting", msq_meet(&copies[1], &copies[0]), MSQ_TWO_CALLS);
    expect("a close", msq_close(copies, 2, &value, 1, &rest), MSQ_TWO_CALLS);
    msq_drop(&copies[0]);
    expect("a drop", copies[0].full, true);
    expect("another seat's copy", msq_try_pop(&copies[1], 8, &value), MSQ_EMPTY);
    msq_end(&call);
    expect("behind it", msq_try_push(&copies[0], 1, 8), MSQ_OK);
    expect("and the seat", msq_try_pop(&seats[1], 8, &value), MSQ_OK);
}

/* Pushes by the one seat until so many values went; counts those that went, and the calls that were refused. */
static void *push_all(void *given) {
    uint64_t *pushed = given;
    while (*pushed < VALUES) {
        uint32_t code = msq_try_push(&seats[0], *pushed, 8);
        if (code == MSQ_OK) {
            ++*pushed;
        } else if (code == MSQ_NO_NODE || code == MSQ_TWO_CALLS) {
            atomic_fetch_add_explicit(&others, code == MSQ_TWO_CALLS, memory_order_relaxed);
            sched_yield();
        } else if (code != MSQ_BUSY) {
            wrong++;
            break;
        }
    }
    return NULL;
}

/* Two threads push by one seat: each value comes, and refusals are told. */
static void threads_are_refused(void) {
    pthread_t ids[2];
    msq_value value;
    uint64_t pushed[2] = {0}, popped = 0;
    for (unsigned k = 0; k < 2; k++) {
        pthread_create(&ids[k], NULL, push_all, &pushed[k]);
    }
    while (popped < 2 * VALUES && wrong == 0) {
        popped += msq_try_pop(&seats[1], 8, &value) == MSQ_OK;
    }
    for (unsigned k = 0; k < 2; k++) {
        pthread_join(ids[k], NULL);
    }
    expect("values", popped, pushed[0] + pushed[1]);
    printf("%llu values of %d came, with %d calls refused\n", (unsigned long long)popped, 2 * VALUES, atomic_load(&others));
}

int main(int count, char **arguments) {
    if (count == 2 && strcmp(arguments[1], "stale") == 0) {
        return use_a_stale_copy();
    }
    if (count == 2 && strcmp(arguments[1], "null") == 0) {
        return use_null();
    }
    create();
    each_call_is_refused();
    each_call_of_words_is_refused();
    copies_are_refused();
    threads_are_refused();
    msq_drop(&seats[0]);
    msq_drop(&seats[1]);
    return wrong != 0;
}

#else

static msq_seat copy;

/* One call of this seat, or of its copy, each, one after the other, with nothing that orders them. */
static void *push_one(void *given) {
    while (atomic_load_explicit(&others, memory_order_relaxed) != *(const int *)given) {
        sched_yield();
    }
    expect("a push", msq_try_push(*(const int *)given == 0 && copy.full ? &copy : &seats[0], 1, 8), MSQ_OK);
    atomic_fetch_add_explicit(&others, 1, memory_order_relaxed);
    return NULL;
}

int main(int count, char **arguments) {
    pthread_t ids[2];
    static int turns[2] = {0, 1};
    if (count == 2 && strcmp(arguments[1], "stale") == 0) {
        return use_a_stale_copy();
    }
    if (count == 2 && strcmp(arguments[1], "null") == 0) {
        return use_null();
    }
    create();
    if (count == 2 && strcmp(arguments[1], "copy") == 0) {
        copy = seats[0];
    }
    for (unsigned k = 0; k < 2; k++) {
        pthread_create(&ids[k], NULL, push_one, &turns[k]);
    }
    for (unsigned k = 0; k < 2; k++) {
        pthread_join(ids[k], NULL);
    }
    msq_drop(&seats[0]);
    msq_drop(&seats[1]);
    return wrong != 0;
}

#endif
