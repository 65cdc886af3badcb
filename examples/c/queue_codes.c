/* What each call of a queue of pointers answers, in each case that it has a code for. Prints how many answers were as they should be. */
#define _DEFAULT_SOURCE

#include "msq_queue.h"

#include <pthread.h>
#include <stdio.h>
#include <time.h>
#include <unistd.h>

#define MILLISECOND 1000000

static unsigned right, wrong;

static void expect(const char *what, uint64_t found, uint64_t due) {
    if (found == due) {
        right++;
    } else {
        wrong++;
        fprintf(stderr, "queue_codes: %s: %llu, and not %llu\n", what, (unsigned long long)found, (unsigned long long)due);
    }
}

static int objects[100];
static size_t freed; /* how many were left, and came in order */

static void count_one(void *object, void *first) {
    freed += object == (int *)first + freed;
}

/* A queue of a kind with room for so many objects, of which one call at a time may be under way. */
static msq_queue *made(msq_kind kind, size_t capacity) {
    msq_queue *queue = NULL;
    expect("a queue", msq_queue_new_of(&queue, kind, capacity, 1, count_one, objects), MSQ_OK);
    return queue;
}

static void sizes_have_their_ranges(msq_kind kind) {
    msq_queue *queue = NULL;
    expect("no room", msq_queue_new_of(&queue, kind, 0, 1, NULL, NULL), MSQ_BAD_SIZE);
    expect("too many calls", msq_queue_new_of(&queue, kind, 1, INT16_MAX + 1, NULL, NULL), MSQ_BAD_SIZE);
    expect("too much room", msq_queue_new_of(&queue, kind, SIZE_MAX, 1, NULL, NULL), MSQ_BAD_SIZE);
    expect("too many nodes", msq_queue_new_of(&queue, kind, UINT32_MAX, 1, NULL, NULL), MSQ_BAD_SIZE);
    expect("no such kind", msq_queue_new_of(&queue, (msq_kind)3, 1, 1, NULL, NULL), MSQ_BAD_SIZE);
    expect("nothing is written", queue == NULL, true);
    expect("most calls", msq_queue_new_of(&queue, kind, 1, INT16_MAX, NULL, NULL), MSQ_OK);
    expect("so many", queue->calls, INT16_MAX);
    msq_queue_unref(queue);
    msq_queue_unref(NULL);
}

/* As many calls at once as fit the room, where nobody says how many, and as many threads with handles as half of it. */
static void calls_fit_the_room(msq_kind kind) {
    msq_queue *queue = NULL;
    for (size_t capacity = 1; capacity < 40; capacity++) {
        expect("a queue", msq_queue_new_of(&queue, kind, capacity, 0, NULL, NULL), MSQ_OK);
        expect("its calls", queue->calls, capacity < 14 ? capacity + 2 : 16);
        expect("its owners", queue->owned, capacity < 32 ? capacity / 2 : 16);
        msq_queue_unref(queue);
    }
    for (unsigned calls = 1; calls < 200; calls += 9) {
        expect("a queue", msq_queue_new_of(&queue, kind, 1000, calls, NULL, NULL), MSQ_OK);
        expect("its calls", queue->calls, calls);
        expect("its owners", queue->owned, calls < MSQ_OWNERS ? calls : MSQ_OWNERS);
        msq_queue_unref(queue);
    }
    expect("most calls", msq_queue_new_of(&queue, kind, 1000, INT16_MAX, NULL, NULL), MSQ_OK);
    expect("no owner beside them", queue->owned, 0);
    msq_queue_unref(queue);
}

/* Room is what was asked for: full there, and never above. */
static void room_is_exact(msq_kind kind, size_t capacity) {
    msq_queue *queue = made(kind, capacity);
    void *object = NULL;
    expect("its room", msq_queue_capacity(queue), capacity);
    for (size_t turn = 0; turn < 5; turn++) {
        for (size_t k = 0; k < capacity; k++) {
            expect("its length", msq_queue_len(queue), k);
            expect("a push", msq_queue_try_push(queue, &objects[k]), MSQ_OK);
        }
        expect("it is full", msq_queue_try_push(queue, objects), MSQ_FULL);
        expect("its length", msq_queue_len(queue), capacity);
        for (size_t k = 0; k < capacity; k++) {
            expect("a pop", msq_queue_try_pop(queue, &object), MSQ_OK);
            expect("in order", object == &objects[k], true);
        }
        expect("it is empty", msq_queue_try_pop(queue, &object), MSQ_EMPTY);
    }
    msq_queue_unref(queue);
}

static void a_time_is_told(msq_kind kind) {
    msq_queue *queue = made(kind, 2);
    void *object = queue;
    struct timespec now;
    clock_gettime(CLOCK_MONOTONIC, &now);
    expect("a pop for some time", msq_queue_pop_for(queue, &object, MILLISECOND), MSQ_TIMED_OUT);
    expect("until now", msq_queue_pop_until(queue, &object, &now), MSQ_TIMED_OUT);
    expect("for none", msq_queue_pop_for(queue, &object, 0), MSQ_TIMED_OUT);
    expect("nothing is written", object == queue, true);
    expect("a push for some time", msq_queue_push_for(queue, &objects[0], MILLISECOND), MSQ_OK);
    expect("until now", msq_queue_push_until(queue, &objects[1], &now), MSQ_OK);
    expect("beside no room", msq_queue_push_for(queue, objects, MILLISECOND), MSQ_TIMED_OUT);
    expect("until now", msq_queue_push_until(queue, objects, &now), MSQ_TIMED_OUT);
    expect("a pop for some time", msq_queue_pop_for(queue, &object, MILLISECOND), MSQ_OK);
    expect("until now", msq_queue_pop_until(queue, &object, &now), MSQ_OK);
    expect("the second one", object == &objects[1], true);
    msq_queue_unref(queue);
}

/* A call that finds each handle taken, as one within another call does: a try is busy, and what has a time is late. */
static void calls_are_busy(msq_kind kind) {
    msq_queue *queue = made(kind, 2);
    void *object = queue;
    struct msq_place *own = msq_take(queue), *place = msq_take(queue);
    expect("its own handle", own == queue->places, true);
    expect("a push by the other one", msq_queue_try_push(queue, objects), MSQ_BUSY);
    msq_give(place);
    expect("a push by the other one", msq_queue_try_push(queue, objects), MSQ_OK);
    expect("a pop by it", msq_queue_try_pop(queue, &object), MSQ_OK);
    object = queue;
    expect("the other one", msq_take(queue) == place && place == queue->places + 1, true);
    expect("a push", msq_queue_try_push(queue, objects), MSQ_BUSY);
    expect("a pop", msq_queue_try_pop(queue, &object), MSQ_BUSY);
    expect("a push for some time", msq_queue_push_for(queue, objects, MILLISECOND), MSQ_TIMED_OUT);
    expect("a pop for some time", msq_queue_pop_for(queue, &object, MILLISECOND), MSQ_TIMED_OUT);
    expect("nothing is written", object == queue, true);
    msq_give(own);
    msq_give(place);
    expect("a push", msq_queue_try_push(queue, objects), MSQ_OK);
    msq_queue_unref(queue);
}

/* A library that was made by itself has a list of its own: threads that call a queue by another one's list own none of its handles. */
static void another_list_has_other_threads(msq_kind kind) {
    static const uintptr_t another[MSQ_OWNERS];
    msq_queue *queue = made(kind, 2);
    struct msq_place *place = msq_take(queue);
    expect("this one's", place == queue->places, true);
    msq_give(place);
    queue->list = another;
    place = msq_take(queue);
    expect("another one's", place == queue->places + 1, true);
    expect("no further one", msq_take(queue) == NULL, true);
    msq_give(place);
    msq_queue_unref(queue);
}

/* More threads than have numbers push each its own object and pop one, many times; some stay, and others come and go. */
enum { STAYING = 80, VISITS = 40, TIMES = 100 };

static void *push_and_pop(void *given) {
    msq_queue *queue = (msq_queue *)given;
    for (size_t k = 0; k < TIMES; k++) {
        void *object = NULL;
        if (msq_queue_push(queue, &queue) != MSQ_OK || msq_queue_pop(queue, &object) != MSQ_OK || object == NULL) {
            return NULL;
        }
    }
    return given;
}

static bool joins(pthread_t thread) {
    void *done = NULL;
    return pthread_join(thread, &done) == 0 && done != NULL;
}

static void threads_come_and_go(msq_kind kind, unsigned calls) {
    msq_queue *queue = NULL;
    pthread_t threads[STAYING], visitor;
    size_t done = 0;
    expect("a queue", msq_queue_new_of(&queue, kind, 2 * STAYING, calls, NULL, NULL), MSQ_OK);
    for (size_t k = 0; k < STAYING; k++) {
        expect("a thread", (uint64_t)pthread_create(&threads[k], NULL, push_and_pop, queue), 0);
    }
    for (size_t k = 0; k < VISITS; k++) {
        expect("a thread", (uint64_t)pthread_create(&visitor, NULL, push_and_pop, queue), 0);
        done += joins(visitor);
    }
    for (size_t k = 0; k < STAYING; k++) {
        done += joins(threads[k]);
    }
    expect("each thread is done", done, STAYING + VISITS);
    expect("nothing is left", msq_queue_len(queue), 0);
    msq_queue_unref(queue);
}

static void a_closed_queue_is_told(msq_kind kind) {
    msq_queue *queue = made(kind, 2);
    void *object = NULL;
    expect("a push", msq_queue_push(queue, &objects[0]), MSQ_OK);
    expect("a second one", msq_queue_push(queue, &objects[1]), MSQ_OK);
    expect("it is open", msq_queue_is_closed(queue), false);
    msq_queue_close(queue);
    msq_queue_close(queue);
    expect("it is closed", msq_queue_is_closed(queue), true);
    expect("a try beside no room", msq_queue_try_push(queue, objects), MSQ_CLOSED);
    expect("a push beside no room", msq_queue_push(queue, objects), MSQ_CLOSED);
    expect("for some time", msq_queue_push_for(queue, objects, MILLISECOND), MSQ_CLOSED);
    expect("what is there stays", msq_queue_pop(queue, &object), MSQ_OK);
    expect("in order", object == &objects[0], true);
    expect("a push beside room", msq_queue_push(queue, objects), MSQ_CLOSED);
    expect("the last one", msq_queue_try_pop(queue, &object), MSQ_OK);
    expect("a try", msq_queue_try_pop(queue, &object), MSQ_CLOSED);
    expect("a pop", msq_queue_pop(queue, &object), MSQ_CLOSED);
    expect("for some time", msq_queue_pop_for(queue, &object, MILLISECOND), MSQ_CLOSED);
    expect("nothing is written", object == &objects[1], true);
    msq_queue_unref(queue);
}

static void what_is_left_is_freed(msq_kind kind) {
    msq_queue *queue = made(kind, 100);
    freed = 0;
    for (size_t k = 0; k < 100; k++) {
        expect("a push", msq_queue_push(queue, &objects[k]), MSQ_OK);
    }
    expect("a reference more", msq_queue_ref(queue) == queue, true);
    msq_queue_unref(queue);
    expect("none was freed", freed, 0);
    msq_queue_unref(queue);
    expect("all were freed", freed, 100);
}

static void pointers_have_their_range(msq_kind kind) {
    msq_queue *queue = made(kind, 1);
    void *above = (void *)((uintptr_t)1 << 48), *object = queue;
    expect("a try", msq_queue_try_push(queue, above), MSQ_BAD_SIZE);
    expect("a push", msq_queue_push(queue, above), MSQ_BAD_SIZE);
    expect("nothing was pushed", msq_queue_len(queue), 0);
    expect("NULL", msq_queue_push(queue, NULL), MSQ_OK);
    expect("comes back", msq_queue_pop(queue, &object), MSQ_OK);
    expect("as it was", object == NULL, true);
    msq_queue_unref(queue);
}

static void one_of_several_is_done(msq_kind kind) {
    msq_queue *one = made(kind, 1), *other = made(kind, 2);
    msq_case cases[] = {{one, MSQ_FOR_OBJECTS, NULL, MSQ_OK}, {other, MSQ_FOR_ROOM, &objects[1], MSQ_OK}};
    msq_case far = {one, MSQ_FOR_ROOM, (void *)((uintptr_t)1 << 48), MSQ_OK};
    expect("a try of a pop", (uint64_t)msq_select(cases, 1, 0), (uint64_t)-1);
    expect("for some time", (uint64_t)msq_select(cases, 1, MILLISECOND), (uint64_t)-1);
    expect("of two", (uint64_t)msq_select(cases, 2, MSQ_FOREVER), 1);
    expect("which was done", cases[1].code, MSQ_OK);
    expect("its room", msq_queue_len(other), 1);
    expect("a push", msq_queue_push(one, &objects[0]), MSQ_OK);
    expect("the first of two", (uint64_t)msq_select(cases, 2, 0), 0);
    expect("its object", cases[0].object == &objects[0], true);
    msq_queue_close(one);
    expect("a closed one", (uint64_t)msq_select(cases, 2, MSQ_FOREVER), 0);
    expect("as told", cases[0].code, MSQ_CLOSED);
    expect("a pointer too far", (uint64_t)msq_select(&far, 1, MSQ_FOREVER), (uint64_t)-1);
    expect("as told", far.code, MSQ_BAD_SIZE);
    expect("too many cases", (uint64_t)msq_select(cases, MSQ_MOST_CASES + 1, 0), (uint64_t)-1);
    expect("none", (uint64_t)msq_select(cases, 0, 0), (uint64_t)-1);
    expect("no further push", msq_queue_len(other), 1);
    msq_queue_unref(one);
    msq_queue_unref(other);
}

/* Pushes an object into this queue: whether it found that somebody listens. */
static bool push_wakes(msq_queue *queue) {
    struct msq_place *place = msq_take_once_free(queue);
    struct msq_going push;
    bool wakes = false;
    msq_start(&push, MSQ_PUSHES, true, (uintptr_t)objects);
    for (msq_step(queue, &place->share, &push, true); push.act.what != MSQ_TELL; msq_step(queue, &place->share, &push, true)) {
        if (push.act.what == MSQ_WAKE) {
            wakes = true;
            msq_wake(queue, &push.act);
        }
    }
    msq_give(place);
    return wakes;
}

static void *select_first(void *given) {
    msq_case *cases = (msq_case *)given;
    expect("the first of two", (uint64_t)msq_select(cases, 2, MSQ_FOREVER), 0);
    return NULL;
}

/* A case that isn't done listens no more, and so takes no wake from another call. Whether the select listened in this time is told. */
static bool a_case_is_given_up(msq_kind kind, unsigned milliseconds) {
    msq_queue *one = made(kind, 1), *other = made(kind, 1);
    msq_case cases[] = {{one, MSQ_FOR_OBJECTS, NULL, MSQ_OK}, {other, MSQ_FOR_OBJECTS, NULL, MSQ_OK}};
    pthread_t thread;
    bool listens;
    expect("a thread", (uint64_t)pthread_create(&thread, NULL, select_first, cases), 0);
    usleep(1000 * milliseconds);
    listens = push_wakes(one);
    pthread_join(thread, NULL);
    expect("its object", cases[0].object == objects, true);
    expect("nobody listens", push_wakes(other), false);
    msq_queue_unref(one);
    msq_queue_unref(other);
    return listens;
}

/* Who is to sleep doesn't, where the bell rang since it looked; with a stop beside it or without. */
static void a_ring_ends_a_sleep(msq_kind kind, const uint32_t *stop) {
    const struct timespec until = msq_moment_in((uint64_t)1000 * MILLISECOND);
    msq_queue *queue = made(kind, 1);
    struct msq_going pop;
    msq_start(&pop, MSQ_POPS, false, 0);
    do {
        msq_go_on(queue, &pop, false);
    } while (pop.act.what != MSQ_SLEEP);
    expect("a push", msq_queue_push(queue, objects), MSQ_OK);
    msq_sleep(&pop.act, &until, stop);
    expect("no sleep", msq_is_past(&until), false);
    msq_finish(queue, &pop, NULL, NULL);
    expect("a pop", msq_answer(&pop), MSQ_OK);
    expect("its object", pop.word, (uintptr_t)objects);
    msq_queue_unref(queue);
}

/* A queue whose words count up to the limit 1 tells that it is worn, and what pops don't give of it is freed. */
static void a_worn_queue_is_told(msq_kind kind) {
    msq_queue *queue = NULL;
    void *object;
    size_t pushed = 0, popped = 0;
    msq_code code = MSQ_OK;
    expect("a queue", msq_queue_open(&queue, kind, 8, 1, 1, false, count_one, objects), MSQ_OK);
    while (pushed < 100 && (code = msq_queue_try_push(queue, &objects[pushed])) == MSQ_OK) {
        pushed++;
        if (pushed % 2 == 0 && (code = msq_queue_try_pop(queue, &object)) == MSQ_OK) {
            expect("in order", object == &objects[popped++], true);
        }
    }
    expect("a push of a worn queue", code, MSQ_WORN);
    expect("some were pushed", pushed > 0 && pushed < 100, true);
    expect("it counts as closed", msq_queue_is_closed(queue), true);
    expect("a push that waits", msq_queue_push(queue, objects), MSQ_WORN);
    expect("for some time", msq_queue_push_for(queue, objects, MILLISECOND), MSQ_WORN);
    while ((code = msq_queue_pop(queue, &object)) == MSQ_OK) {
        expect("in order", object == &objects[popped++], true);
    }
    expect("a pop of a worn queue", code, MSQ_WORN);
    freed = popped;
    msq_queue_unref(queue);
    expect("each was popped or freed", freed, pushed);
}

/* Whether a descriptor is readable, which it then isn't any more. */
static bool is_readable(int fd) {
    uint64_t count;
    return read(fd, &count, sizeof count) == (ssize_t)sizeof count;
}

/* A descriptor tells of each object, or room, and of a close, and takes no wake from a call. */
static void descriptors_tell(msq_kind kind) {
    msq_queue *queue = made(kind, 1);
    const int objects_come = msq_queue_fd(queue, MSQ_FOR_OBJECTS), room_comes = msq_queue_fd(queue, MSQ_FOR_ROOM);
    void *object = NULL;
    expect("two descriptors", objects_come >= 0 && room_comes >= 0 && objects_come != room_comes, true);
    expect("the same again", (uint64_t)msq_queue_fd(queue, MSQ_FOR_OBJECTS), (uint64_t)objects_come);
    expect("readable at first", is_readable(objects_come) && is_readable(room_comes), true);
    expect("and no more", is_readable(objects_come) || is_readable(room_comes), false);
    expect("a push", msq_queue_push(queue, objects), MSQ_OK);
    expect("it is told", is_readable(objects_come) && !is_readable(room_comes), true);
    expect("a pop", msq_queue_pop(queue, &object), MSQ_OK);
    expect("it is told", is_readable(room_comes) && !is_readable(objects_come), true);
    msq_queue_close(queue);
    expect("a close is told to both", is_readable(objects_come) && is_readable(room_comes), true);
    msq_queue_unref(queue);
}

int main(void) {
    const uint32_t no_stop = 0;
    for (uint32_t kind = MSQ_NON_BLOCKING; kind <= MSQ_RING; kind++) {
        sizes_have_their_ranges((msq_kind)kind);
        for (size_t capacity = 1; capacity < 10; capacity++) {
            room_is_exact((msq_kind)kind, capacity);
        }
        a_time_is_told((msq_kind)kind);
        calls_are_busy((msq_kind)kind);
        another_list_has_other_threads((msq_kind)kind);
        for (unsigned calls = 1; calls <= 100; calls *= 10) {
            threads_come_and_go((msq_kind)kind, calls);
        }
        a_closed_queue_is_told((msq_kind)kind);
        what_is_left_is_freed((msq_kind)kind);
        pointers_have_their_range((msq_kind)kind);
        calls_fit_the_room((msq_kind)kind);
        one_of_several_is_done((msq_kind)kind);
        for (unsigned milliseconds = 1; !a_case_is_given_up((msq_kind)kind, milliseconds);) {
            milliseconds *= 2;
        }
        a_ring_ends_a_sleep((msq_kind)kind, NULL);
        a_ring_ends_a_sleep((msq_kind)kind, &no_stop);
        a_worn_queue_is_told((msq_kind)kind);
        descriptors_tell((msq_kind)kind);
    }
    printf("%u answers as they should be, %u not\n", right, wrong);
    return wrong != 0;
}
