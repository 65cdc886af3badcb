/* What the calls that take memory answer where there is none: MSQ_MEMORY, and all stays as it was, so that the same call is done
 * once there is some. Each allocation of a call is refused in turn, for which the program is linked with --wrap of malloc, calloc,
 * realloc and free. And how much memory a queue takes. Prints how many were refused, and how many answers weren't as they should be. */
#include "msq_queue.h"
#include "msq_words.h"

#include <malloc.h>
#include <stdio.h>

void *__real_malloc(size_t size);
void *__real_calloc(size_t count, size_t size);
void *__real_realloc(void *old, size_t size);
void __real_free(void *old);
void *__wrap_malloc(size_t size);
void *__wrap_calloc(size_t count, size_t size);
void *__wrap_realloc(void *old, size_t size);
void __wrap_free(void *old);

static size_t taken;     /* how many bytes are taken, each block with one word for its length */
static long before = -1; /* how many allocations are done before the one that is refused; none is where it is below 0 */
static unsigned refused, wrong;

static bool is_refused(void) {
    return before >= 0 && before-- == 0;
}

/* Counts a block that is taken, or given back. */
static void *counted(void *block) {
    taken += block == NULL ? 0 : malloc_usable_size(block) + sizeof(size_t);
    return block;
}

static void *uncounted(void *block) {
    taken -= block == NULL ? 0 : malloc_usable_size(block) + sizeof(size_t);
    return block;
}

void *__wrap_malloc(size_t size) {
    return is_refused() ? NULL : counted(__real_malloc(size));
}

void *__wrap_calloc(size_t count, size_t size) {
    return is_refused() ? NULL : counted(__real_calloc(count, size));
}

void *__wrap_realloc(void *old, size_t size) {
    return is_refused() ? NULL : counted(__real_realloc(uncounted(old), size));
}

void __wrap_free(void *old) {
    __real_free(uncounted(old));
}

static void expect(const char *what, uint64_t found, uint64_t due) {
    if (found != due) {
        wrong++;
        fprintf(stderr, "memory: %s: %llu, and not %llu\n", what, (unsigned long long)found, (unsigned long long)due);
    }
}

/* The call is refused MSQ_MEMORY where one of its allocations is, each in turn, and then done. */
static void is_done_at_last(const char *what, uint32_t (*call)(uint32_t kind), uint32_t kind) {
    long allocations = 0;
    uint32_t code;
    for (;; allocations++) {
        before = allocations;
        code = call(kind);
        before = -1;
        if (code != MSQ_MEMORY) {
            break;
        }
        refused++;
    }
    expect(what, code, MSQ_OK);
    expect("an allocation at least", allocations > 0, true);
}

enum { VALUES = 3 };

static const uint8_t roles[] = {MSQ_BOTH, MSQ_BOTH};
static msq_seat seats[2];
static msq_words_seat word_seats[2];
static msq_value values[8];
static msq_item items[8];
static msq_rest rest;
static msq_queue *queue;
static int freed;

static uint32_t create(uint32_t kind) {
    return msq_create(kind, 8, MSQ_MOST_COUNT, roles, 2, seats, 2);
}

static uint32_t close_it(uint32_t kind) {
    (void)kind;
    return msq_close(seats, 2, values, sizeof values / sizeof *values, &rest);
}

static uint32_t create_words(uint32_t kind) {
    return msq_words_create(kind, 8, MSQ_MOST_COUNT, roles, 2, word_seats, 2);
}

static uint32_t close_words(uint32_t kind) {
    (void)kind;
    return msq_words_close(word_seats, 2, items, 8, &rest);
}

static void count_one(void *object, void *context) {
    (void)object, (void)context;
    freed++;
}

static uint32_t new_queue(uint32_t kind) {
    return msq_queue_new_of(&queue, (msq_kind)kind, 8, 2, count_one, NULL);
}

static void seats_with_numbers(uint32_t kind) {
    is_done_at_last("create", create, kind);
    for (uint64_t body = 0; body < VALUES; body++) {
        expect("a push", msq_try_push(&seats[0], body, 8), MSQ_OK);
    }
    is_done_at_last("close", close_it, kind);
    expect("what is left", rest.left, VALUES);
}

static void seats_with_words(uint32_t kind) {
    const msq_words words = {{1, 2, 3}};
    is_done_at_last("create", create_words, kind);
    for (int k = 0; k < VALUES; k++) {
        expect("a push", msq_words_push(&word_seats[0], &words, 8), MSQ_OK);
    }
    is_done_at_last("close", close_words, kind);
    expect("what is left", rest.left, VALUES);
}

/* Calls of a queue that was made take no memory: one that is refused would be wrong. */
static void queues_of_pointers(uint32_t kind) {
    void *object;
    is_done_at_last("new", new_queue, kind);
    before = 0;
    for (int k = 0; k < VALUES; k++) {
        expect("a push", msq_queue_push(queue, &freed), MSQ_OK);
    }
    expect("a pop", msq_queue_pop(queue, &object), MSQ_OK);
    freed = 0;
    msq_queue_unref(queue);
    expect("no allocation", (uint64_t)before, 0);
    before = -1;
    expect("each that is left is freed", (uint64_t)freed, VALUES - 1);
}

/* A queue with room for one takes at most two kilobytes, and gives all of it back. */
static void small_queues_are_small(uint32_t kind) {
    const size_t others = taken;
    expect("new", msq_queue_new_of(&queue, (msq_kind)kind, 1, 0, NULL, NULL), MSQ_OK);
    expect("two kilobytes", taken - others <= 2000, true);
    msq_queue_unref(queue);
    expect("none is left", taken, others);
}

int main(void) {
    for (uint32_t kind = MSQ_NON_BLOCKING; kind <= MSQ_RING; kind++) {
        seats_with_numbers(kind);
        queues_of_pointers(kind);
        small_queues_are_small(kind);
        if (kind != MSQ_RING) {
            seats_with_words(kind);
        }
    }
    printf("%u allocations were refused, and %u answers were not as they should be\n", refused, wrong);
    return wrong != 0;
}
