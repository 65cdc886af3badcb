/* What a seat can see of its queue: whether it is empty, how long it is, and how many pushes it has left. Prints how many answers
 * were as they should be. */
#include "msq.h"

#include <stdio.h>

static unsigned right, wrong;

static void expect(const char *what, uint64_t found, uint64_t due) {
    if (found == due) {
        right++;
    } else {
        wrong++;
        fprintf(stderr, "looks: %s: %llu, and not %llu\n", what, (unsigned long long)found, (unsigned long long)due);
    }
}

/* The length is so many, where it can be told. */
static void expect_length(uint32_t kind, msq_seat *seat, uint64_t due) {
    msq_length length = {9, 9};
    if (kind == MSQ_TWO_LOCK) {
        expect("a length that isn't counted", msq_len(seat, &length), MSQ_UNCOUNTED);
        expect("nothing is written", length.least + length.most, 18);
        return;
    }
    expect("a length", msq_len(seat, &length), MSQ_OK);
    expect("at least", length.least, due);
    expect("at most", length.most, due);
}

static void a_queue_is_seen(uint32_t kind) {
    const uint8_t roles[] = {MSQ_GIVER, MSQ_TAKER};
    msq_seat seats[2] = {0};
    msq_value value;
    msq_length length = {9, 9};
    msq_remaining left = {9, 9, 9, 9};
    expect("emptiness without a seat", msq_emptiness(&seats[0]), MSQ_NO_SEAT);
    expect("a length without a seat", msq_len(&seats[0], &length), MSQ_NO_SEAT);
    expect("what is left without a seat", msq_left(&seats[0], &left), MSQ_NO_SEAT);
    expect("nothing is written", length.least + length.most + left.pushes + left.free + left.tail + left.head, 54);
    expect("create", msq_create(kind, 8, MSQ_MOST_COUNT, roles, 2, seats, 2), MSQ_OK);
    for (int k = 0; k < 2; k++) {
        expect("a new queue", msq_emptiness(&seats[k]), MSQ_EMPTY);
        expect_length(kind, &seats[k], 0);
    }
    for (uint64_t body = 1; body <= 3; body++) {
        expect("a push", msq_try_push(&seats[0], body, 8), MSQ_OK);
        expect("a value", msq_emptiness(&seats[1]), MSQ_OK);
        expect_length(kind, &seats[1], body);
    }
    expect("a shut", msq_try_shut(&seats[0], 8), MSQ_OK);
    for (uint64_t body = 1; body <= 3; body++) {
        expect("a value in a shut queue", msq_emptiness(&seats[0]), MSQ_OK);
        expect_length(kind, &seats[0], 4 - body);
        expect("a pop", msq_try_pop(&seats[1], 8, &value), MSQ_OK);
        expect("its body", value.body, body);
    }
    expect("a queue that is shut and empty", msq_emptiness(&seats[1]), MSQ_CLOSED);
    expect_length(kind, &seats[1], 0);
    msq_drop(&seats[0]);
    msq_drop(&seats[1]);
}

/* With two nodes a push takes a node from the free list, but for the first one, and a pop gives one back. So a limit of 101 is
 * enough for 51 pushes; the last ones are told as none, as many as there are nodes. */
static void pushes_are_left(uint32_t kind) {
    const uint8_t roles[] = {MSQ_GIVER, MSQ_TAKER};
    msq_seat seats[2] = {0};
    msq_value value;
    msq_remaining left;
    expect("create", msq_create(kind, 2, 101, roles, 2, seats, 2), MSQ_OK);
    for (uint64_t done = 0; done <= 51; done++) {
        expect("what is left", msq_left(&seats[done % 2], &left), MSQ_OK);
        expect("pushes", left.pushes, done == 0 ? 49 : done < 50 ? 50 - done : 0);
        expect("of Free", left.free, done == 0 ? 101 : 102 - 2 * done);
        expect("of Tail", left.tail, kind == MSQ_TWO_LOCK ? 101 : 101 - done);
        expect("of Head", left.head, 101 - done);
        if (done < 51) {
            expect("a push", msq_try_push(&seats[0], done, 8), MSQ_OK);
            expect("a pop", msq_try_pop(&seats[1], 8, &value), MSQ_OK);
        }
    }
    expect("a push of a worn queue", msq_try_push(&seats[0], 1, 8), MSQ_WORN_FREE);
    msq_drop(&seats[0]);
    msq_drop(&seats[1]);
}

/* Each push raises the one word of a ring that wears. Its two slots take two of the 105 places that it has with room for two values and
 * a limit of 101. */
static void pushes_are_left_of_a_ring(void) {
    const uint8_t roles[] = {MSQ_GIVER, MSQ_TAKER};
    msq_seat seats[2] = {0};
    msq_value value;
    msq_remaining left;
    uint64_t done = 0;
    expect("create", msq_create(MSQ_RING, 2, 101, roles, 2, seats, 2), MSQ_OK);
    do {
        expect("what is left", msq_left(&seats[done % 2], &left), MSQ_OK);
        expect("pushes", left.pushes, done < 103 ? 103 - done : 0);
        expect("of Tail", left.tail, left.pushes);
        expect("of Free", left.free, UINT64_MAX);
        expect("of Head", left.head, UINT64_MAX);
        done += msq_try_push(&seats[0], done, 8) == MSQ_OK;
    } while (msq_try_pop(&seats[1], 8, &value) == MSQ_OK);
    expect("pushes", done, 103);
    expect("a push of a worn ring", msq_try_push(&seats[0], 1, 8), MSQ_WORN_TAIL);
    msq_drop(&seats[0]);
    msq_drop(&seats[1]);
}

/* Whatever the nodes and the limit: as many pushes as are left aren't refused, in rounds that fill the queue and empty it. */
static void so_many_are_done(uint32_t kind, uint32_t nodes, uint64_t limit) {
    const uint8_t roles[] = {MSQ_GIVER, MSQ_TAKER};
    msq_seat seats[2] = {0};
    msq_value value;
    msq_remaining left;
    expect("create", msq_create(kind, nodes, limit, roles, 2, seats, 2), MSQ_OK);
    do {
        expect("what is left", msq_left(&seats[0], &left), MSQ_OK);
        uint64_t room = left.pushes < nodes - 1 ? left.pushes : nodes - 1;
        for (uint64_t k = 0; k < room; k++) {
            expect("a push that is left", msq_try_push(&seats[0], k, 8), MSQ_OK);
        }
        for (uint64_t k = 0; k < room; k++) {
            expect("its pop", msq_try_pop(&seats[1], 8, &value), MSQ_OK);
        }
    } while (left.pushes > 0);
    msq_drop(&seats[0]);
    msq_drop(&seats[1]);
}

int main(void) {
    for (uint32_t kind = MSQ_NON_BLOCKING; kind <= MSQ_RING; kind++) {
        a_queue_is_seen(kind);
        if (kind == MSQ_RING) {
            pushes_are_left_of_a_ring();
        } else {
            pushes_are_left(kind);
        }
        for (uint32_t nodes = 2; nodes <= 6; nodes++) {
            for (uint64_t limit = 1; limit <= 60; limit++) {
                so_many_are_done(kind, nodes, limit);
            }
        }
    }
    printf("%u answers as they should be, %u not\n", right, wrong);
    return wrong != 0;
}
