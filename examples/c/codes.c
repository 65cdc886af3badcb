/* What each call answers that is refused, and what msq_close leaves. Prints how many answers were as they should be. */
#include "msq.h"

#include <stdio.h>
#include <string.h>

static unsigned right, wrong;

static void expect(const char *what, uint64_t found, uint64_t due) {
    if (found == due) {
        right++;
    } else {
        wrong++;
        fprintf(stderr, "codes: %s: %llu, and not %llu\n", what, (unsigned long long)found, (unsigned long long)due);
    }
}

static void calls_are_refused(uint32_t kind) {
    const uint8_t roles[] = {MSQ_GIVER, MSQ_TAKER};
    const uint8_t none[] = {MSQ_GIVER, 0};
    msq_seat seats[2] = {0};
    msq_value value = {7, 7};
    expect("a push without a seat", msq_try_push(&seats[0], 1, 8), MSQ_NO_SEAT);
    expect("a pop without a seat", msq_try_pop(&seats[0], 8, &value), MSQ_NO_SEAT);
    expect("a shut without a seat", msq_try_shut(&seats[0], 8), MSQ_NO_SEAT);
    expect("a meeting without seats", msq_meet(&seats[0], &seats[1]), MSQ_NO_SEAT);
    expect("no such kind", msq_create(3, 4, MSQ_MOST_COUNT, roles, 2, seats, 2), MSQ_BAD_SIZE);
    expect("no such role", msq_create(kind, 4, MSQ_MOST_COUNT, none, 2, seats, 2), MSQ_BAD_SIZE);
    expect("one node", msq_create(kind, 1, MSQ_MOST_COUNT, roles, 2, seats, 2), MSQ_BAD_SIZE);
    expect("a role less", msq_create(kind, 4, MSQ_MOST_COUNT, roles, 1, seats, 2), MSQ_BAD_SIZE);
    expect("create", msq_create(kind, 4, MSQ_MOST_COUNT, roles, 2, seats, 2), MSQ_OK);
    expect("create again", msq_create(kind, 4, MSQ_MOST_COUNT, roles, 2, seats, 2), MSQ_IN_USE);
    expect("a body of 2^48", msq_try_push(&seats[0], MSQ_BODIES, 8), MSQ_BAD_SIZE);
    expect("no turns", msq_try_push(&seats[0], 1, 0), MSQ_BAD_SIZE);
    expect("a taker pushes", msq_try_push(&seats[1], 1, 8), MSQ_NO_ROLE);
    expect("a giver pops", msq_try_pop(&seats[0], 8, &value), MSQ_NO_ROLE);
    expect("a taker shuts", msq_try_shut(&seats[1], 8), MSQ_NO_ROLE);
    expect("an empty queue", msq_try_pop(&seats[1], 8, &value), MSQ_EMPTY);
    expect("the value", value.body, 7);
    expect("a shut", msq_try_shut(&seats[0], 8), MSQ_OK);
    expect("a push behind it", msq_try_push(&seats[0], 1, 8), MSQ_CLOSED);
    expect("a pop behind it", msq_try_pop(&seats[1], 8, &value), MSQ_CLOSED);
    msq_drop(&seats[0]);
    msq_drop(&seats[0]);
    msq_drop(&seats[1]);
    expect("a push by a dropped seat", msq_try_push(&seats[0], 1, 8), MSQ_NO_SEAT);
}

static void a_queue_is_closed(uint32_t kind) {
    const uint8_t roles[] = {MSQ_BOTH, MSQ_BOTH};
    msq_seat seats[2] = {0};
    msq_value value, values[3] = {{9, 9}, {9, 9}, {9, 9}};
    msq_rest rest = {9, 9, false, true};
    expect("create", msq_create(kind, 8, MSQ_MOST_COUNT, roles, 2, seats, 2), MSQ_OK);
    for (uint64_t body = 1; body <= 3; body++) {
        expect("a push", msq_try_push(&seats[body % 2], body, 8), MSQ_OK);
    }
    expect("a pop", msq_try_pop(&seats[0], 8, &value), MSQ_OK);
    expect("close by one of two", msq_close(seats, 1, values, 2, &rest), MSQ_IN_USE);
    expect("close by none", msq_close(seats, 0, values, 2, &rest), MSQ_BAD_SIZE);
    msq_seat with_none[2] = {seats[0], {0}};
    expect("close by an empty one", msq_close(with_none, 2, values, 2, &rest), MSQ_NO_SEAT);
    expect("nothing is written", values[0].body + rest.left, 18);
    expect("close with room for one", msq_close(seats, 2, values, 1, &rest), MSQ_OK);
    expect("what is left", rest.left, 2);
    expect("what was taken", rest.taken, 1);
    expect("whole", rest.whole, true);
    expect("shut", rest.was_shut, false);
    expect("the first body left", values[0].body, 2);
    expect("its seat", values[0].from, 1);
    expect("no further value", values[1].body, 9);
    expect("a push behind the end", msq_try_push(&seats[1], 1, 8), MSQ_NO_SEAT);
}

/* Seats of two queues neither meet nor close, and nothing changes. */
static void two_queues_are_told(uint32_t kind) {
    const uint8_t roles[] = {MSQ_BOTH, MSQ_BOTH};
    msq_seat one[2] = {0}, other[2] = {0};
    msq_value value, values[3] = {{9, 9}, {9, 9}, {9, 9}};
    msq_rest rest = {9, 9, false, true};
    expect("create", msq_create(kind, 8, MSQ_MOST_COUNT, roles, 2, one, 2), MSQ_OK);
    expect("create", msq_create(kind, 8, MSQ_MOST_COUNT, roles, 2, other, 2), MSQ_OK);
    expect("a push", msq_try_push(&one[0], 1, 8), MSQ_OK);
    expect("a meeting", msq_meet(&one[0], &one[1]), MSQ_OK);
    expect("a meeting with itself", msq_meet(&one[0], &one[0]), MSQ_OK);
    expect("a meeting of two queues", msq_meet(&one[0], &other[0]), MSQ_TWO_QUEUES);
    msq_seat mixed[3] = {one[0], one[1], other[0]};
    expect("a close of two queues", msq_close(mixed, 3, values, 3, &rest), MSQ_TWO_QUEUES);
    expect("nothing is written", values[0].body + rest.left, 18);
    expect("a pop", msq_try_pop(&mixed[1], 8, &value), MSQ_OK);
    expect("no value of the other queue", msq_try_pop(&mixed[2], 8, &value), MSQ_EMPTY);
    msq_drop(&other[1]);
    expect("a meeting with an empty seat", msq_meet(&one[0], &other[1]), MSQ_NO_SEAT);
    expect("a meeting of one empty seat", msq_meet(&other[1], &other[1]), MSQ_NO_SEAT);
    expect("a close of one queue", msq_close(one, 2, values, 3, &rest), MSQ_OK);
    expect("a close of the other by what is left of it", msq_close(other, 1, values, 3, &rest), kind == MSQ_RING ? MSQ_IN_USE : MSQ_OK);
    msq_drop(&other[0]);
}

/* Many at one call: as many as go, and the code of the first that doesn't. */
static void many_are_pushed_and_popped(uint32_t kind) {
    const uint8_t roles[] = {MSQ_GIVER, MSQ_TAKER};
    const uint64_t bodies[] = {1, 2, 3, MSQ_BODIES, 5};
    uint64_t more[100] = {0};
    msq_seat seats[2] = {0};
    msq_value values[100] = {{9, 9}};
    size_t count = 9, held;
    expect("a push of many without a seat", msq_push_all(&seats[0], bodies, 3, 8, &count), MSQ_NO_SEAT);
    expect("none", count, 0);
    count = 9;
    expect("a pop of many without a seat", msq_pop_up_to(&seats[1], 8, values, 3, &count), MSQ_NO_SEAT);
    expect("none", count, 0);
    expect("create", msq_create(kind, 16, MSQ_MOST_COUNT, roles, 2, seats, 2), MSQ_OK);
    expect("a taker pushes many", msq_push_all(&seats[1], bodies, 3, 8, &count), MSQ_NO_ROLE);
    expect("a giver pops many", msq_pop_up_to(&seats[0], 8, values, 3, &count), MSQ_NO_ROLE);
    expect("a push of many in no turns", msq_push_all(&seats[0], bodies, 3, 0, &count), MSQ_BAD_SIZE);
    expect("a pop of many in no turns", msq_pop_up_to(&seats[1], 0, values, 3, &count), MSQ_BAD_SIZE);
    expect("none", count, 0);
    expect("a push of none", msq_push_all(&seats[0], bodies, 0, 8, &count), MSQ_OK);
    expect("a pop of none", msq_pop_up_to(&seats[1], 8, values, 0, &count), MSQ_OK);
    expect("a pop of many from an empty queue", msq_pop_up_to(&seats[1], 8, values, 3, &count), MSQ_EMPTY);
    expect("nothing is written", values[0].body + count, 9);
    expect("a push of many", msq_push_all(&seats[0], bodies, 3, 8, &count), MSQ_OK);
    expect("all of them", count, 3);
    expect("one of them is no body", msq_push_all(&seats[0], bodies + 1, 4, 8, &count), MSQ_BAD_SIZE);
    expect("those before it", count, 2);
    expect("a pop of two", msq_pop_up_to(&seats[1], 8, values, 2, &count), MSQ_OK);
    expect("both", count, 2);
    expect("the first one", values[0].body, 1);
    expect("the second one", values[1].body, 2);
    expect("a pop of the others", msq_pop_up_to(&seats[1], 8, values, 4, &count), MSQ_EMPTY);
    expect("so many", count, 3);
    expect("in their order", values[0].body * 100 + values[1].body * 10 + values[2].body, 323);
    expect("no further value", values[3].body, 0);
    expect("a push of more than there is room for", msq_push_all(&seats[0], more, 100, 8, &held), MSQ_NO_NODE);
    expect("as many as there is room for", held >= 15 && held <= 16, true);
    expect("a shut", msq_try_shut(&seats[0], 8), MSQ_OK);
    expect("a pop of all", msq_pop_up_to(&seats[1], 8, values, 100, &count), MSQ_CLOSED);
    expect("all that was held", count, held);
    expect("a push of many behind it", msq_push_all(&seats[0], bodies, 3, 8, &count), MSQ_CLOSED);
    expect("none", count, 0);
    msq_drop(&seats[0]);
    msq_drop(&seats[1]);
}

/* Whether so many values have these bodies, one after another from `first` on. */
static bool are_in_order(const msq_value *values, size_t count, uint64_t first) {
    for (size_t k = 0; k < count; k++) {
        if (values[k].body != first + k) {
            return false;
        }
    }
    return true;
}

/* More at one call than go to a ring at one step: to an empty queue, to a nearly full one, and with a shut in between. */
static void steps_are_pushed_and_popped(uint32_t kind) {
    enum { MANY = 70 };
    const uint8_t roles[] = {MSQ_GIVER, MSQ_TAKER, MSQ_GIVER};
    uint64_t bodies[300];
    msq_seat seats[3] = {0};
    msq_value values[300] = {{0, 0}};
    size_t count, held, further, room = 0;
    for (uint64_t k = 0; k < 300; k++) {
        bodies[k] = k;
    }
    expect("create", msq_create(kind, 100, MSQ_MOST_COUNT, roles, 3, seats, 3), MSQ_OK);
    expect("a push of more than a step", msq_push_all(&seats[0], bodies, MANY, 8, &count), MSQ_OK);
    expect("all of them", count, MANY);
    expect("a pop of one more than a step", msq_pop_up_to(&seats[1], 8, values, 33, &count), MSQ_OK);
    expect("as many", count, 33);
    expect("in their order", are_in_order(values, 33, 0), true);
    expect("a pop of the others", msq_pop_up_to(&seats[1], 8, values, 300, &count), MSQ_EMPTY);
    expect("as many", count, MANY - 33);
    expect("in their order", are_in_order(values, count, 33), true);
    expect("no further value", values[count].body, 0);
    bodies[40] = MSQ_BODIES;
    expect("one behind a step is no body", msq_push_all(&seats[0], bodies, MANY, 8, &count), MSQ_BAD_SIZE);
    expect("those before it", count, 40);
    expect("a pop of just a step", msq_pop_up_to(&seats[1], 8, values, 32, &count), MSQ_OK);
    expect("a pop of the rest of it", msq_pop_up_to(&seats[1], 8, values + count, 8, &room), MSQ_OK);
    expect("in their order", are_in_order(values, count + room, 0), true);
    bodies[40] = 40;
    expect("a push until it is full", msq_push_all(&seats[0], bodies, 300, 8, &held), MSQ_NO_NODE);
    expect("a pop of two of them", msq_pop_up_to(&seats[1], 8, values, 2, &count), MSQ_OK);
    expect("a push to a nearly full one", msq_push_all(&seats[0], bodies + held, 300 - held, 8, &further), MSQ_NO_NODE);
    expect("no more than were popped", further <= 2, true);
    expect("a shut by another seat", msq_try_shut(&seats[2], 8), MSQ_OK);
    expect("a push behind it, where no node is free", msq_push_all(&seats[0], bodies, MANY, 8, &count),
           kind == MSQ_RING ? MSQ_CLOSED : MSQ_NO_NODE);
    expect("none", count, 0);
    expect("a pop of all that was before it", msq_pop_up_to(&seats[1], 8, values + 2, 298, &count), MSQ_CLOSED);
    expect("as many", count + 2, held + further);
    expect("in their order", are_in_order(values, count + 2, 0), true);
    for (size_t k = 0; k < 3; k++) {
        msq_drop(&seats[k]);
    }
}

/* A shut comes between two calls of many. */
static void a_shut_comes_between_steps(uint32_t kind) {
    const uint8_t roles[] = {MSQ_GIVER, MSQ_TAKER, MSQ_GIVER};
    uint64_t bodies[70];
    msq_seat seats[3] = {0};
    msq_value values[100] = {{0, 0}};
    size_t count;
    for (uint64_t k = 0; k < 70; k++) {
        bodies[k] = k;
    }
    expect("create", msq_create(kind, 100, MSQ_MOST_COUNT, roles, 3, seats, 3), MSQ_OK);
    expect("a push of more than a step", msq_push_all(&seats[0], bodies, 40, 8, &count), MSQ_OK);
    expect("a shut by another seat", msq_try_shut(&seats[2], 8), MSQ_OK);
    expect("a push behind it", msq_push_all(&seats[0], bodies, 70, 8, &count), MSQ_CLOSED);
    expect("none", count, 0);
    expect("a pop of all", msq_pop_up_to(&seats[1], 8, values, 100, &count), MSQ_CLOSED);
    expect("those before the shut", count, 40);
    expect("in their order", are_in_order(values, count, 0), true);
    for (size_t k = 0; k < 3; k++) {
        msq_drop(&seats[k]);
    }
}

/* A push and a pop by one seat: how often the count of the free list can still be raised. */
static uint64_t free_after_a_pair(msq_seat *seat) {
    msq_value value = {0, 0};
    msq_remaining left = {0, 0, 0, 0};
    expect("a push", msq_try_push(seat, 7, 8), MSQ_OK);
    expect("a pop", msq_try_pop(seat, 8, &value), MSQ_OK);
    expect("the value", value.body, 7);
    expect("what is left", msq_left(seat, &left), MSQ_OK);
    return left.free;
}

/* A seat that keeps its nodes takes none from the free list, and gives none back. */
static void nodes_are_kept(uint32_t kind) {
    const uint8_t roles[] = {MSQ_BOTH};
    msq_seat seat = {0};
    uint64_t left;
    expect("to keep without a seat", msq_keep_nodes(&seat, true), MSQ_NO_SEAT);
    expect("create", msq_create(kind, 2, MSQ_MOST_COUNT, roles, 1, &seat, 1), MSQ_OK);
    expect("to keep", msq_keep_nodes(&seat, true), MSQ_OK);
    left = free_after_a_pair(&seat);
    for (int k = 0; k < 10; k++) {
        expect("the free list isn't used", free_after_a_pair(&seat), left);
    }
    expect("to keep no more", msq_keep_nodes(&seat, false), MSQ_OK);
    left = free_after_a_pair(&seat);
    expect("a node is taken and given back", left - free_after_a_pair(&seat), kind == MSQ_RING ? 0 : 2);
    msq_drop(&seat);
}

/* Pushes and pops by turns, until a push is refused: how many were not. */
static uint32_t pushed(msq_seat *giver, msq_seat *taker, uint32_t *code) {
    msq_value value;
    for (uint32_t count = 0;; count++) {
        *code = msq_try_push(giver, count, 8);
        if (*code != MSQ_OK) {
            return count;
        }
        expect("a pop", msq_try_pop(taker, 8, &value), MSQ_OK);
    }
}

/* With two nodes each push but the first takes a node from the free list, and each pop gives one back. */
static void the_free_list_wears_out(uint32_t kind, uint64_t limit, uint32_t pushes, uint32_t due) {
    const uint8_t roles[] = {MSQ_GIVER, MSQ_TAKER};
    msq_seat seats[2] = {0};
    uint32_t code;
    expect("create", msq_create(kind, 2, limit, roles, 2, seats, 2), MSQ_OK);
    expect("pushes", pushed(&seats[0], &seats[1], &code), pushes);
    for (int again = 0; again < 3; again++) {
        expect("a push of a worn queue", code, due);
        code = msq_try_push(&seats[0], 1, 8);
    }
    expect("a shut of a worn queue", msq_try_shut(&seats[0], 8), MSQ_OK);
    msq_drop(&seats[0]);
    msq_drop(&seats[1]);
}

/* At the limit 1, with nodes that were never used. */
static void the_ends_wear_out(uint32_t kind) {
    const uint8_t roles[] = {MSQ_GIVER, MSQ_TAKER};
    msq_seat seats[2] = {0};
    msq_value value;
    bool blocks = kind == MSQ_TWO_LOCK;
    expect("create", msq_create(kind, 8, 1, roles, 2, seats, 2), MSQ_OK);
    expect("the first push", msq_try_push(&seats[0], 1, 8), MSQ_OK);
    expect("the second push", msq_try_push(&seats[0], 2, 8), MSQ_OK);
    expect("the third push", msq_try_push(&seats[0], 3, 8), blocks ? MSQ_OK : MSQ_WORN_TAIL);
    expect("the first pop", msq_try_pop(&seats[1], 8, &value), MSQ_OK);
    expect("the second pop", msq_try_pop(&seats[1], 8, &value), blocks ? MSQ_WORN_HEAD : MSQ_WORN_TAIL);
    expect("a shut", msq_try_shut(&seats[0], 8), blocks ? MSQ_OK : MSQ_WORN_TAIL);
    msq_drop(&seats[0]);
    msq_drop(&seats[1]);
}

/* A ring with room for two values takes two, and refuses the next. */
static void a_ring_is_full(void) {
    const uint8_t roles[] = {MSQ_BOTH, MSQ_BOTH};
    msq_seat seats[2] = {0};
    msq_value values[2];
    msq_rest rest = {0, 0, false, false};
    uint64_t count = 0;
    expect("create", msq_create(MSQ_RING, 2, MSQ_MOST_COUNT, roles, 2, seats, 2), MSQ_OK);
    while (count < 100 && msq_try_push(&seats[0], count, 8) == MSQ_OK) {
        count++;
    }
    expect("two are pushed", count, 2);
    expect("a push to a full ring", msq_try_push(&seats[0], 1, 8), MSQ_NO_NODE);
    expect("one by the other seat", msq_try_push(&seats[1], 1, 8), MSQ_NO_NODE);
    msq_drop(&seats[1]);
    expect("close without a seat that was dropped", msq_close(seats, 1, values, 2, &rest), MSQ_IN_USE);
    expect("a pop", msq_try_pop(&seats[0], 8, values), MSQ_OK);
    expect("the front", values[0].body, 0);
    msq_drop(&seats[0]);
}

/* All that a ring holds at the most has room at its end. */
static void a_full_ring_is_closed(void) {
    const uint8_t roles[] = {MSQ_BOTH, MSQ_BOTH};
    msq_seat seats[2] = {0};
    msq_value values[2];
    msq_rest rest = {0, 0, false, false};
    expect("create", msq_create(MSQ_RING, 2, MSQ_MOST_COUNT, roles, 2, seats, 2), MSQ_OK);
    expect("a push", msq_try_push(&seats[0], 0, 8), MSQ_OK);
    expect("a push by the other", msq_try_push(&seats[1], 1, 8), MSQ_OK);
    expect("close", msq_close(seats, 2, values, 2, &rest), MSQ_OK);
    expect("all are left", rest.left, 2);
    expect("the last one", values[1].body, 1);
}

/* At the limit 1 a ring with room for two has three places, and then no more. */
static void a_ring_wears_out(void) {
    const uint8_t roles[] = {MSQ_GIVER, MSQ_TAKER};
    msq_seat seats[2] = {0};
    uint32_t code;
    expect("create", msq_create(MSQ_RING, 2, 1, roles, 2, seats, 2), MSQ_OK);
    expect("pushes", pushed(&seats[0], &seats[1], &code), 3);
    expect("a push of a worn ring", code, MSQ_WORN_TAIL);
    expect("a second one", msq_try_push(&seats[0], 1, 8), MSQ_WORN_TAIL);
    expect("a shut of a worn ring", msq_try_shut(&seats[0], 8), MSQ_OK);
    expect("a push behind it", msq_try_push(&seats[0], 1, 8), MSQ_CLOSED);
    msq_drop(&seats[0]);
    msq_drop(&seats[1]);
}

/* A ring has 32,767 seats at the most. */
static void seats_of_a_ring_are_few(void) {
    enum { MOST = 32767 };
    static uint8_t roles[MOST + 1];
    static msq_seat seats[MOST + 1];
    memset(roles, MSQ_BOTH, sizeof roles);
    expect("a seat too many", msq_create(MSQ_RING, 2, MSQ_MOST_COUNT, roles, MOST + 1, seats, MOST + 1), MSQ_BAD_SIZE);
    expect("all seats", msq_create(MSQ_RING, 2, MSQ_MOST_COUNT, roles, MOST, seats, MOST), MSQ_OK);
    expect("a push by the last one", msq_try_push(&seats[MOST - 1], 1, 8), MSQ_OK);
    for (size_t k = 0; k < MOST; k++) {
        msq_drop(&seats[k]);
    }
}

/* The least and the greatest sizes of a queue, and what lies beyond them. */
static void sizes_have_their_ranges(uint32_t kind) {
    const uint8_t roles[] = {MSQ_BOTH};
    msq_seat seat = {0};
    expect("no limit", msq_create(kind, 4, 0, roles, 1, &seat, 1), MSQ_BAD_SIZE);
    expect("too great a limit", msq_create(kind, 4, MSQ_MOST_COUNT + 1, roles, 1, &seat, 1), MSQ_BAD_SIZE);
    expect("too many nodes", msq_create(kind, MSQ_MOST_NODES + 1, 1, roles, 1, &seat, 1), MSQ_BAD_SIZE);
    const uint32_t nodes[] = {2, 65534, 65535, 1048574, 1048575};
    for (size_t k = 0; k < sizeof nodes / sizeof *nodes; k++) {
        expect("create", msq_create(kind, nodes[k], MSQ_MOST_COUNT, roles, 1, &seat, 1), MSQ_OK);
        msq_drop(&seat);
    }
}

/* Each code has its name and a text of its own, and no other number has one; so has each kind a name. */
static void codes_have_names(void) {
    const char *kinds[] = {"non-blocking", "two-lock", "ring", "no such kind"};
    static const struct {
        uint32_t code;
        const char *name;
    } codes[] = {{0, "MSQ_OK"},         {1, "MSQ_NO_NODE"},     {2, "MSQ_WORN_FREE"},  {3, "MSQ_BUSY"},
                 {4, "MSQ_MEMORY"},     {5, "MSQ_BAD_SIZE"},    {16, "MSQ_CLOSED"},    {32, "MSQ_EMPTY"},
                 {33, "MSQ_NO_SEAT"},   {34, "MSQ_NO_ROLE"},    {35, "MSQ_IN_USE"},    {36, "MSQ_RACED"},
                 {37, "MSQ_WORN_NEXT"}, {38, "MSQ_WORN_TAIL"},  {39, "MSQ_WORN_HEAD"}, {40, "MSQ_TWO_QUEUES"},
                 {41, "MSQ_TWO_CALLS"}, {42, "MSQ_UNCOUNTED"},  {43, "MSQ_FULL"},
                 {44, "MSQ_TIMED_OUT"}, {45, "MSQ_WORN"}};
    const size_t count = sizeof codes / sizeof *codes;
    size_t next = 0, same = 0;
    for (uint32_t code = 0; code < 100; code++) {
        const bool is_one = next < count && codes[next].code == code;
        expect("a code's name", (uint64_t)strcmp(msq_code_name(code), is_one ? codes[next].name : "no such code"), 0);
        expect("a code's text", strcmp(msq_strerror(code), "no such code") == 0, !is_one);
        next += is_one;
    }
    for (size_t k = 0; k < count; k++) {
        for (size_t j = 0; j < k; j++) {
            same += strcmp(msq_strerror(codes[k].code), msq_strerror(codes[j].code)) == 0;
        }
    }
    for (uint32_t kind = 0; kind < sizeof kinds / sizeof *kinds; kind++) {
        expect("a kind's name", (uint64_t)strcmp(msq_kind_name(kind), kinds[kind]), 0);
    }
    expect("codes", next, count);
    expect("two codes with one text", same, 0);
}

int main(void) {
    codes_have_names();
    for (uint32_t kind = MSQ_NON_BLOCKING; kind <= MSQ_RING; kind++) {
        calls_are_refused(kind);
        a_queue_is_closed(kind);
        two_queues_are_told(kind);
        sizes_have_their_ranges(kind);
        many_are_pushed_and_popped(kind);
        steps_are_pushed_and_popped(kind);
        a_shut_comes_between_steps(kind);
        nodes_are_kept(kind);
    }
    for (uint32_t kind = MSQ_NON_BLOCKING; kind <= MSQ_TWO_LOCK; kind++) {
        the_free_list_wears_out(kind, 1, 1, MSQ_WORN_FREE);
        the_free_list_wears_out(kind, 2, 2, MSQ_NO_NODE);
        the_free_list_wears_out(kind, 3, 2, MSQ_WORN_FREE);
        the_free_list_wears_out(kind, 4, 3, MSQ_NO_NODE);
        the_ends_wear_out(kind);
    }
    a_ring_is_full();
    a_full_ring_is_closed();
    a_ring_wears_out();
    seats_of_a_ring_are_few();
    printf("%u answers as they should be, %u not\n", right, wrong);
    return wrong != 0;
}
