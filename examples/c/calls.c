/* What each call by a seat that pushes, pops or shuts answers in each state of a queue that it has a code for. Prints how many answers
 * were as they should be. What comes where others are in the way, as MSQ_BUSY, is for stopped.c. */
#include "families.h"

static void there_is_none(void) {
    each(all->pushes, "no seat", MSQ_NO_SEAT);
    each(all->pops, "no seat", MSQ_NO_SEAT);
    each(all->shuts, "no seat", MSQ_NO_SEAT);
    seen("no seat", MSQ_NO_SEAT);
}

static void values_come_and_go(uint32_t kind) {
    opens(kind, 32, MSQ_MOST_COUNT, 2);
    seen("empty", MSQ_EMPTY);
    each(all->pushes, "room", MSQ_OK);
    seen("values", MSQ_OK);
    each(all->pops, "values", MSQ_OK);
    each(all->pops, "empty", MSQ_EMPTY);
    all->drop();
    for (const struct call *shut = all->shuts; shut->make != NULL; shut++) {
        opens(kind, 32, MSQ_MOST_COUNT, 2);
        first_of(shut, "open", MSQ_OK);
        each(all->shuts, "shut", MSQ_CLOSED);
        each(all->pushes, "shut", MSQ_CLOSED);
        each(all->pops, "shut", MSQ_CLOSED);
        seen("shut", MSQ_CLOSED);
        all->drop();
    }
}

static void it_is_full(uint32_t kind) {
    opens(kind, 2, MSQ_MOST_COUNT, 2);
    for (int k = 0; k < 100 && all->pushes[0].make() == MSQ_OK; k++) {
    }
    each(all->pushes, "full", MSQ_NO_NODE);
    all->drop();
}

/* A taker pushes and shuts, and a giver pops. */
static void seats_have_their_roles(uint32_t kind) {
    opens(kind, 8, MSQ_MOST_COUNT, 2);
    sit(1, 0);
    each(all->pushes, "a taker", MSQ_NO_ROLE);
    each(all->pops, "a giver", MSQ_NO_ROLE);
    each(all->shuts, "a taker", MSQ_NO_ROLE);
    sit(0, 1);
    all->drop();
}

static void numbers_have_their_ranges(uint32_t kind) {
    opens(kind, 8, MSQ_MOST_COUNT, 2);
    turns = 0;
    each(all->pushes, "no turns", MSQ_BAD_SIZE);
    each(all->pops, "no turns", MSQ_BAD_SIZE);
    each(all->shuts, "no turns", MSQ_BAD_SIZE);
    turns = 8;
    if (all->has_ring) { /* words have no range */
        body = MSQ_BODIES;
        each(all->pushes, "a body of 2^48", MSQ_BAD_SIZE);
        body = 1;
    }
    all->drop();
}

/* At the limit 1 a node is taken from the free list or given back once. A ring has three places. */
static void pushes_wear_out(uint32_t kind) {
    uint32_t code = MSQ_OK;
    opens(kind, 2, 1, 2);
    for (int k = 0; k < 100 && code == MSQ_OK; k++) {
        code = all->pushes[0].make();
        if (code == MSQ_OK) {
            first_of(all->pops, "a value", MSQ_OK);
        }
    }
    each(all->pushes, "worn out", kind == MSQ_RING ? MSQ_WORN_TAIL : MSQ_WORN_FREE);
    first_of(all->shuts, "worn out", MSQ_OK);
    all->drop();
}

/* At the limit 1, with nodes that were never used, an end of the queue is swung once. */
static void ends_wear_out(uint32_t kind) {
    opens(kind, 16, 1, 2);
    first_of(all->pushes, "new", MSQ_OK);
    first_of(all->pushes, "new", MSQ_OK);
    if (kind == MSQ_NON_BLOCKING) {
        each(all->pushes, "a worn Tail", MSQ_WORN_TAIL);
        each(all->shuts, "a worn Tail", MSQ_WORN_TAIL);
    }
    first_of(all->pops, "a value", MSQ_OK);
    each(all->pops, "a worn end", kind == MSQ_NON_BLOCKING ? MSQ_WORN_TAIL : MSQ_WORN_HEAD);
    all->drop();
}

/* At the limit 2 the free list is worn with nothing in it, so that the queue counts as full. */
static void a_full_queue_is_told(void) {
    opens(MSQ_TWO_LOCK, 4, 2, 2);
    for (int k = 0; k < 3; k++) {
        first_of(all->pushes, "new nodes", MSQ_OK);
    }
    first_of(all->pops, "values", MSQ_OK);
    first_of(all->pushes, "a node that came back", MSQ_OK);
    first_of(all->pops, "values", MSQ_OK);
    each(all->pushes, "worn and empty-handed", MSQ_NO_NODE);
    each(all->pops, "a worn Head", MSQ_WORN_HEAD);
    each(all->pushes, "full, of a worn Head", MSQ_NO_NODE);
    all->drop();
}

#ifdef MSQ_DEBUG
/* Each call of a seat while another one uses it. */
static void another_call_uses_the_seat(uint32_t kind) {
    msq_seat *const places[FAMILIES] = {&seats[2], &word_seats[2].seat};
    struct msq_call call;
    opens(kind, 8, MSQ_MOST_COUNT, 3);
    sit(2, 2);
    (void)msq_begin(&call, places[all - families], 1, false);
    each(all->pushes, "another call", MSQ_TWO_CALLS);
    each(all->pops, "another call", MSQ_TWO_CALLS);
    each(all->shuts, "another call", MSQ_TWO_CALLS);
    seen("another call", MSQ_TWO_CALLS);
    msq_end(&call);
    sit(0, 1);
    all->drop();
}
#endif

static void each_state_of(uint32_t kind) {
    values_come_and_go(kind);
    it_is_full(kind);
    numbers_have_their_ranges(kind);
    seats_have_their_roles(kind);
#ifdef MSQ_DEBUG
    another_call_uses_the_seat(kind);
#endif
    pushes_wear_out(kind);
    if (kind != MSQ_RING) {
        ends_wear_out(kind);
    }
}

int main(void) {
    for (all = families; all < families + FAMILIES; all++) {
        there_is_none();
        const uint32_t last = all->has_ring ? MSQ_RING : MSQ_TWO_LOCK;
        for (uint32_t kind = MSQ_NON_BLOCKING; kind <= last; kind++) {
            each_state_of(kind);
        }
        a_full_queue_is_told();
    }
    return told();
}
