// Queues of Concurrency Kit behind the calls of anchors.h: ck_fifo_mpmc, which is the non-blocking queue by exchanges of two words,
// and ck_ring.
#include "anchors.h"
#include <ck_fifo.h>
#include <ck_ring.h>
#include <ck_stack.h>
#include <stdlib.h>
#include <string.h>

// Threads write these apart.
#define LINES 128
// Each of four ends keeps a node that it popped, as a seat that keeps its nodes does.
#define ENDS 4

static void *zeroed(size_t size) {
    size = (size + LINES - 1) / LINES * LINES;
    void *made = aligned_alloc(LINES, size);
    if (!made) {
        abort();
    }
    return memset(made, 0, size);
}

struct node {
    ck_fifo_mpmc_entry_t entry;
    ck_stack_entry_t free;
} CK_CC_ALIGN(64);

struct fifo {
    ck_fifo_mpmc_t values CK_CC_ALIGN(LINES);
    ck_stack_t free CK_CC_ALIGN(LINES);
    struct node *nodes;
};

struct fifo_end {
    struct fifo *of;
    struct node *kept;
};

CK_STACK_CONTAINER(struct node, free, node_of)

static void *fifo_made(size_t room) {
    struct fifo *it = zeroed(sizeof *it);
    it->nodes = zeroed((1 + room + ENDS) * sizeof *it->nodes);
    ck_stack_init(&it->free);
    ck_fifo_mpmc_init(&it->values, &it->nodes[0].entry);
    for (size_t k = 1; k <= room + ENDS; k++) {
        ck_stack_push_mpmc(&it->free, &it->nodes[k].free);
    }
    return it;
}

static void fifo_dropped(void *queue) {
    free(((struct fifo *)queue)->nodes);
    free(queue);
}

static void *fifo_joined(void *queue) {
    struct fifo_end *end = zeroed(sizeof *end);
    end->of = queue;
    return end;
}

static bool fifo_push(void *its, struct pair value) {
    struct fifo_end *end = its;
    struct node *node = end->kept;
    if (!node) {
        ck_stack_entry_t *free = ck_stack_pop_mpmc(&end->of->free);
        if (!free) {
            return false;
        }
        node = node_of(free);
    }
    end->kept = NULL;
    // A value is one word.
    ck_fifo_mpmc_enqueue(&end->of->values, &node->entry, (void *)(value.seat << 48 | value.body));
    return true;
}

static bool fifo_pop(void *its, struct pair *value) {
    struct fifo_end *end = its;
    void *found;
    ck_fifo_mpmc_entry_t *gone;
    if (!ck_fifo_mpmc_dequeue(&end->of->values, &found, &gone)) {
        return false;
    }
    *value = (struct pair){(uint64_t)found >> 48, (uint64_t)found << 16 >> 16};
    if (end->kept) {
        ck_stack_push_mpmc(&end->of->free, &((struct node *)gone)->free);
    } else {
        end->kept = (struct node *)gone;
    }
    return true;
}

CK_RING_PROTOTYPE(pairs, pair)

struct ring {
    ck_ring_t places CK_CC_ALIGN(LINES);
    struct pair *values;
};

// A ring of a power of two, which holds one less.
static void *ring_made(size_t room) {
    struct ring *it = zeroed(sizeof *it);
    it->values = zeroed(room * sizeof *it->values);
    ck_ring_init(&it->places, room);
    return it;
}

static void ring_dropped(void *queue) {
    free(((struct ring *)queue)->values);
    free(queue);
}

static void *ring_joined(void *queue) { return queue; }

static void ring_left(void *end) { (void)end; }

static bool ring_push(void *end, struct pair value) {
    struct ring *it = end;
    return CK_RING_ENQUEUE_MPMC(pairs, &it->places, it->values, &value);
}

static bool ring_pop(void *end, struct pair *value) {
    struct ring *it = end;
    return CK_RING_DEQUEUE_MPMC(pairs, &it->places, it->values, value);
}

const struct calls ck_fifo = {fifo_made, fifo_dropped, fifo_joined, free, fifo_push, fifo_pop};
const struct calls ck_ring = {ring_made, ring_dropped, ring_joined, ring_left, ring_push, ring_pop};
