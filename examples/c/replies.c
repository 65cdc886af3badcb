/* A queue for each reply: who pops it gives the queue up at once, while who pushed it may still ring. So does who is told of a close,
 * beside who closes. And a loop around a pop with a time tells a close from a time that is over.
 *
 *     replies ROUNDS: so many replies, and as many closes, by each kind of queue. Prints a line each. */
#include "msq_queue.h"

#include <pthread.h>
#include <stdio.h>

#define MILLISECOND 1000000

static msq_queue *asks; /* the queues of the replies that are asked for */
static unsigned wrong;

static void expect(const char *what, bool holds) {
    if (!holds && __atomic_fetch_add(&wrong, 1, __ATOMIC_SEQ_CST) < 10) {
        fprintf(stderr, "replies: %s\n", what);
    }
}

/* Answers each by a push and a close, each of which the reader may have been told of before it is over. */
static void *answer(void *unused) {
    void *object;
    while (msq_queue_pop(asks, &object) == MSQ_OK) {
        msq_queue *reply = (msq_queue *)object;
        expect("an answer is pushed", msq_queue_push(reply, reply) == MSQ_OK);
        msq_queue_close(reply);
        msq_queue_unref(reply);
    }
    return unused;
}

/* Waits for the answer, and then for the close, by calls with a time. */
static void ask(msq_kind kind) {
    msq_queue *reply = NULL;
    void *object = NULL;
    msq_code code;
    expect("a queue", msq_queue_new_of(&reply, kind, 1, 2, NULL, NULL) == MSQ_OK);
    expect("it is asked for", msq_queue_push(asks, msq_queue_ref(reply)) == MSQ_OK);
    expect("a reply", msq_queue_pop(reply, &object) == MSQ_OK && object == (void *)reply);
    do {
        code = msq_queue_pop_for(reply, &object, MILLISECOND);
    } while (code == MSQ_TIMED_OUT);
    expect("a close", code == MSQ_CLOSED);
    msq_queue_unref(reply);
}

/* As ask, and gives the queue up as soon as it has the answer. */
static void ask_once(msq_kind kind) {
    msq_queue *reply = NULL;
    void *object = NULL;
    expect("a queue", msq_queue_new_of(&reply, kind, 1, 2, NULL, NULL) == MSQ_OK);
    expect("it is asked for", msq_queue_push(asks, msq_queue_ref(reply)) == MSQ_OK);
    expect("a reply", msq_queue_pop(reply, &object) == MSQ_OK);
    msq_queue_unref(reply);
}

int main(int count, char **words) {
    const unsigned long rounds = count == 2 ? strtoul(words[1], NULL, 10) : 0;
    if (rounds == 0) {
        fprintf(stderr, "usage: replies ROUNDS\n");
        return 2;
    }
    for (uint32_t kind = MSQ_NON_BLOCKING; kind <= MSQ_RING; kind++) {
        pthread_t threads[2];
        if (msq_queue_new_of(&asks, (msq_kind)kind, 2, 3, NULL, NULL) != MSQ_OK) {
            return 1;
        }
        for (int k = 0; k < 2; k++) {
            if (pthread_create(&threads[k], NULL, answer, NULL) != 0) {
                return 1;
            }
        }
        for (unsigned long k = 0; k < rounds; k++) {
            ask((msq_kind)kind);
            ask_once((msq_kind)kind);
        }
        msq_queue_close(asks);
        for (int k = 0; k < 2; k++) {
            pthread_join(threads[k], NULL);
        }
        msq_queue_unref(asks);
        if (wrong == 0) {
            printf("%s: %lu times who was told gave up its queue\n", msq_kind_name(kind), 2 * rounds);
        }
    }
    return wrong != 0;
}
