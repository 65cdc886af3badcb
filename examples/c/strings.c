/* Strings that pass through a queue of pointers: half of the threads push, the others pop, by fewer handles than threads.
 *
 *     strings THREADS VALUES: so many strings pass through either queue; 100 more are left for the end. Prints a line each.
 */
#include "msq_queue.h"

#include <pthread.h>
#include <stdio.h>
#include <string.h>

#define MOST_THREADS 64
#define LEFT 100

static msq_queue *queue;
static unsigned givers;
static uint64_t each;                           /* how many strings a giver pushes */
static uint8_t *came[MOST_THREADS];             /* of each giver how often each of its strings came */
static unsigned wrong;

static void is_wrong(const char *what, uint64_t number) {
    if (__atomic_fetch_add(&wrong, 1, __ATOMIC_SEQ_CST) < 10) {
        fprintf(stderr, "strings: %s: %llu\n", what, (unsigned long long)number);
    }
}

/* A string that tells who pushed it, and which of its strings it is. */
static char *string_of(unsigned giver, uint64_t number) {
    char *text = (char *)malloc(48);
    if (text != NULL) {
        snprintf(text, 48, "string %llu of thread %u", (unsigned long long)number, giver);
    }
    return text;
}

static void *give(void *given) {
    const unsigned giver = (unsigned)(uintptr_t)given;
    for (uint64_t number = 0; number < each; number++) {
        char *text = string_of(giver, number);
        const uint32_t code = text == NULL ? MSQ_MEMORY : msq_queue_push(queue, text);
        if (code != MSQ_OK) {
            free(text);
            is_wrong(msq_code_name(code), number);
            break;
        }
    }
    return NULL;
}

/* Those of one giver rise. */
static void *take(void *unused) {
    uint64_t next[MOST_THREADS] = {0};
    void *object = NULL;
    uint32_t code;
    while ((code = msq_queue_pop(queue, &object)) == MSQ_OK) {
        unsigned giver = 0;
        unsigned long long number = 0;
        char *text = (char *)object;
        if (sscanf(text, "string %llu of thread %u", &number, &giver) != 2 || giver >= givers || number >= each) {
            is_wrong("another string", number);
        } else if (number < next[giver]) {
            is_wrong("out of order", number);
        } else {
            next[giver] = number + 1;
            __atomic_fetch_add(&came[giver][number], 1, __ATOMIC_SEQ_CST);
        }
        free(text);
    }
    if (code != MSQ_CLOSED) {
        is_wrong(msq_code_name(code), 0);
    }
    return unused;
}

static void free_one(void *object, void *context) {
    free(object);
    (*(uint64_t *)context)++;
}

/* What nobody pops goes to free_one. */
static void is_freed(msq_kind kind) {
    uint64_t freed = 0;
    if (msq_queue_new_of(&queue, kind, LEFT, 2, free_one, &freed) != MSQ_OK) {
        is_wrong("no queue", 0);
        return;
    }
    for (uint64_t number = 0; number < LEFT; number++) {
        char *text = string_of(0, number);
        if (text == NULL || msq_queue_try_push(queue, text) != MSQ_OK) {
            is_wrong("no room", number);
            free(text);
        }
    }
    msq_queue_unref(queue);
    if (freed != LEFT) {
        is_wrong("left", freed);
    }
}

static void pass(msq_kind kind, unsigned threads) {
    pthread_t ids[MOST_THREADS];
    uint64_t freed = 0;
    if (msq_queue_new_of(&queue, kind, 1000, threads > 2 ? threads - 1 : threads, free_one, &freed) != MSQ_OK) {
        is_wrong("no queue", 0);
        return;
    }
    for (unsigned k = 0; k < threads; k++) {
        if (pthread_create(&ids[k], NULL, k < givers ? give : take, (void *)(uintptr_t)k) != 0) {
            is_wrong("no thread", k);
            return;
        }
    }
    for (unsigned k = 0; k < threads; k++) {
        pthread_join(ids[k], NULL);
        if (k + 1 == givers) {
            msq_queue_close(queue);
        }
    }
    msq_queue_unref(queue);
    if (freed != 0) {
        is_wrong("left", freed);
    }
    for (unsigned giver = 0; giver < givers; giver++) {
        for (uint64_t number = 0; number < each; number++) {
            if (came[giver][number] != 1) {
                is_wrong("not once", number);
            }
        }
        memset(came[giver], 0, each);
    }
}

int main(int count, char **words) {
    const unsigned threads = count == 3 ? (unsigned)strtoul(words[1], NULL, 10) : 0;
    if (threads < 2 || threads > MOST_THREADS) {
        fprintf(stderr, "usage: strings THREADS VALUES\n");
        return 2;
    }
    givers = threads / 2;
    each = strtoull(words[2], NULL, 10) / givers;
    for (unsigned giver = 0; giver < givers; giver++) {
        came[giver] = (uint8_t *)calloc(each + 1, 1);
        if (came[giver] == NULL) {
            return 1;
        }
    }
    for (uint32_t kind = MSQ_NON_BLOCKING; kind <= MSQ_RING; kind++) {
        pass((msq_kind)kind, threads);
        is_freed((msq_kind)kind);
        if (wrong == 0) {
            printf("%s: %u threads, %llu strings in order, each once\n", msq_kind_name(kind), threads,
                   (unsigned long long)(each * givers));
        }
    }
    for (unsigned giver = 0; giver < givers; giver++) {
        free(came[giver]);
    }
    return wrong != 0;
}
