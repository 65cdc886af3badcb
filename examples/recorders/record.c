/* Records a queue under a lock from threads, and writes the recording: record [lifo] [CALLS].
   cc -O2 -pthread record.c -o record */
#include <pthread.h>
#include <stdio.h>
#include <stdlib.h>
#include <string.h>
#include <time.h>

enum { THREADS = 4, MOST = 1 << 20 };
static int calls = 8, faulty;
static pthread_mutex_t lock = PTHREAD_MUTEX_INITIALIZER;
static struct value { int from, count; } values[MOST];
static int front, back;
static struct operation { long first, last; int is_push, is_there; struct value value; } *logs[THREADS];

static long now(void) {
    struct timespec t;
    clock_gettime(CLOCK_MONOTONIC, &t);
    return t.tv_sec * 1000000000L + t.tv_nsec;
}

static void push(struct value value) {
    pthread_mutex_lock(&lock);
    values[back++] = value;
    pthread_mutex_unlock(&lock);
}

static int pop(struct value *value) {
    pthread_mutex_lock(&lock);
    int is_there = front < back;
    if (is_there) *value = values[faulty ? --back : front++];
    pthread_mutex_unlock(&lock);
    return is_there;
}

static void *work(void *number) {
    int actor = (int)(long)number;
    for (int n = 0; n < calls; n++) {
        struct operation *o = &logs[actor - 1][n];
        o->is_push = n % 4 < 2;
        o->value = (struct value){actor, n + 1};
        o->first = now();
        if (o->is_push) push(o->value);
        else o->is_there = pop(&o->value);
        o->last = now();
    }
    return NULL;
}

int main(int count, char **words) {
    pthread_t threads[THREADS];
    faulty = count > 1 && strcmp(words[1], "lifo") == 0;
    if (count > 1 + faulty) calls = atoi(words[1 + faulty]);
    if (calls < 0 || calls > MOST / THREADS) return 2;
    for (long n = 0; n < THREADS; n++) logs[n] = calloc((size_t)calls + 1, sizeof *logs[n]);
    for (long n = 0; n < THREADS; n++) pthread_create(&threads[n], NULL, work, (void *)(n + 1));
    for (int n = 0; n < THREADS; n++) pthread_join(threads[n], NULL);
    printf("msq record 1\noperations %d\n", THREADS * calls);
    for (int n = 0; n < THREADS; n++)
        for (struct operation *o = logs[n]; o < logs[n] + calls; o++) {
            const struct value v = o->value;
            if (o->is_push) printf("t%d enq t%d-%d from %ld to %ld reply done\n", n + 1, v.from, v.count, o->first, o->last);
            else if (o->is_there) printf("t%d deq from %ld to %ld reply value t%d-%d\n", n + 1, o->first, o->last, v.from, v.count);
            else printf("t%d deq from %ld to %ld reply empty\n", n + 1, o->first, o->last);
        }
    return 0;
}
