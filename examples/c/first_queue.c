// One thread hands jobs to another, which sleeps while there is none: over a queue of pointers that both call.
#include "msq_queue.h"
#include <pthread.h>
#include <stdio.h>

static void *work(void *given) {
    msq_queue *queue = (msq_queue *)given;
    void *job;
    while (msq_queue_pop(queue, &job) == MSQ_OK) {
        printf("%s\n", (const char *)job);
    }
    msq_queue_unref(queue);
    return NULL; /* MSQ_CLOSED: it is closed and empty */
}

int main(void) {
    msq_queue *queue;
    pthread_t worker;
    if (msq_queue_new(&queue, 1000, NULL, NULL) != MSQ_OK || pthread_create(&worker, NULL, work, msq_queue_ref(queue)) != 0) {
        return 1;
    }
    if (msq_queue_push(queue, "a job") != MSQ_OK || msq_queue_push(queue, "another job") != MSQ_OK) {
        return 1;
    }
    msq_queue_close(queue);
    msq_queue_unref(queue);
    return pthread_join(worker, NULL);
}
