/* A scheduler: threads come to work for it and go while it runs, and at its end each task that was submitted has run once.
 *
 *     scheduler TASKS: so many tasks, over a queue of each kind. Prints a line each.
 *
 * A task is a function with its context, by the address of both: whoever submits it keeps it until it has run. */
#include "msq_queue.h"

#include <pthread.h>
#include <stdatomic.h>
#include <stdio.h>

typedef struct task {
    void (*run)(void *context);
    void *context;
} task;

/* There is room for so many tasks, and so many threads are in a call at one time. One that sleeps is in none. */
enum { ROOM = 256, CALLS = 8 };

typedef struct scheduler {
    msq_queue *tasks;
} scheduler;

static msq_code scheduler_open(scheduler *me, msq_kind kind, msq_free_one drop_one, void *context) {
    return msq_queue_new_of(&me->tasks, kind, ROOM, CALLS, drop_one, context);
}

/* Has a task run by one of the workers. It sleeps while there is no room, and answers MSQ_CLOSED once the scheduler is closed. */
static msq_code submit(scheduler *me, task *it) {
    return msq_queue_push(me->tasks, it);
}

/* Works in the thread that calls it: runs so many tasks and lets the thread go, or ends once the scheduler is closed and all its
 * tasks were taken. It sleeps while there is none. Answers how many it ran. */
static size_t work(scheduler *me, size_t most) {
    void *object;
    size_t done = 0;
    while (done < most && msq_queue_pop(me->tasks, &object) == MSQ_OK) {
        const task *it = (const task *)object;
        it->run(it->context);
        done++;
    }
    return done;
}

/* No task is submitted any more, and those that were still run. */
static void scheduler_close(scheduler *me) {
    msq_queue_close(me->tasks);
}

/* Gives up a scheduler that no thread uses. A task that no worker took goes to who is to drop it. */
static void scheduler_end(scheduler *me) {
    msq_queue_unref(me->tasks);
}

/* Four workers stay to the end; beside them twelve come one after another, and go after fifty tasks each. */
enum { STAYING = 4, VISITORS = 12, A_VISIT = 50 };

static void *stay(void *scheduler) {
    work(scheduler, SIZE_MAX);
    return NULL;
}

static void *visit(void *scheduler) {
    work(scheduler, A_VISIT);
    return NULL;
}

static void count_up(void *context) {
    atomic_fetch_add((atomic_uint *)context, 1);
}

static void count_dropped(void *object, void *context) {
    (void)object;
    ++*(size_t *)context;
}

/* Whether each task of so many runs once, and none is left. */
static bool all_run(msq_kind kind, atomic_uint *runs, task *tasks, size_t count) {
    scheduler all;
    pthread_t ids[STAYING + VISITORS];
    size_t workers = 0, dropped = 0;
    bool right = true;
    if (scheduler_open(&all, kind, count_dropped, &dropped) != MSQ_OK) {
        return false;
    }
    while (right && workers < STAYING) {
        right = pthread_create(&ids[workers], NULL, stay, &all) == 0;
        workers += right;
    }
    for (size_t number = 0; right && number < count; number++) {
        if (number % (count / VISITORS + 1) == 0) {
            right = pthread_create(&ids[workers], NULL, visit, &all) == 0;
            workers += right;
        }
        tasks[number].run = count_up;
        tasks[number].context = &runs[number];
        right = right && submit(&all, &tasks[number]) == MSQ_OK;
    }
    scheduler_close(&all);
    while (workers > 0) {
        pthread_join(ids[--workers], NULL);
    }
    right = right && submit(&all, tasks) == MSQ_CLOSED;
    scheduler_end(&all);
    for (size_t number = 0; number < count; number++) {
        right = right && atomic_exchange(&runs[number], 0) == 1;
    }
    return right && dropped == 0;
}

/* Whether a task that no worker takes goes to who is to drop it. */
static bool what_is_left_is_dropped(msq_kind kind, task *it) {
    scheduler none;
    size_t dropped = 0;
    bool right;
    if (scheduler_open(&none, kind, count_dropped, &dropped) != MSQ_OK) {
        return false;
    }
    right = submit(&none, it) == MSQ_OK;
    scheduler_end(&none);
    return right && dropped == 1;
}

int main(int argc, char **argv) {
    const size_t count = argc == 2 ? strtoul(argv[1], NULL, 10) : 0;
    atomic_uint *runs = calloc(count, sizeof *runs);
    task *tasks = calloc(count, sizeof *tasks);
    int status = count == 0 || runs == NULL || tasks == NULL ? 2 : 0;
    for (uint32_t kind = MSQ_NON_BLOCKING; status == 0 && kind <= MSQ_RING; kind++) {
        if (all_run((msq_kind)kind, runs, tasks, count) && what_is_left_is_dropped((msq_kind)kind, tasks)) {
            printf("%s: %zu tasks ran, each once\n", msq_kind_name(kind), count);
        } else {
            status = 1;
        }
    }
    if (status != 0) {
        fprintf(stderr, status == 1 ? "scheduler: wrong\n" : "usage: scheduler TASKS\n");
    }
    free(tasks);
    free(runs);
    return status;
}
