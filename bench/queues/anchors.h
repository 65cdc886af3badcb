// What anchors.rs calls of a queue of others.
#include <stdbool.h>
#include <stddef.h>
#include <stdint.h>

struct pair {
    uint64_t seat, body;
};

struct calls {
    void *(*make)(size_t room);
    void (*drop)(void *queue);
    // A thread's end of the queue, and its end.
    void *(*join)(void *queue);
    void (*leave)(void *end);
    bool (*push)(void *end, struct pair value);
    bool (*pop)(void *end, struct pair *value);
};
