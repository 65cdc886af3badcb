// moodycamel's ConcurrentQueue behind the calls of anchors.h, without tokens and with tokens of each thread.
#include <concurrentqueue/concurrentqueue.h>

extern "C" {
#include "anchors.h"
extern const calls moodycamel_queue, moodycamel_tokens;
}

namespace {

using queue = moodycamel::ConcurrentQueue<pair>;

struct tokens {
    explicit tokens(queue &of) : of(of), producer(of), consumer(of) {}
    queue &of;
    moodycamel::ProducerToken producer;
    moodycamel::ConsumerToken consumer;
};

void *made(size_t room) { return new queue(room); }
void dropped(void *of) { delete static_cast<queue *>(of); }

} // namespace

const calls moodycamel_queue = {made, dropped, [](void *of) { return of; }, [](void *) {},
                                [](void *end, pair value) { return static_cast<queue *>(end)->enqueue(value); },
                                [](void *end, pair *value) { return static_cast<queue *>(end)->try_dequeue(*value); }};
const calls moodycamel_tokens = {made, dropped, [](void *of) -> void * { return new tokens(*static_cast<queue *>(of)); },
                                 [](void *end) { delete static_cast<tokens *>(end); },
                                 [](void *end, pair value) {
                                     tokens *its = static_cast<tokens *>(end);
                                     return its->of.enqueue(its->producer, value);
                                 },
                                 [](void *end, pair *value) {
                                     tokens *its = static_cast<tokens *>(end);
                                     return its->of.try_dequeue(its->consumer, *value);
                                 }};
