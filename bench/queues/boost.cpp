// boost::lockfree::queue behind the calls of anchors.h: with nodes that are reached by pointers, and by numbers.
#include <boost/lockfree/queue.hpp>

extern "C" {
#include "anchors.h"
extern const calls boost_queue, boost_fixed;
}

namespace {

template <class queue> void *made(size_t room) { return new queue(room); }
template <class queue> void dropped(void *of) { delete static_cast<queue *>(of); }
void *joined(void *of) { return of; }
void left(void *) {}
template <class queue> bool popped(void *end, pair *value) { return static_cast<queue *>(end)->pop(*value); }

using pointers = boost::lockfree::queue<pair>;
using numbers = boost::lockfree::queue<pair, boost::lockfree::fixed_sized<true>>;

} // namespace

const calls boost_queue = {made<pointers>, dropped<pointers>, joined, left,
                           [](void *end, pair value) { return static_cast<pointers *>(end)->bounded_push(value); }, popped<pointers>};
const calls boost_fixed = {made<numbers>, dropped<numbers>, joined, left,
                           [](void *end, pair value) { return static_cast<numbers *>(end)->push(value); }, popped<numbers>};
