// Times queues of values: `typed QUEUE TYPE KIND COUNT` prints how many nanoseconds the works of KIND took, each thread COUNT times.
// QUEUE is non-blocking, two-lock or ring, which are msq::queue's, boost or moodycamel; TYPE is number, words or text, of which
// boost's takes no text. KIND is one, four, pair, two, three or one-three; bench/queues/works.rs says what a thread does in each.
#include <boost/lockfree/queue.hpp>
#include <chrono>
#include <concurrentqueue/concurrentqueue.h>
#include <cstdio>
#include <cstdlib>
#include <msq_queue.hpp>
#include <sched.h>
#include <string>
#include <thread>
#include <vector>

namespace {

constexpr unsigned room = 64;

struct words {
    uint64_t first, second, third;
};

// The value of this number.
template <class T> T made(uint64_t number);
template <> uint64_t made(uint64_t number) { return number; }
template <> words made(uint64_t number) { return {number, number, number}; }
template <> std::string made(uint64_t number) { return "a text that is in memory of its own, " + std::to_string(number); }

template <class T> struct ours {
    explicit ours(msq::kind kind) : queue(room, {kind, 4}) {}
    bool push(T &value) {
        auto told = queue.try_push(std::move(value));
        if (!told) {
            value = std::move(told).value();
        }
        return static_cast<bool>(told);
    }
    bool pop(T &value) {
        auto found = queue.try_pop();
        if (found) {
            value = std::move(*found);
        }
        return static_cast<bool>(found);
    }
    msq::queue<T> queue;
};

template <class T> struct boosts {
    bool push(T &value) { return queue.push(value); }
    bool pop(T &value) { return queue.pop(value); }
    boost::lockfree::queue<T, boost::lockfree::capacity<room>> queue;
};

template <class T> struct moodycamels {
    bool push(T &value) { return queue.enqueue(std::move(value)); }
    bool pop(T &value) { return queue.try_dequeue(value); }
    moodycamel::ConcurrentQueue<T> queue{room};
};

// As crossbeam's backoff: spins longer each time, and then yields.
class backoff {
public:
    void snooze() {
        if (step_ <= 6) {
            for (unsigned k = 0; k < 1u << step_; k++) {
#if defined(__x86_64__)
                __builtin_ia32_pause();
#endif
            }
        } else {
            sched_yield();
        }
        step_ += step_ <= 10;
    }

private:
    unsigned step_ = 0;
};

// What a thread does, and how often while one of the others does its own once, where all that is pushed is popped.
struct work {
    bool pushes, pops;
    unsigned share;
};

struct kind {
    const char *name;
    std::vector<work> works;
};

const kind kinds[] = {
    {"one", {{true, true, 1}}},
    {"four", {{true, true, 1}, {true, true, 1}, {true, true, 1}, {true, true, 1}}},
    {"pair", {{true, false, 1}, {false, true, 1}}},
    {"two", {{true, false, 1}, {true, false, 1}, {false, true, 1}, {false, true, 1}}},
    {"three", {{true, false, 1}, {true, false, 1}, {true, false, 1}, {false, true, 3}}},
    {"one-three", {{true, false, 3}, {false, true, 1}, {false, true, 1}, {false, true, 1}}},
};

template <class T, class Queue> void works(Queue &queue, work work, uint64_t count) {
    for (uint64_t k = 0; k < count; k++) {
        T value = work.pushes ? made<T>(k) : T();
        if (work.pushes) {
            for (backoff wait; !queue.push(value);) {
                wait.snooze();
            }
        }
        if (work.pops) {
            for (backoff wait; !queue.pop(value);) {
                wait.snooze();
            }
        }
    }
}

template <class T, class Queue> int time_of(Queue &queue, const kind &kind, uint64_t count) {
    std::vector<std::thread> threads;
    const auto began = std::chrono::steady_clock::now();
    for (const work work : kind.works) {
        threads.emplace_back([&queue, work, count] { works<T>(queue, work, work.share * count); });
    }
    for (std::thread &thread : threads) {
        thread.join();
    }
    const std::chrono::nanoseconds time = std::chrono::steady_clock::now() - began;
    std::printf("%lld\n", static_cast<long long>(time.count()));
    return 0;
}

template <class T> int time_in(const std::string &name, const kind &kind, uint64_t count) {
    for (const uint32_t number : {MSQ_NON_BLOCKING, MSQ_TWO_LOCK, MSQ_RING}) {
        if (name == msq_kind_name(number)) {
            ours<T> queue(static_cast<msq::kind>(number));
            return time_of<T>(queue, kind, count);
        }
    }
    if (name == "moodycamel") {
        moodycamels<T> queue;
        return time_of<T>(queue, kind, count);
    }
    if constexpr (std::is_trivially_destructible<T>::value) {
        if (name == "boost") {
            boosts<T> queue;
            return time_of<T>(queue, kind, count);
        }
    }
    return 2;
}

} // namespace

int main(int argc, char **argv) {
    if (argc == 5) {
        const std::string type = argv[2];
        const uint64_t count = std::strtoull(argv[4], nullptr, 10);
        for (const kind &kind : kinds) {
            if (kind.name == std::string(argv[3])) {
                return type == "number" ? time_in<uint64_t>(argv[1], kind, count)
                       : type == "words" ? time_in<words>(argv[1], kind, count)
                                         : time_in<std::string>(argv[1], kind, count);
            }
        }
    }
    std::fprintf(stderr, "typed non-blocking|two-lock|ring|boost|moodycamel number|words|text one|four|pair|two|three|one-three COUNT\n");
    return 2;
}
