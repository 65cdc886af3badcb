// Producers push numbers, consumers pop them, over either queue: each producer's values come in order, each once.
//
//     pipeline THREADS VALUES: half of the threads push, half pop; so many values go through each queue.
#include "msq.hpp"

#include <chrono>
#include <cstdio>
#include <cstdlib>
#include <string>
#include <thread>
#include <utility>
#include <vector>

namespace {

constexpr uint32_t nodes = 1024;

// Each has a cache line of its own: a call writes the seat.
struct alignas(64) worker {
    msq::seat seat;
    uint64_t values = 0;          // how many each producer pushes
    std::vector<uint64_t> next;   // above the last value of each producer that this consumer popped
    std::vector<uint64_t> popped; // a bit for each value of each producer that this consumer popped
    uint64_t count = 0;           // how many it popped
    std::string fault;
};

void push_all(worker &me) {
    for (uint64_t value = 0; value < me.values;) {
        auto code = me.seat.try_push(value);
        if (code == MSQ_OK) {
            value++;
        } else if (code == MSQ_NO_NODE || code == MSQ_BUSY) {
            std::this_thread::yield();
        } else {
            me.fault = "a push was refused";
            return;
        }
    }
}

void pop_all(worker &me) {
    for (;;) {
        msq_value value{};
        const auto told = me.seat.try_pop(value);
        if (told) {
            if (value.from >= me.next.size() || value.body < me.next[value.from] || value.body >= me.values) {
                me.fault = "out of order";
                return;
            }
            me.next[value.from] = value.body + 1;
            uint64_t place = (value.from - 1) * me.values + value.body;
            me.popped[place / 64] |= uint64_t{1} << place % 64;
            me.count++;
        } else if (told == MSQ_EMPTY || told == MSQ_BUSY) {
            std::this_thread::yield();
        } else {
            me.fault = told == MSQ_CLOSED ? "" : "a pop was refused";
            return;
        }
    }
}

// Whether the workers together popped each of so many values, and none of them twice.
bool each_once(const std::vector<worker> &workers, uint64_t values) {
    for (uint64_t word = 0; word <= values / 64; word++) {
        uint64_t all = 0, twice = 0;
        for (auto &one : workers) {
            twice |= all & one.popped[word];
            all |= one.popped[word];
        }
        if (twice != 0 || all != (word < values / 64 ? UINT64_MAX : (uint64_t{1} << values % 64) - 1)) {
            return false;
        }
    }
    return true;
}

// Runs the workers, the first half of which push: the time that they took, in ns.
double time_of(std::vector<worker> &workers) {
    size_t half = workers.size() / 2;
    std::vector<std::thread> threads;
    auto began = std::chrono::steady_clock::now();
    for (size_t k = 0; k < workers.size(); k++) {
        threads.emplace_back(k < half ? push_all : pop_all, std::ref(workers[k]));
    }
    for (size_t k = 0; k < half; k++) {
        threads[k].join();
    }
    while (workers[0].seat.try_shut() == MSQ_BUSY) {
        std::this_thread::yield();
    }
    for (size_t k = half; k < workers.size(); k++) {
        threads[k].join();
    }
    return std::chrono::duration<double, std::nano>(std::chrono::steady_clock::now() - began).count();
}

// What is wrong with what the workers found, and with what is left of the queue; nothing where all is right.
std::string judged(std::vector<worker> &workers, uint64_t values) {
    std::vector<msq::seat> seats;
    uint64_t count = 0;
    for (auto &one : workers) {
        if (!one.fault.empty()) {
            return one.fault;
        }
        count += one.count;
        seats.push_back(std::move(one.seat));
    }
    if (count != values || !each_once(workers, values)) {
        return "a value is lost, or came twice";
    }
    auto ended = msq::close(seats);
    bool good = ended.code == MSQ_OK && ended.left.empty() && ended.rest.taken == count && ended.rest.whole;
    return good && ended.rest.was_shut ? "" : "close";
}

bool run(msq::kind kind, const char *name, size_t threads, uint64_t values) {
    size_t half = threads / 2;
    uint64_t each = values / half;
    std::vector<msq::role> roles(half, msq::role::giver);
    roles.resize(2 * half, msq::role::taker);
    auto made = msq::create(kind, nodes, roles);
    auto &seats = made.second;
    std::string fault = made.first == MSQ_OK ? "" : "create";
    if (fault.empty()) {
        std::vector<worker> workers(2 * half);
        for (size_t k = 0; k < workers.size(); k++) {
            workers[k].seat = std::move(seats[k]);
            workers[k].values = each;
            workers[k].next.resize(half + 1);
            workers[k].popped.resize(half * each / 64 + 1);
        }
        double time = time_of(workers);
        fault = judged(workers, half * each);
        if (fault.empty()) {
            std::printf("%s: %zu threads, %llu values in order, each once; %.0f ns each\n", name, 2 * half,
                        static_cast<unsigned long long>(half * each), time / static_cast<double>(half * each));
            return true;
        }
    }
    std::fprintf(stderr, "pipeline: %s\n", fault.c_str());
    return false;
}

} // namespace

int main(int argc, char **argv) {
    size_t threads = argc > 1 ? std::strtoul(argv[1], nullptr, 10) : 4;
    uint64_t values = argc > 2 ? std::strtoull(argv[2], nullptr, 10) : 100000;
    bool good = threads >= 2 && run(msq::kind::non_blocking, "non-blocking", threads, values) &&
                run(msq::kind::two_lock, "two-lock", threads, values) && run(msq::kind::ring, "ring", threads, values);
    return good ? 0 : 1;
}
