// Calls of each sort on one queue of values: threads that push and pop, wait, try and wait for a time, by handles that are copied and
// dropped, and a close while all of them are at it, again and again. Each value comes once, or is refused and there again, those of one
// thread come in their order, nobody is left asleep, and no value stays alive.
//
//     mixed THREADS VALUES: so many strings through queues with room for 1, 2 and 64, by each kind. Prints a line each.
#include "msq_queue.hpp"

#include <algorithm>
#include <atomic>
#include <cstdio>
#include <random>
#include <string>
#include <thread>
#include <vector>

namespace {

// A string of its own type, of which each one that is alive is counted.
class text {
public:
    text(uint64_t giver, uint64_t number) : words_(std::to_string(number) + " of thread " + std::to_string(giver)) { alive++; }
    text(text &&other) noexcept : words_(std::move(other.words_)) { alive++; }
    text &operator=(text &&other) noexcept = default;
    ~text() { alive--; }
    uint64_t number() const { return std::stoull(words_); }
    uint64_t giver() const { return std::stoull(words_.substr(words_.find("thread ") + 7)); }

    static std::atomic<long> alive;

private:
    std::string words_;
};

std::atomic<long> text::alive{0};
std::atomic<bool> wrong{false};

void is_wrong(const char *what, uint64_t number) {
    if (!wrong.exchange(true)) {
        std::fprintf(stderr, "mixed: %s: %llu\n", what, static_cast<unsigned long long>(number));
    }
}

// What goes through one queue until its close, which comes after so many pushes.
struct passage {
    uint64_t givers, last;
    std::atomic<uint64_t> pushed{0}, pushed_sum{0}, popped{0}, popped_sum{0};
};

msq::pushed<text> push_somehow(msq::queue<text> &queue, text value, uint64_t way) {
    switch (way % 4) {
    case 0:
        return queue.push(std::move(value));
    case 1:
        return queue.try_push(std::move(value));
    case 2:
        return queue.push_for(std::move(value), std::chrono::nanoseconds(way % 100000));
    default:
        return queue.push_until(std::move(value), std::chrono::steady_clock::now() + std::chrono::microseconds(way % 100));
    }
}

msq::popped<text> pop_somehow(msq::queue<text> &queue, uint64_t way) {
    switch (way % 4) {
    case 0:
        return queue.pop();
    case 1:
        return queue.try_pop();
    case 2:
        return queue.pop_for(std::chrono::nanoseconds(way % 100000));
    default:
        return queue.pop_until(std::chrono::steady_clock::now() + std::chrono::microseconds(way % 100));
    }
}

void give(msq::queue<text> queue, passage &all, uint64_t giver) {
    std::mt19937_64 drawn(giver);
    for (uint64_t number = 0;;) {
        auto own = queue;
        auto told = push_somehow(own, text(giver, number), drawn());
        if (told) {
            all.pushed_sum += number++;
            if (++all.pushed == all.last) {
                queue = std::move(own);
                queue.close();
            }
        } else if (std::move(told).value().number() != number) {
            is_wrong("another value came back", number);
        } else if (told.code() == msq::status::closed) {
            return;
        }
    }
}

void take(msq::queue<text> queue, passage &all, uint64_t taker) {
    std::mt19937_64 drawn(taker);
    std::vector<uint64_t> next(all.givers);
    for (;;) {
        auto own = queue;
        auto told = pop_somehow(own, drawn());
        if (told.code() == msq::status::closed) {
            return;
        }
        if (told) {
            const uint64_t giver = told->giver(), number = told->number();
            if (giver >= all.givers || number < next[giver]) {
                return is_wrong("out of order", number);
            }
            next[giver] = number + 1;
            all.popped++;
            all.popped_sum += number;
        }
    }
}

// Up to so many values go through a queue until it is closed: how many did.
uint64_t pass(msq::options how, uint64_t threads, std::size_t capacity, uint64_t last) {
    passage all{threads / 2, last};
    {
        msq::queue<text> queue(capacity, how);
        std::vector<std::thread> running;
        for (uint64_t k = 0; k < threads; k++) {
            running.emplace_back(k < all.givers ? give : take, queue, std::ref(all), k);
        }
        for (auto &thread : running) {
            thread.join();
        }
        if (!queue.empty() || all.popped != all.pushed || all.popped_sum != all.pushed_sum) {
            is_wrong("not each once", all.popped);
        }
    }
    if (text::alive != 0) {
        is_wrong("alive", static_cast<uint64_t>(text::alive));
    }
    return all.pushed;
}

} // namespace

int main(int count, char **words) {
    const uint64_t threads = count == 3 ? std::stoull(words[1]) : 0, values = count == 3 ? std::stoull(words[2]) : 0;
    std::mt19937_64 drawn(1);
    if (threads < 2 || values == 0) {
        std::fprintf(stderr, "usage: mixed THREADS VALUES\n");
        return 2;
    }
    for (auto kind : {msq::kind::non_blocking, msq::kind::two_lock, msq::kind::ring}) {
        for (std::size_t capacity : {1u, 2u, 64u}) {
            uint64_t came = 0;
            while (came < values && !wrong) {
                came += pass({kind, 3}, threads, capacity, drawn() % std::min(values - came, values / 8 + 1) + 1);
            }
            if (!wrong) {
                std::printf("%s, room for %zu: %llu strings in order, each once\n", msq_kind_name(static_cast<uint32_t>(kind)), capacity,
                            static_cast<unsigned long long>(came));
            }
        }
    }
    return wrong;
}
