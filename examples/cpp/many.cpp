// Many bodies at one call of a seat, in C++. Prints how many answers were as they should be.
#include "msq.hpp"

#include <algorithm>
#include <atomic>
#include <cstdio>
#include <mutex>
#include <numeric>
#include <thread>
#include <vector>

static unsigned right, wrong;

static void expect(const char *what, bool holds) {
    if (holds) {
        right++;
    } else {
        wrong++;
        std::fprintf(stderr, "many: %s\n", what);
    }
}

static void many_pass(msq::kind kind) {
    auto made = msq::create(kind, 64, {msq::role::giver, msq::role::taker});
    expect("create", made.first == MSQ_OK);
    msq::seat &giver = made.second[0], &taker = made.second[1];
    std::vector<uint64_t> bodies(40);
    std::iota(bodies.begin(), bodies.end(), 1);
    std::vector<msq_value> values(64);
    size_t count = 9;
    expect("none of nothing", taker.try_pop_up_to(values.data(), values.size(), count) == MSQ_EMPTY && count == 0);
    expect("a push of many", giver.try_push_all(bodies.data(), bodies.size(), count) == MSQ_OK && count == 40);
    expect("a pop of some", taker.try_pop_up_to(values.data(), 8, count) == MSQ_OK && count == 8);
    expect("in their order", values[0].body == 1 && values[7].body == 8);
    expect("a pop of all", taker.try_pop_up_to(values.data(), values.size(), count) == MSQ_EMPTY && count == 32);
    expect("up to the last one", values[31].body == 40);
    expect("a shut", giver.try_shut() == MSQ_OK);
    expect("a push behind it", giver.try_push_all(bodies.data(), 1, count) == MSQ_CLOSED && count == 0);
    expect("a pop behind it", taker.try_pop_up_to(values.data(), 1, count) == MSQ_CLOSED && count == 0);
    expect("a taker that is to keep nodes", taker.keep_nodes(true) == MSQ_OK);
    msq::seat none;
    expect("no seat pushes", none.try_push_all(bodies.data(), 1, count) == MSQ_NO_SEAT && count == 0);
    expect("no seat pops", none.try_pop_up_to(values.data(), 1, count) == MSQ_NO_SEAT && count == 0);
    expect("no seat keeps", none.keep_nodes(true) == MSQ_NO_SEAT);
}

// One pushes as many as go at a call, and one pops so: each value comes once, in order.
static void many_pass_between_two(msq::kind kind) {
    auto made = msq::create(kind, 4, {msq::role::giver, msq::role::taker});
    msq::seat &giver = made.second[0], &taker = made.second[1];
    const size_t total = 4000;
    size_t came = 0;
    bool in_order = true;
    std::thread pops([&] {
        msq_value values[16];
        while (came < total) {
            size_t count = 0;
            (void)taker.try_pop_up_to(values, 16, count);
            for (size_t k = 0; k < count; k++) {
                in_order = in_order && values[k].body == came;
                came++;
            }
        }
    });
    for (uint64_t next = 0; next < total;) {
        const uint64_t bodies[] = {next, next + 1, next + 2, next + 3};
        size_t count = 0;
        (void)giver.try_push_all(bodies, std::min<size_t>(4, total - next), count);
        next += count;
    }
    pops.join();
    expect("each once, in order", in_order && came == total);
}

// Two push as many as go at a call, and two pop so: each value comes once, and those of each who pushes in their order.
static void many_pass_between_four(msq::kind kind) {
    auto made = msq::create(kind, 128, {msq::role::giver, msq::role::giver, msq::role::taker, msq::role::taker});
    const uint64_t total = 20000;
    std::atomic<uint64_t> came{0};
    std::atomic<bool> in_order{true};
    std::vector<std::vector<uint64_t>> bodies(2);
    std::vector<std::thread> threads;
    std::mutex guard;
    for (unsigned k = 0; k < 2; k++) {
        threads.emplace_back([&, k] {
            std::vector<uint64_t> mine(total);
            std::iota(mine.begin(), mine.end(), 0);
            for (size_t next = 0, count = 0; next < total; next += count) {
                (void)made.second[k].try_push_all(mine.data() + next, std::min<size_t>(50, total - next), count);
                if (count == 0) {
                    std::this_thread::yield();
                }
            }
        });
        threads.emplace_back([&, k] {
            std::vector<msq_value> values(50);
            std::vector<std::vector<uint64_t>> mine(2);
            while (came < 2 * total) {
                size_t count = 0;
                (void)made.second[2 + k].try_pop_up_to(values.data(), values.size(), count);
                for (size_t v = 0; v < count; v++) {
                    std::vector<uint64_t> &those = mine.at(values[v].from - 1u);
                    in_order = in_order && (those.empty() || those.back() < values[v].body);
                    those.push_back(values[v].body);
                }
                came += count;
                if (count == 0) {
                    std::this_thread::yield();
                }
            }
            std::lock_guard<std::mutex> hold(guard);
            for (unsigned from = 0; from < 2; from++) {
                bodies[from].insert(bodies[from].end(), mine[from].begin(), mine[from].end());
            }
        });
    }
    for (auto &thread : threads) {
        thread.join();
    }
    bool once = came == 2 * total;
    for (auto &those : bodies) {
        std::sort(those.begin(), those.end());
        once = once && std::unique(those.begin(), those.end()) == those.end() && those.size() == total;
    }
    expect("each once", once);
    expect("in the order of who pushed it", in_order);
}

int main() {
    for (auto kind : {msq::kind::non_blocking, msq::kind::two_lock, msq::kind::ring}) {
        many_pass(kind);
        many_pass_between_two(kind);
        many_pass_between_four(kind);
    }
    std::printf("%u answers as they should be, %u not\n", right, wrong);
    return wrong != 0;
}
