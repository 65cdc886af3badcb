// What each call of a seat that pushes, pops or shuts answers in each state of a queue that it has a code for, and what a queue of
// values answers where others are in the way: on Linux. Prints how many answers were as they should be.
//
// Others are in the way where another thread is stopped within a call, by a signal. With MSQ_DEBUG none is stopped, and each other call
// of a seat that is in a call is refused.
#include "msq.hpp"
#include "msq_queue.hpp"

#include <atomic>
#include <chrono>
#include <csignal>
#include <cstdio>
#include <pthread.h>
#include <thread>
#include <vector>

namespace {

unsigned right, wrong;

void expect(const char *call, const char *when, uint32_t found, uint32_t due) {
    if (found == due) {
        right++;
    } else {
        wrong++;
        std::fprintf(stderr, "calls: %s, %s: %s, and not %s\n", call, when, msq_code_name(found), msq_code_name(due));
    }
}

void expect(const char *call, const char *when, const msq::result &found, uint32_t due) {
    expect(call, when, found.code(), due);
}

uint64_t body;
uint32_t turns;
msq_value value;
size_t count;

struct call {
    const char *name;
    msq::result (*make)(msq::seat &);
};

const std::vector<call> pushes{{"try_push", [](msq::seat &it) { return it.try_push(body, turns); }},
                               {"try_push_all", [](msq::seat &it) { return it.try_push_all(&body, 1, count, turns); }}};
const std::vector<call> pops{{"try_pop", [](msq::seat &it) { return it.try_pop(value, turns); }},
                             {"try_pop_up_to", [](msq::seat &it) { return it.try_pop_up_to(&value, 1, count, turns); }}};
const std::vector<call> shuts{{"try_shut", [](msq::seat &it) { return it.try_shut(turns); }}};

// Each of these calls answers so.
void each(const std::vector<call> &calls, msq::seat &seat, const char *when, msq_code due) {
    for (const auto &it : calls) {
        expect(it.name, when, it.make(seat), due);
    }
}

using roles = std::vector<msq::role>;
const roles two{msq::role::giver, msq::role::taker};

// New seats of these roles.
void open(std::vector<msq::seat> &seats, msq::kind kind, uint32_t nodes, const roles &roles, uint64_t limit = MSQ_MOST_COUNT) {
    auto made = msq::create(kind, nodes, roles, limit);
    expect("create", "new", made.first, MSQ_OK);
    seats = std::move(made.second);
}
void each_state(msq::kind kind) {
    std::vector<msq::seat> seats(1);
    body = 1, turns = 8;
    each(pushes, seats[0], "no seat", MSQ_NO_SEAT);
    each(pops, seats[0], "no seat", MSQ_NO_SEAT);
    each(shuts, seats[0], "no seat", MSQ_NO_SEAT);

    open(seats, kind, 32, two);
    each(pushes, seats[0], "room", MSQ_OK);
    each(pops, seats[1], "values", MSQ_OK);
    while (seats[1].try_pop(value) == MSQ_OK) {
    }
    each(pops, seats[1], "empty", MSQ_EMPTY);
    each(pushes, seats[1], "a taker", MSQ_NO_ROLE);
    each(pops, seats[0], "a giver", MSQ_NO_ROLE);
    each(shuts, seats[1], "a taker", MSQ_NO_ROLE);
    body = MSQ_BODIES;
    each(pushes, seats[0], "a body of 2^48", MSQ_BAD_SIZE);
    body = 1, turns = 0;
    each(pushes, seats[0], "no turns", MSQ_BAD_SIZE);
    each(pops, seats[1], "no turns", MSQ_BAD_SIZE);
    each(shuts, seats[0], "no turns", MSQ_BAD_SIZE);
    turns = 8;
    each(shuts, seats[0], "open", MSQ_OK);
    each(shuts, seats[0], "shut", MSQ_CLOSED);
    each(pushes, seats[0], "shut", MSQ_CLOSED);
    each(pops, seats[1], "shut and empty", MSQ_CLOSED);

    open(seats, kind, 2, two);
    for (int k = 0; k < 100 && seats[0].try_push(1) == MSQ_OK; k++) {
    }
    each(pushes, seats[0], "full", MSQ_NO_NODE);
}

// At the limit 1, where each word can be raised once, and a ring has three places.
void words_wear_out(msq::kind kind) {
    const bool blocks = kind == msq::kind::two_lock, is_ring = kind == msq::kind::ring;
    std::vector<msq::seat> seats;
    open(seats, kind, 2, two, 1);
    for (int k = 0; k < 100 && seats[0].try_push(1) == MSQ_OK; k++) {
        expect("try_pop", "a value", seats[1].try_pop(value), MSQ_OK);
    }
    each(pushes, seats[0], "worn out", is_ring ? MSQ_WORN_TAIL : MSQ_WORN_FREE);
    if (is_ring) {
        return;
    }
    open(seats, kind, 16, two, 1);
    expect("try_push", "new", seats[0].try_push(1), MSQ_OK);
    expect("try_push", "new", seats[0].try_push(2), MSQ_OK);
    if (!blocks) {
        each(pushes, seats[0], "a worn Tail", MSQ_WORN_TAIL);
        each(shuts, seats[0], "a worn Tail", MSQ_WORN_TAIL);
    }
    expect("try_pop", "a value", seats[1].try_pop(value), MSQ_OK);
    each(pops, seats[1], "a worn end", blocks ? MSQ_WORN_HEAD : MSQ_WORN_TAIL);
}

// At the limit 2 the free list is worn with nothing in it, so that the queue counts as full.
void a_full_queue_is_told() {
    std::vector<msq::seat> seats;
    open(seats, msq::kind::two_lock, 4, two, 2);
    for (int k = 0; k < 3; k++) {
        expect("try_push", "new nodes", seats[0].try_push(1), MSQ_OK);
    }
    expect("try_pop", "values", seats[1].try_pop(value), MSQ_OK);
    expect("try_push", "a node that came back", seats[0].try_push(1), MSQ_OK);
    expect("try_pop", "values", seats[1].try_pop(value), MSQ_OK);
    each(pushes, seats[0], "full", MSQ_NO_NODE);
    each(pops, seats[1], "a worn Head", MSQ_WORN_HEAD);
    each(pushes, seats[0], "full, of a worn Head", MSQ_NO_NODE);
}

#if defined(MSQ_DEBUG)

// Each call of a seat with which another thread pushes over and over: at times that thread is within a call.
void another_call_uses_the_seat(msq::kind kind) {
    std::vector<msq::seat> seats;
    std::atomic<bool> over{false};
    body = 1, turns = 8;
    open(seats, kind, 8, {msq::role::both, msq::role::giver});
    std::thread other([&] {
        while (!over) {
            (void)seats[0].try_push(1);
        }
    });
    const std::vector<call> those{{"try_push", [](msq::seat &it) { return it.try_push(body, turns); }},
                                  {"try_pop", [](msq::seat &it) { return it.try_pop(value, turns); }},
                                  {"try_shut", [](msq::seat &it) { return it.try_shut(turns); }},
                                  {"keep_nodes", [](msq::seat &it) { return it.keep_nodes(true); }},
                                  {"emptiness", [](msq::seat &it) { return msq::result(it.emptiness()); }},
                                  {"len", [](msq::seat &it) {
                                       msq_length length{};
                                       return it.len(length);
                                   }},
                                  {"left", [](msq::seat &it) {
                                       msq_remaining left{};
                                       return it.left(left);
                                   }}};
    for (const auto &it : those) {
        bool told = false;
        for (int tries = 0; tries < 10000000 && !told; tries++) {
            told = it.make(seats[0]) == MSQ_TWO_CALLS;
        }
        expect(it.name, "another call", told, true);
    }
    over = true;
    other.join();
}

void others_are_in_the_way() {
    for (auto kind : {msq::kind::non_blocking, msq::kind::two_lock, msq::kind::ring}) {
        another_call_uses_the_seat(kind);
    }
}

#else

std::atomic<bool> stops, rests;

// Stops the thread where it is, until it is let go.
extern "C" void stop_here(int) {
    rests = true;
    while (stops) {
        sched_yield();
    }
    rests = false;
}

// A thread that does something over and over, and is stopped in between for a look by another one, until that finds what it looks for.
template <class Act, class Look> void stop_within(Act act, Look look) {
    std::atomic<bool> over{false};
    bool found = false;
    std::thread other([&] {
        while (!over) {
            act();
        }
    });
    for (int tries = 0; tries < 1000000 && !found; tries++) {
        stops = true;
        pthread_kill(other.native_handle(), SIGUSR1);
        while (!rests) {
            std::this_thread::yield();
        }
        found = look();
        stops = false;
        while (rests) {
            std::this_thread::yield();
        }
    }
    over = true;
    other.join();
    expect("a stop", "within a call", found, true);
}

const roles four{msq::role::giver, msq::role::taker, msq::role::giver, msq::role::taker};

// Pushes and pops by the seats that other calls don't use.
void push_and_pop(std::vector<msq::seat> &seats) {
    static msq_value own;
    (void)seats[2].try_push(7);
    (void)seats[3].try_pop(own);
}

// A thread stopped with the lock of Tail, and one with that of Head: who needs it finds the queue busy.
void locks_are_held() {
    std::vector<msq::seat> seats;
    open(seats, msq::kind::two_lock, 16, four);
    const auto act = [&] { push_and_pop(seats); };
    stop_within(act, [&] {
        const auto code = seats[0].try_push(7);
        if (code == MSQ_BUSY) {
            each(pushes, seats[0], "a held lock", MSQ_BUSY);
        } else { // so that the queue isn't full at last, where a push lacks a node before it looks at the lock
            (void)seats[1].try_pop(value);
        }
        return code == MSQ_BUSY;
    });
    stop_within(act, [&] {
        const auto code = seats[1].try_pop(value);
        if (code == MSQ_BUSY) {
            each(pops, seats[1], "a held lock", MSQ_BUSY);
        }
        return code == MSQ_BUSY;
    });
}

// The same of a queue of values, none of which takes memory, which the other thread might be stopped in taking.
void value_locks_are_held() {
    msq::queue<uint32_t> queue(16, {msq::kind::two_lock, 4});
    const auto act = [&] {
        (void)queue.try_push(7);
        (void)queue.try_pop();
    };
    stop_within(act, [&] {
        const auto code = queue.try_push(7).code();
        if (code != msq::status::busy) {
            (void)queue.try_pop();
        }
        return code == msq::status::busy;
    });
    stop_within(act, [&] { return queue.try_pop().code() == msq::status::busy; });
}

// A thread stopped before it has filled the place at the front of a ring, which is then shut: it holds the value, which no pop gets
// yet.
void a_place_is_claimed() {
    std::vector<msq::seat> seats;
    open(seats, msq::kind::ring, 16, four);
    stop_within([&] { push_and_pop(seats); }, [&] {
        const bool claimed = seats[1].try_pop(value) == MSQ_BUSY;
        if (claimed) {
            expect("try_shut", "a claimed place", seats[0].try_shut(), MSQ_OK);
            expect("emptiness", "a claimed place of a ring that is shut", seats[0].emptiness(), MSQ_OK);
        }
        return claimed;
    });
}

void others_are_in_the_way() {
    struct sigaction action {};
    action.sa_handler = stop_here;
    sigaction(SIGUSR1, &action, nullptr);
    body = 1, turns = 8;
    locks_are_held();
    value_locks_are_held();
    a_place_is_claimed();
}

#endif

} // namespace

int main() {
    for (auto kind : {msq::kind::non_blocking, msq::kind::two_lock, msq::kind::ring}) {
        each_state(kind);
        words_wear_out(kind);
    }
    a_full_queue_is_told();
    others_are_in_the_way();
    std::printf("%u answers as they should be, %u not\n", right, wrong);
    return wrong != 0;
}
