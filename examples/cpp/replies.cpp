// A queue for each reply, by a handle that goes along with what is asked: who asked drops its own as soon as it has the reply, while who
// pushed it may still ring. Then what calls answer, as it is asked for in conditions and loops.
//
//     replies ROUNDS: so many replies by each kind of queue and each way in which values pass
#include "msq_queue.hpp"

#include <atomic>
#include <cstdio>
#include <cstdlib>
#include <string>
#include <thread>

namespace {

unsigned wrong;

void expect(const char *what, bool holds) {
    if (!holds) {
        wrong++;
        std::fprintf(stderr, "replies: %s\n", what);
    }
}

// Values that pass as they are, and in boxes.
template <class T> T value_of(long number);
template <> int value_of(long number) { return static_cast<int>(number); }
template <> std::unique_ptr<long> value_of(long number) { return std::make_unique<long>(number); }
template <> std::string value_of(long number) { return std::string(40, 'x') + std::to_string(number); }

template <class T> bool is(const T &value, long number) { return value == value_of<T>(number); }
template <> bool is(const std::unique_ptr<long> &value, long number) { return value != nullptr && *value == number; }

template <class T> struct request {
    long number;
    msq::queue<T> reply;
    bool closes;
};

template <class T> void replies_end_their_queues(msq::options how, long rounds) {
    msq::queue<request<T>> requests(2, how);
    std::thread server([requests]() mutable {
        for (auto &it : requests) {
            expect("a reply is pushed", static_cast<bool>(it.reply.push(value_of<T>(2 * it.number))));
            if (it.closes) {
                it.reply.close();
            }
        }
    });
    for (long number = 0; number < rounds; number++) {
        const bool closes = number % 2 != 0;
        msq::queue<T> reply(1, how);
        expect("a request", static_cast<bool>(requests.push({number, reply, closes})));
        auto got = reply.pop();
        expect("a reply", got && is(*got, 2 * number));
        if (closes) {
            auto late = reply.pop();
            expect("a close", !late && late.code() == msq::status::closed);
        }
    }
    requests.close();
    server.join();
}

// A push is tried until it is done, a pop as long as there is something.
template <class T> void conditions_mean_what_they_say(msq::options how) {
    msq::queue<T> queue(4, how);
    std::thread taker([&] {
        for (long number = 0; number < 1000;) {
            if (auto taken = queue.try_pop()) {
                expect("in its order", is(*taken, number++));
            } else {
                std::this_thread::yield();
            }
        }
    });
    for (long number = 0; number < 1000; number++) {
        while (!queue.try_push(value_of<T>(number))) {
            std::this_thread::yield();
        }
    }
    taker.join();
    expect("each push was done once", !queue.try_pop());
    unsigned pushed = 0;
    while (queue.try_push(value_of<T>(7))) {
        pushed++;
    }
    expect("as many as there is room for", pushed == 4 && queue.size() == 4 && queue.capacity() == 4);
    auto told = queue.try_push(value_of<T>(8));
    expect("a full queue", !told && told.code() == msq::status::full && is(std::move(told).value(), 8));
    auto late = queue.push_for(value_of<T>(9), std::chrono::milliseconds(1));
    expect("no time", late.code() == msq::status::timed_out && is(std::move(late).value(), 9));
    if (auto taken = queue.try_pop()) {
        expect("what was pushed", is(*taken, 7));
    } else {
        expect("a value", false);
    }
    expect("the rest", queue.consume_all([](T &&value) { expect("which was pushed", is(value, 7)); }) == 3 && queue.empty());
}

// A loop around a pop with a time tells a close from a time that is over.
template <class T> void a_late_pop_is_no_close(msq::options how) {
    msq::queue<T> queue(4, how);
    std::atomic<bool> was_late{false};
    std::thread giver([queue, &was_late]() mutable {
        while (!was_late) {
            std::this_thread::yield();
        }
        expect("a push", static_cast<bool>(queue.push(value_of<T>(7))));
        queue.close();
    });
    unsigned came = 0, late = 0;
    for (;;) {
        auto taken = queue.pop_for(std::chrono::milliseconds(1));
        if (taken) {
            came++;
        } else if (taken.code() == msq::status::closed) {
            break;
        } else {
            late++;
            was_late = true;
        }
    }
    giver.join();
    expect("one came, others were late", came == 1 && late > 0);
    expect("it is closed", queue.is_closed() && queue.push(value_of<T>(1)).code() == msq::status::closed);
}

template <class T> void handles_are_shared() {
    msq::queue<T> one(1), other = one, third(1);
    expect("one queue", one == other && one != third);
    expect("by either", other.try_push(value_of<T>(5)) && one.size() == 1);
    third = std::move(other);
    expect("and by the third", third == one && !other && is(*third.pop(), 5));
    expect("what is left goes with the last handle", static_cast<bool>(one.push(value_of<T>(6))));
}

template <class T> void run(const char *name, long rounds) {
    for (auto kind : {msq::kind::non_blocking, msq::kind::two_lock, msq::kind::ring}) {
        msq::options how;
        how.kind = kind;
        how.calls = 4;
        replies_end_their_queues<T>(how, rounds);
        conditions_mean_what_they_say<T>(how);
        a_late_pop_is_no_close<T>(how);
        if (wrong == 0) {
            std::printf("%s, %s: each reply came, and ended its queue\n", name, msq_kind_name(static_cast<uint32_t>(kind)));
        }
    }
    handles_are_shared<T>();
}

} // namespace

int main(int count, char **arguments) {
    const long rounds = count > 1 ? std::atol(arguments[1]) : 20000;
    run<int>("numbers", rounds);
    run<std::unique_ptr<long>>("unique pointers", rounds);
    run<std::string>("strings", rounds);
    return wrong != 0;
}
