// What a seat can see of its queue, in C++. Prints how many answers were as they should be.
#include "msq.hpp"

#include <cstdio>

static unsigned right, wrong;

static void expect(const char *what, bool holds) {
    if (holds) {
        right++;
    } else {
        wrong++;
        std::fprintf(stderr, "looks: %s\n", what);
    }
}

static void a_queue_is_seen(msq::kind kind) {
    auto made = msq::create(kind, 8, {msq::role::giver, msq::role::taker}, 101);
    auto &seats = made.second;
    expect("create", made.first == MSQ_OK);
    msq::seat &giver = seats[0], &taker = seats[1];
    expect("a new queue is empty", taker.emptiness() == MSQ_EMPTY);
    expect("a push", giver.try_push(1) == MSQ_OK);
    expect("it holds a value", taker.emptiness() == MSQ_OK);
    msq_length length{};
    const auto told = taker.len(length);
    if (kind == msq::kind::two_lock) {
        expect("no length is told", told == MSQ_UNCOUNTED);
    } else {
        expect("one value", told && length.least == 1 && length.most == 1);
    }
    msq_remaining left{};
    const auto known = giver.left(left);
    if (kind == msq::kind::ring) {
        expect("108 pushes are left", known && left.pushes == 108 && left.free == UINT64_MAX);
    } else {
        expect("46 pushes are left", known && left.pushes == 46 && left.free == 101);
    }
    expect("a shut", giver.try_shut() == MSQ_OK);
    msq_value value{};
    expect("a pop", taker.try_pop(value) == MSQ_OK);
    expect("it is shut and empty", giver.emptiness() == MSQ_CLOSED);
    msq::seat none;
    expect("no seat sees nothing",
           none.emptiness() == MSQ_NO_SEAT && none.len(length) == MSQ_NO_SEAT && none.left(left) == MSQ_NO_SEAT);
}

int main() {
    a_queue_is_seen(msq::kind::non_blocking);
    a_queue_is_seen(msq::kind::two_lock);
    a_queue_is_seen(msq::kind::ring);
    std::printf("%u answers as they should be, %u not\n", right, wrong);
    return wrong != 0;
}
