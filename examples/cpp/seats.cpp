// What becomes of seats that are made, meet and are closed. Prints how many answers were as they should be.
#include "msq.hpp"

#include <cstdio>
#include <utility>
#include <vector>

namespace {

unsigned right, wrong;

void expect(const char *what, uint32_t found, uint32_t due) {
    if (found == due) {
        right++;
    } else {
        wrong++;
        std::fprintf(stderr, "seats: %s: %s, and not %s\n", what, msq_code_name(found), msq_code_name(due));
    }
}
void expect(const char *what, const msq::result &found, uint32_t due) {
    expect(what, found.code(), due);
}

const std::vector<msq::role> two{msq::role::giver, msq::role::taker};

void seats_meet_and_close(msq::kind kind) {
    expect("create with one node", msq::create(kind, 1, two).first, MSQ_BAD_SIZE);
    expect("create without a seat", msq::create(kind, 8, {}).first, MSQ_BAD_SIZE);
    auto one = msq::create(kind, 8, two).second, other = msq::create(kind, 8, two).second;
    std::vector<msq::seat> none;
    msq::seat empty;
    expect("a meeting", one[0].meet(one[1]), MSQ_OK);
    expect("a meeting of two queues", one[0].meet(other[0]), MSQ_TWO_QUEUES);
    expect("a meeting without a seat", one[0].meet(empty), MSQ_NO_SEAT);
    expect("a close by none", msq::close(none).code, MSQ_BAD_SIZE);
    std::swap(one[1], other[1]);
    expect("a close of two queues", msq::close(one).code, MSQ_TWO_QUEUES);
    std::swap(one[1], other[1]);
    none.push_back(std::move(one[1]));
    expect("a close by an empty seat", msq::close(one).code, MSQ_NO_SEAT);
    expect("a close by one of two", msq::close(none).code, MSQ_IN_USE);
    one[1] = std::move(none[0]);
    expect("a push behind what was refused", one[0].try_push(7), MSQ_OK);
    const auto ended = msq::close(one);
    expect("a close by all", ended.code, MSQ_OK);
    expect("what is left", ended.left.size() == 1 && ended.left[0].body == 7, true);
}

} // namespace

int main() {
    for (auto kind : {msq::kind::non_blocking, msq::kind::two_lock, msq::kind::ring}) {
        seats_meet_and_close(kind);
    }
    std::printf("%u answers as they should be, %u not\n", right, wrong);
    return wrong != 0;
}
