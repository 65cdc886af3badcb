// One program of two files, of which one has MSQ_DEBUG: this file is compiled with it and without, and both are linked. Each has the
// calls that it was compiled with, in whatever order: one is told of two calls at one time on a seat, and the other isn't.
#include "msq.hpp"

#include <cstdio>

namespace {

// What a push answers in the middle of another call of its seat.
uint32_t told() {
    const uint8_t roles[] = {MSQ_BOTH};
    msq_seat seat{};
    msq_call call{};
    if (msq_create(MSQ_NON_BLOCKING, 8, MSQ_MOST_COUNT, roles, 1, &seat, 1) != MSQ_OK || !msq_begin(&call, &seat, 1, false)) {
        return MSQ_MEMORY;
    }
    const uint32_t code = msq_try_push(&seat, 7, 8);
    msq_end(&call);
    msq_drop(&seat);
    return code;
}

} // namespace

#if defined(MSQ_DEBUG)
uint32_t told_with_debug() { return told(); }
#else
uint32_t told_with_debug();

int main() {
    const uint32_t with = told_with_debug(), without = told();
    std::printf("with MSQ_DEBUG %s, without %s\n", msq_code_name(with), msq_code_name(without));
    return with != MSQ_TWO_CALLS || without != MSQ_OK;
}
#endif
