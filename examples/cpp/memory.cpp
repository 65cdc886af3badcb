// What the calls that take memory answer where there is none: MSQ_MEMORY, or std::bad_alloc where it is a queue of values or a box of
// one, and all stays as it was, so that the same call is done once there is some. Each allocation of the library, and of boxes, is
// refused in turn, for which the program is linked with --wrap of malloc, calloc and realloc. Prints how many were refused, and how many
// answers weren't as they should be.
#include "msq.hpp"
#include "msq_queue.hpp"

#include <cstdio>
#include <cstdlib>
#include <new>
#include <vector>

namespace {

long before = -1; // how many allocations are done before the one that is refused; none is where it is below 0
unsigned refused, wrong;

bool is_refused() { return before >= 0 && before-- == 0; }

void expect(const char *what, bool holds) {
    if (!holds) {
        wrong++;
        std::fprintf(stderr, "memory: %s\n", what);
    }
}

template <class Call> msq_code answer_of(Call call) {
    try {
        return call();
    } catch (const std::bad_alloc &) {
        return MSQ_MEMORY;
    }
}

// The call is refused MSQ_MEMORY, or throws, where one of its allocations is refused, each in turn, and then done.
template <class Call> void is_done_at_last(const char *what, Call call) {
    msq_code code = MSQ_MEMORY;
    long allocations = -1;
    while (code == MSQ_MEMORY) {
        before = ++allocations;
        code = answer_of(call);
        before = -1;
        refused += code == MSQ_MEMORY;
    }
    expect(what, code == MSQ_OK && allocations > 0);
}

// A queue has it in a box.
struct large {
    int number = 0;
    char apart[64] = {};

    large() = default;
    explicit large(int number) : number(number) {}
};

const std::vector<msq::role> two{msq::role::giver, msq::role::taker};

void seats(msq::kind kind) {
    std::vector<msq::seat> made;
    is_done_at_last("create", [&] {
        auto answer = msq::create(kind, 8, two);
        made = std::move(answer.second);
        return answer.first;
    });
    expect("a push", bool(made[0].try_push(7)));
    is_done_at_last("close", [&] {
        const auto ended = msq::close(made);
        expect("what is left", ended.left.size() == (ended.code == MSQ_OK));
        return ended.code;
    });
}

template <class T> msq::queue<T> queue_of(msq::kind kind) {
    auto made = msq::queue<T>::create(0);
    expect("no queue without room", !made);
    is_done_at_last("a queue of values", [&] {
        made = msq::queue<T>::create(8, {kind, 2});
        return made ? MSQ_OK : MSQ_MEMORY;
    });
    return made;
}

// A value that lies in the queue takes none.
void in_place(msq::queue<uint64_t> queue) {
    before = 0;
    expect("a push", bool(queue.push(7)) && *queue.pop() == 7 && before == 0);
    before = -1;
}

// A value that finds no box isn't pushed.
void boxes(msq::kind kind) {
    auto queue = queue_of<large>(kind);
    const auto is_pushed = [](const msq::pushed<large> &told) { return told ? MSQ_OK : MSQ_FULL; };
    is_done_at_last("a push", [&] { return is_pushed(queue.try_push(large(7))); });
    is_done_at_last("one that waits", [&] { return is_pushed(queue.push(large(7))); });
    is_done_at_last("for some time", [&] { return is_pushed(queue.push_for(large(7), std::chrono::seconds(1))); });
    is_done_at_last("made where it lies", [&] { return is_pushed(queue.emplace(7)); });
    is_done_at_last("a queue that throws", [&] {
        msq::queue<large> made(8, {kind, 2});
        return MSQ_OK;
    });
    size_t count = 0;
    before = 0;
    queue.consume_all([&](large &&it) { count += it.number == 7; });
    expect("pops take no memory", before == 0);
    before = -1;
    expect("each came once", count == 4);
}

} // namespace

extern "C" {
void *__real_malloc(size_t size);
void *__real_calloc(size_t count, size_t size);
void *__real_realloc(void *old, size_t size);

void *__wrap_malloc(size_t size) { return is_refused() ? nullptr : __real_malloc(size); }
void *__wrap_calloc(size_t count, size_t size) { return is_refused() ? nullptr : __real_calloc(count, size); }
void *__wrap_realloc(void *old, size_t size) { return is_refused() ? nullptr : __real_realloc(old, size); }
}

// (not inlined, as gcc else takes their calls of the C library for a mix of both)
[[gnu::noinline]] void *operator new(size_t size) {
    void *at = __wrap_malloc(size);
    if (at == nullptr) {
        throw std::bad_alloc();
    }
    return at;
}
[[gnu::noinline]] void *operator new(size_t size, const std::nothrow_t &) noexcept { return std::malloc(size); }
[[gnu::noinline]] void operator delete(void *at) noexcept { std::free(at); }
[[gnu::noinline]] void operator delete(void *at, size_t) noexcept { std::free(at); }

int main() {
    for (auto kind : {msq::kind::non_blocking, msq::kind::two_lock, msq::kind::ring}) {
        seats(kind);
        in_place(queue_of<uint64_t>(kind));
        boxes(kind);
    }
    std::printf("%u allocations were refused, and %u answers were not as they should be\n", refused, wrong);
    return wrong != 0;
}
