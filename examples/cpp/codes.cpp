// What each call of a queue of values answers, in each case that it has a status for, and what becomes of the value. Prints how many
// answers were as they should be. Compiled without exceptions, it leaves out the constructor that throws.
#include "msq_queue.hpp"

#include <array>
#include <atomic>
#include <cstdint>
#include <cstdio>
#include <cstring>
#include <initializer_list>
#include <limits>
#include <memory>
#include <string>
#include <thread>
#include <vector>

static unsigned right, wrong;

static void expect(const char *what, bool holds) {
    if (holds) {
        right++;
    } else {
        wrong++;
        std::fprintf(stderr, "codes: %s\n", what);
    }
}

using msq::status;
using std::chrono::milliseconds;

// A number that owns memory, and may be moved and no more.
class boxed {
public:
    explicit boxed(int number) : at_(new int(number)) { alive++; }
    boxed(boxed &&other) noexcept : at_(std::move(other.at_)) { alive++; }
    boxed &operator=(boxed &&) = delete;
    ~boxed() { alive--; }
    operator int() const { return *at_; }
    static long alive;

private:
    std::unique_ptr<int> at_;
};
long boxed::alive = 0;

// Three words, which lie in the queue.
struct three {
    explicit three(int number) : first(number), second(~first), third(first * 0x100000001) {}
    bool operator==(int number) const { return first == number && second == ~first && third == first * 0x100000001; }
    std::int64_t first, second, third;
};

template <class T> static msq::queue<T> made(msq::kind kind, std::size_t capacity) {
    return msq::queue<T>::create(capacity, {kind, 1});
}

template <class T> static void a_queue_answers(msq::kind kind) {
    auto queue = made<T>(kind, 2);
    expect("a queue", static_cast<bool>(queue) && queue.capacity() == 2 && queue.empty());
    expect("a try of nothing", queue.try_pop().code() == status::empty);
    expect("for some time", queue.pop_for(milliseconds(1)).code() == status::timed_out);
    expect("until now", queue.pop_until(std::chrono::system_clock::now()).code() == status::timed_out);
    expect("a push", static_cast<bool>(queue.push(T(1))) && queue.size() == 1);
    expect("in its place", queue.emplace(2).code() == status::ok && queue.size() == 2);
    auto full = queue.try_push(T(3));
    expect("a full queue", !full && full.code() == status::full && std::move(full).value() == 3);
    auto late = queue.push_for(T(4), milliseconds(1));
    expect("a late push", !late && late.code() == status::timed_out && std::move(late).value() == 4);
    expect("until now", queue.push_until(T(4), std::chrono::steady_clock::now()).code() == status::timed_out);
    auto first = queue.pop();
    expect("a pop", first && first.code() == status::ok && *first == 1);
    expect("what was popped moves", T(*std::move(first)) == 1);
    expect("a push for some time", static_cast<bool>(queue.push_for(T(3), milliseconds(1))));
    queue.close();
    queue.close();
    expect("it is closed", queue.is_closed());
    auto closed = queue.push(T(5));
    expect("a push behind it", closed.code() == status::closed && std::move(closed).value() == 5);
    expect("a try", queue.try_push(T(5)).code() == status::closed);
    expect("for some time", queue.push_for(T(5), milliseconds(1)).code() == status::closed);
    int next = 2;
    for (T &value : queue) {
        expect("what was left", value == next++);
    }
    expect("both", next == 4);
    expect("a pop of a closed queue", queue.pop().code() == status::closed);
    expect("a try", queue.try_pop().code() == status::closed);
    expect("for some time", queue.pop_for(milliseconds(1)).code() == status::closed);
    expect("it says so", std::string(msq::to_string(status::closed)) == "the queue is shut");
}

static void sizes_have_their_ranges(msq::kind kind) {
    const auto refused = [kind](std::size_t capacity, unsigned calls) {
        return !msq::queue<int>::create(capacity, {kind, calls});
    };
    expect("no room", refused(0, 1));
    expect("as many calls as fit", !refused(1, 0));
    expect("too many calls", refused(1, 32768));
    expect("too much room", refused(std::numeric_limits<std::size_t>::max(), 1));
#if defined(__cpp_exceptions)
    bool is_thrown = false;
    try {
        msq::queue<int> none(0, {kind});
    } catch (const std::length_error &) {
        is_thrown = true;
    }
    expect("thrown", is_thrown);
    msq::queue<int> one(1, {kind});
    expect("made", static_cast<bool>(one));
#endif
}

// What is left is destroyed with the last handle, also of a queue that nobody popped.
static void values_end_once(msq::kind kind) {
    {
        auto queue = made<boxed>(kind, 8);
        auto other = queue;
        for (int number = 0; number < 8; number++) {
            expect("a push", static_cast<bool>(queue.try_push(boxed(number))));
        }
        expect("eight", boxed::alive == 8);
        expect("a refused one", !queue.try_push(boxed(9)));
        expect("it has gone", boxed::alive == 8);
        expect("some are taken", queue.consume_all([](boxed &&value) { (void)boxed(std::move(value)); }) == 8);
        expect("and gone", boxed::alive == 0);
        expect("a last one", static_cast<bool>(other.try_push(boxed(1))));
    }
    expect("all have gone", boxed::alive == 0);
}

#if defined(__cpp_exceptions)
// A number that may throw as it is moved.
class heavy {
public:
    explicit heavy(int number) : number_(number) { alive++; }
    heavy(heavy &&other) : number_(other.number_) {
        if (throws) {
            throw std::runtime_error("heavy");
        }
        alive++;
    }
    ~heavy() { alive--; }
    int number() const { return number_; }
    static bool throws;
    static long alive;

private:
    int number_;
};
bool heavy::throws = false;
long heavy::alive = 0;

// A value that throws as it is moved isn't pushed, and those that were are popped, or go with the queue.
static void a_move_may_throw(msq::kind kind) {
    {
        auto queue = made<heavy>(kind, 4);
        bool is_thrown = false;
        expect("a push", static_cast<bool>(queue.push(heavy(1))) && static_cast<bool>(queue.emplace(2)));
        heavy third(3);
        heavy::throws = true;
        try {
            (void)!queue.try_push(std::move(third));
        } catch (const std::runtime_error &) {
            is_thrown = true;
        }
        expect("it throws", is_thrown && queue.size() == 2 && heavy::alive == 3);
        expect("pops move nothing", queue.pop()->number() == 1);
        heavy::throws = false;
    }
    expect("all have gone", heavy::alive == 0);
}
#endif

static void end_boxed(void *object, void *) { delete static_cast<boxed *>(object); }

// A queue whose words count up to the limit 1, which a handle has no other way to, tells that it is worn, and loses no value.
static void a_worn_queue_is_told(msq::kind kind) {
    {
        auto queue = made<boxed>(kind, 1);
        auto whole = std::move(queue);
        msq_queue *raw = nullptr;
        static_assert(sizeof raw == sizeof queue, "a handle is a pointer");
        expect("a queue", msq_queue_open(&raw, static_cast<msq_kind>(kind), 8, 1, 1, false, end_boxed, nullptr) == MSQ_OK);
        std::memcpy(static_cast<void *>(&queue), &raw, sizeof raw);
        int pushed = 0, popped = 0;
        auto told = queue.try_push(boxed(0));
        for (; told && pushed < 100; told = queue.try_push(boxed(pushed))) {
            pushed++;
            if (pushed % 2 == 0 && queue.try_pop()) {
                popped++;
            }
        }
        expect("a push", told.code() == status::worn && std::move(told).value() == pushed && queue.is_closed());
        for (boxed &value : queue) {
            expect("in order", value == popped++);
        }
        expect("a pop", queue.pop().code() == status::worn && queue.pop_for(milliseconds(1)).code() == status::worn);
    }
    expect("all have gone", boxed::alive == 0);
}

// Values that lie in the queue itself come out as they went in; a pointer from 2^48 on doesn't.
static void words_have_their_range(msq::kind kind) {
    auto numbers = made<int>(kind, 4);
    const int some[] = {0, -1, std::numeric_limits<int>::min(), std::numeric_limits<int>::max()};
    for (int number : some) {
        expect("a number", static_cast<bool>(numbers.try_push(number)));
    }
    for (int number : some) {
        expect("the same", *numbers.try_pop() == number);
    }
    auto pointers = made<const int *>(kind, 2);
    expect("a pointer", static_cast<bool>(pointers.try_push(some)) && *pointers.try_pop() == some);
    const auto far = reinterpret_cast<const int *>(std::uintptr_t{1} << 48);
    auto told = pointers.push(far);
    expect("one too far", told.code() == status::bad_size && std::move(told).value() == far && pointers.empty());
}

// Values of each size come out as they went in, those up to three words without a box.
template <class T> static void come_as_they_were(msq::kind kind, std::initializer_list<T> values) {
    auto queue = made<T>(kind, values.size());
    for (const T &value : values) {
        expect("a push", static_cast<bool>(queue.push(value)));
    }
    for (const T &value : values) {
        expect("the same", *queue.pop() == value);
    }
}

static void values_come_as_they_were(msq::kind kind) {
    come_as_they_were<std::uint64_t>(kind, {0, std::uint64_t{1} << 48, std::numeric_limits<std::uint64_t>::max()});
    come_as_they_were<double>(kind, {0.5, -1e300, std::numeric_limits<double>::infinity()});
    come_as_they_were<std::array<char, 9>>(kind, {{{'n', 'i', 'n', 'e'}}, {}});
    come_as_they_were<std::array<char, 24>>(kind, {{{'f', 'u', 'l', 'l'}}, {}});
    come_as_they_were<std::array<char, 25>>(kind, {{{'m', 'o', 'r', 'e'}}, {}});
    come_as_they_were<std::string>(kind, {"", "a text that takes memory of its own"});
    come_as_they_were<long double>(kind, {0.5L, -1e300L});
}

// Values of three words from two threads come whole to two others, those of a thread in its order.
static void three_words_stay_whole(msq::kind kind) {
    const int most = 5000;
    auto queue = msq::queue<three>::create(4, {kind, 3});
    std::atomic<long> sum{0}, wrongs{0};
    std::vector<std::thread> pushers, poppers;
    for (int k = 0; k < 2; k++) {
        poppers.emplace_back([&] {
            int last[2] = {-1, -1};
            for (three &value : queue) {
                const int number = static_cast<int>(value.first);
                wrongs += !(value == number) || number <= last[number % 2];
                last[number % 2] = number;
                sum += number;
            }
        });
        pushers.emplace_back([&, k] {
            for (int number = k; number < most; number += 2) {
                wrongs += !queue.push(three(number));
            }
        });
    }
    for (auto &thread : pushers) {
        thread.join();
    }
    queue.close();
    for (auto &thread : poppers) {
        thread.join();
    }
    expect("whole, and in order", wrongs == 0);
    expect("each once", sum == static_cast<long>(most) * (most - 1) / 2);
}

#if defined(__cpp_lib_jthread)
// A stop ends a call that waits, and one that has no need to wait is done.
static void stops_are_told(msq::kind kind) {
    auto queue = made<int>(kind, 1);
    status popped = status::ok, pushed = status::ok;
    {
        std::jthread waits([&](std::stop_token stop) { popped = queue.pop(stop).code(); });
        std::this_thread::sleep_for(milliseconds(5));
    }
    expect("a stopped pop", popped == status::timed_out);
    expect("a push", static_cast<bool>(queue.push(1, std::stop_token())));
    {
        std::jthread waits([&](std::stop_token stop) { pushed = queue.push(2, stop).code(); });
        std::this_thread::sleep_for(milliseconds(5));
    }
    expect("a stopped push", pushed == status::timed_out && queue.size() == 1);
}
#endif

int main() {
    for (auto kind : {msq::kind::non_blocking, msq::kind::two_lock, msq::kind::ring}) {
        a_queue_answers<int>(kind);
        a_queue_answers<boxed>(kind);
        a_queue_answers<three>(kind);
        sizes_have_their_ranges(kind);
        values_end_once(kind);
        words_have_their_range(kind);
        values_come_as_they_were(kind);
        three_words_stay_whole(kind);
        a_worn_queue_is_told(kind);
#if defined(__cpp_exceptions)
        a_move_may_throw(kind);
#endif
#if defined(__cpp_lib_jthread)
        stops_are_told(kind);
#endif
    }
    std::printf("%u answers as they should be, %u not\n", right, wrong);
    return wrong != 0;
}
