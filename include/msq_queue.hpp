// A queue of values of any type that moves, for any threads: first in, first out, with room for exactly as many as are asked for.
// C++14 and later, over the queue of pointers of msq_queue.h.
//
// A `queue` is a handle, and its copies share one queue, which goes with the last of them; what is left in it is destroyed. Several
// threads may use one handle, or each its own. What a call answers is true in a condition where it is done, and else tells why not.
//
// What is trivially copyable, and up to 24 bytes, lies in the queue; any other value is in a box, made by the global new as it is
// pushed. A pointer from 2^48 on is refused. Of calls, what is proved of them and what is tested msq_queue.h says more.
#ifndef MSQ_QUEUE_HPP
#define MSQ_QUEUE_HPP

#include "msq_queue.h"

#include <algorithm>
#include <chrono>
#include <cstddef>
#include <cstring>
#include <iterator>
#include <memory>
#include <new>
#include <stdexcept>
#include <type_traits>
#include <utility>
#if __cplusplus >= 202002L && defined(__has_include)
#if __has_include(<stop_token>)
#include <stop_token>
#endif
#endif

#if __cplusplus >= 201703L || !defined(__clang__)
#define MSQ_TO_BE_SEEN [[nodiscard]]
#else
#define MSQ_TO_BE_SEEN __attribute__((warn_unused_result))
#endif

namespace msq {

enum class status : unsigned char {
    ok = MSQ_OK, empty = MSQ_EMPTY, full = MSQ_FULL, busy = MSQ_BUSY,
    timed_out = MSQ_TIMED_OUT, closed = MSQ_CLOSED, worn = MSQ_WORN, bad_size = MSQ_BAD_SIZE
};
enum class kind : unsigned char { non_blocking = MSQ_NON_BLOCKING, two_lock = MSQ_TWO_LOCK, ring = MSQ_RING };

// What a queue is made as, where nothing else is said.
struct options {
    msq::kind kind = msq::kind::ring;
    unsigned calls = 0; // how many calls may be under way at one moment, beside those that sleep; 0 is what msq_queue_new takes
};

MSQ_BEGIN
namespace detail {

// How a value goes through a queue: in the queue's word, in three words, or in a box.
enum class way { word, words, box };

template <class T> constexpr way way_of() {
    return ((std::is_arithmetic<T>::value || std::is_enum<T>::value) && sizeof(T) <= 6) || std::is_pointer<T>::value ? way::word
           : std::is_trivially_copyable<T>::value && sizeof(T) <= sizeof(msq_words) && alignof(T) <= alignof(msq_words) ? way::words
                                                                                                                        : way::box;
}

// A value outside of a queue, in a box or as it is, or none. `peek` gives it to a queue as `passed`, `in` takes it from there.
template <class T, way = way_of<T>()> class held {
public:
    using passed = void *;
    template <class... A> static held made(A &&...from) { return in(::new T(std::forward<A>(from)...)); }
    static held in(void *object) noexcept {
        held it;
        it.box_.reset(static_cast<T *>(object));
        return it;
    }
    static void end(void *object, void *) noexcept { in(object); }
    void *peek() const noexcept { return box_.get(); }
    void let_go() noexcept { box_.release(); }
    T *get() noexcept { return box_.get(); }

private:
#if !defined(__cpp_aligned_new)
    static_assert(alignof(T) <= alignof(std::max_align_t), "a value of a greater alignment wants C++17");
#endif
    struct freed {
        void operator()(T *value) const noexcept { ::delete value; }
    };
    std::unique_ptr<T, freed> box_;
};

template <class T> class held<T, way::word> {
public:
    using passed = void *;
    template <class... A> static held made(A &&...from) {
        held it;
        it.value_ = T(std::forward<A>(from)...);
        return it;
    }
    static held in(void *object) noexcept {
        held it;
        const uint64_t word = reinterpret_cast<uintptr_t>(object);
        std::memcpy(&it.value_, &word, sizeof it.value_);
        return it;
    }
    static void end(void *, void *) noexcept {}
    void *peek() const noexcept {
        uint64_t word = 0;
        std::memcpy(&word, &value_, sizeof value_);
        return reinterpret_cast<void *>(static_cast<uintptr_t>(word));
    }
    void let_go() noexcept {}
    T *get() noexcept { return &value_; }

private:
    T value_{};
};
template <class T> class held<T, way::words> {
public:
    using passed = msq_words;
    template <class... A> static held made(A &&...from) {
        held it;
        ::new (static_cast<void *>(it.bytes_)) T(std::forward<A>(from)...);
        return it;
    }
    static held in(const msq_words &words) noexcept {
        held it;
        std::memcpy(it.bytes_, &words, sizeof it.bytes_);
        return it;
    }
    static void end(void *, void *) noexcept {}
    msq_words peek() const noexcept {
        msq_words words{};
        std::memcpy(&words, bytes_, sizeof bytes_);
        return words;
    }
    void let_go() noexcept {}
    T *get() noexcept { return reinterpret_cast<T *>(bytes_); }

private:
    alignas(T) unsigned char bytes_[sizeof(T)];
};

// A push and a pop of what is passed: as msq_queue_put and msq_queue_get, also of three words.
inline msq_code put(msq_queue *at, void *object, bool tries, const timespec *until, const uint32_t *stop) noexcept {
    return msq_queue_put(at, object, tries, until, stop);
}
inline msq_code put(msq_queue *at, const msq_words &words, bool tries, const timespec *until, const uint32_t *stop) noexcept {
    msq_going push;
    msq_start(&push, MSQ_PUSHES, true, 0);
    push.words = words;
    return msq_told(at, msq_make(at, &push, !tries, until, stop), until != nullptr || stop != nullptr, MSQ_FULL);
}
inline msq_code get(msq_queue *at, void *&object, bool tries, const timespec *until, const uint32_t *stop) noexcept {
    return msq_queue_get(at, &object, tries, until, stop);
}
inline msq_code get(msq_queue *at, msq_words &words, bool tries, const timespec *until, const uint32_t *stop) noexcept {
    msq_going pop;
    msq_start(&pop, MSQ_POPS, true, 0);
    pop.words = words;
    const msq_code code = msq_make(at, &pop, !tries, until, stop);
    words = pop.words;
    return msq_told(at, code, until != nullptr || stop != nullptr, MSQ_EMPTY);
}

// The moment in so much time: none below 0 nanoseconds, and at most about 292 years.
template <class Rep, class Period> timespec moment_in(std::chrono::duration<Rep, Period> time) {
    const long double ns = std::chrono::duration<long double, std::nano>(time).count();
    return msq_moment_in(static_cast<uint64_t>(std::min(std::max(ns, 0.0L), 9.2e18L)));
}

} // namespace detail

// What a status says in a few words.
inline const char *to_string(status told) noexcept { return msq_strerror(static_cast<msq_code>(told)); }

// Whether a value was pushed; if not, why, and the value.
template <class T> class MSQ_TO_BE_SEEN pushed {
public:
    explicit operator bool() const noexcept { return code_ == status::ok; }
    status code() const noexcept { return code_; }
    // There is one unless it was pushed.
    T &&value() && noexcept { return std::move(*back_.get()); }

private:
    template <class U> friend class queue;
    pushed(msq_code code, detail::held<T> back) : code_(static_cast<status>(code)), back_(std::move(back)) {}
    status code_;
    detail::held<T> back_;
};

// A value that was popped; if there is none, why.
template <class T> class MSQ_TO_BE_SEEN popped {
public:
    explicit operator bool() const noexcept { return code_ == status::ok; }
    status code() const noexcept { return code_; }
    T &operator*() & noexcept { return *value_.get(); }
    T &&operator*() && noexcept { return std::move(*value_.get()); }
    T *operator->() noexcept { return value_.get(); }

private:
    template <class U> friend class queue;
    popped(msq_code code, detail::held<T> value) : code_(static_cast<status>(code)), value_(std::move(value)) {}
    status code_;
    detail::held<T> value_;
};

template <class T> class queue {
    static_assert(std::is_nothrow_destructible<T>::value, "a destructor that throws would lose what else is left in a queue");

public:
    using value_type = T;

#if defined(__cpp_exceptions)
    // With room for so many values, 1 or more. Throws std::length_error where a size is out of its range, and std::bad_alloc.
    explicit queue(std::size_t capacity, options how = {}) {
        const msq_code code = open(capacity, how);
        if (code == MSQ_BAD_SIZE) {
            throw std::length_error("msq::queue");
        }
        if (code != MSQ_OK) {
            throw std::bad_alloc();
        }
    }
#endif
    // The same, and a handle of no queue where the other throws.
    MSQ_TO_BE_SEEN static queue create(std::size_t capacity, options how = {}) noexcept {
        queue made;
        (void)!made.open(capacity, how);
        return made;
    }
    queue(const queue &other) noexcept : at_(other.at_ != nullptr ? msq_queue_ref(other.at_) : nullptr) {}
    queue(queue &&other) noexcept : at_(other.at_) { other.at_ = nullptr; }
    queue &operator=(queue other) noexcept {
        std::swap(at_, other.at_);
        return *this;
    }
    ~queue() { msq_queue_unref(at_); }

    // Whether it is a handle of a queue: one that was moved from isn't, and may only be assigned to and destroyed.
    explicit operator bool() const noexcept { return at_ != nullptr; }
    friend bool operator==(const queue &one, const queue &other) noexcept { return one.at_ == other.at_; }
    friend bool operator!=(const queue &one, const queue &other) noexcept { return one.at_ != other.at_; }

    // Pushes a value: ok, closed or worn; the try also full or busy, and those with a time timed_out.
    pushed<T> push(T value) { return emplace(std::move(value)); }
    template <class... A> pushed<T> emplace(A &&...from) { return put(held::made(std::forward<A>(from)...), false); }
    pushed<T> try_push(T value) { return put(held::made(std::move(value)), true); }
    template <class Rep, class Period> pushed<T> push_for(T value, std::chrono::duration<Rep, Period> time) {
        const timespec until = detail::moment_in(time);
        return put(held::made(std::move(value)), false, &until);
    }
    template <class Clock, class Duration> pushed<T> push_until(T value, std::chrono::time_point<Clock, Duration> at) {
        return push_for(std::move(value), at - Clock::now());
    }

    // Pops the value at the front: ok, closed or worn; the try also empty or busy, and those with a time timed_out.
    popped<T> pop() { return get(false); }
    popped<T> try_pop() { return get(true); }
    template <class Rep, class Period> popped<T> pop_for(std::chrono::duration<Rep, Period> time) {
        const timespec until = detail::moment_in(time);
        return get(false, &until);
    }
    template <class Clock, class Duration> popped<T> pop_until(std::chrono::time_point<Clock, Duration> at) {
        return pop_for(at - Clock::now());
    }

#if defined(__cpp_lib_jthread)
    // The same as push and pop, until a stop is asked for: then timed_out.
    pushed<T> push(T value, std::stop_token stop) {
        uint32_t word = 0;
        const std::stop_callback stops(std::move(stop), [&word]() noexcept { msq_stop(&word); });
        return put(held::made(std::move(value)), false, nullptr, &word);
    }
    popped<T> pop(std::stop_token stop) {
        uint32_t word = 0;
        const std::stop_callback stops(std::move(stop), [&word]() noexcept { msq_stop(&word); });
        return get(false, nullptr, &word);
    }
#endif

    // Hands each value that is there to `use`, as a T &&, until a try finds none: how many there were.
    template <class Use> std::size_t consume_all(Use &&use) {
        std::size_t count = 0;
        for (auto one = try_pop(); one || one.code() == status::busy; one = try_pop()) {
            if (one) {
                use(std::move(*one));
                count++;
            } else {
                sched_yield();
            }
        }
        return count;
    }

    // No more pushes: what is in the queue stays to be popped, and all that wait are told.
    void close() noexcept { msq_queue_close(at_); }
    bool is_closed() const noexcept { return msq_queue_is_closed(at_); }

    // How many values there are, never more than the capacity; exact while no call is under way.
    std::size_t size() const noexcept { return msq_queue_len(at_); }
    std::size_t capacity() const noexcept { return msq_queue_capacity(at_); }
    bool empty() const noexcept { return size() == 0; }

    // Pops values one by one, and waits while there is none, until the queue is closed and empty, or worn.
    class iterator {
    public:
        using iterator_category = std::input_iterator_tag;
        using value_type = T;
        using difference_type = std::ptrdiff_t;
        using pointer = T *;
        using reference = T &;

        iterator() noexcept = default;
        T &operator*() const noexcept { return *value_; }
        T *operator->() const noexcept { return &*value_; }
        iterator &operator++() {
            value_ = from_->pop();
            return *this;
        }
        void operator++(int) { ++*this; }
        // Two are the same where both are at the end, or neither.
        bool operator==(const iterator &other) const noexcept { return !value_ == !other.value_; }
        bool operator!=(const iterator &other) const noexcept { return !value_ != !other.value_; }

    private:
        friend class queue;
        explicit iterator(queue *from) : from_(from) { ++*this; }
        queue *from_ = nullptr;
        mutable popped<T> value_{MSQ_CLOSED, held::in({})};
    };
    iterator begin() { return iterator(this); }
    iterator end() noexcept { return iterator(); }

private:
    using held = detail::held<T>;

    queue() noexcept = default;

    msq_code open(std::size_t capacity, options how) noexcept {
        const bool is_wide = detail::way_of<T>() == detail::way::words;
        return msq_queue_open(&at_, static_cast<msq_kind>(how.kind), capacity, how.calls, MSQ_MOST, is_wide, held::end, nullptr);
    }

    pushed<T> put(held value, bool tries, const timespec *until = nullptr, const uint32_t *stop = nullptr) {
        const msq_code code = detail::put(at_, value.peek(), tries, until, stop);
        if (code == MSQ_OK) {
            value.let_go();
        }
        return {code, std::move(value)};
    }
    popped<T> get(bool tries, const timespec *until = nullptr, const uint32_t *stop = nullptr) {
        typename held::passed one{};
        const msq_code code = detail::get(at_, one, tries, until, stop);
        return {code, held::in(one)};
    }

    msq_queue *at_ = nullptr;
};

MSQ_END
} // namespace msq

#endif
