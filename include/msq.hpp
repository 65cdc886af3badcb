// The queues of msq.h for C++14 and later: seats that can be moved and not copied, and that drop themselves. What a call answers is
// true where it was done, and else has the code that says why not.
#ifndef MSQ_HPP
#define MSQ_HPP

#include "msq.h"
#include "msq_queue.hpp"

#include <utility>
#include <vector>

namespace msq {
MSQ_BEGIN

enum class role : uint8_t { giver = MSQ_GIVER, taker = MSQ_TAKER, both = MSQ_BOTH };

// What a call answers: true where it was done; else why not.
class result {
public:
    explicit result(uint32_t code) noexcept : code_(static_cast<msq_code>(code)) {}
    explicit operator bool() const noexcept { return code_ == MSQ_OK; }
    msq_code code() const noexcept { return code_; }
    friend bool operator==(const result &one, msq_code code) noexcept { return one.code_ == code; }
    friend bool operator!=(const result &one, msq_code code) noexcept { return one.code_ != code; }

private:
    msq_code code_;
};

struct closed;

// A seat of a queue. One thread calls it at a time; it may be moved to another thread. One that is empty answers MSQ_NO_SEAT.
class seat {
public:
    seat() noexcept = default;
    seat(const seat &) = delete;
    seat(seat &&other) noexcept : raw_(std::exchange(other.raw_, msq_seat{})), room_(other.room_) {}
    seat &operator=(seat other) noexcept {
        std::swap(raw_, other.raw_);
        std::swap(room_, other.room_);
        return *this;
    }
    ~seat() { msq_drop(&raw_); }

    MSQ_TO_BE_SEEN result try_push(uint64_t body, uint32_t turns = 8) noexcept { return result(msq_try_push(&raw_, body, turns)); }
    MSQ_TO_BE_SEEN result try_pop(msq_value &to, uint32_t turns = 8) noexcept { return result(msq_try_pop(&raw_, turns, &to)); }
    MSQ_TO_BE_SEEN result try_shut(uint32_t turns = 8) noexcept { return result(msq_try_shut(&raw_, turns)); }

    // Many at one call, as msq_push_all and msq_pop_up_to, over a ring by few steps: how many were pushed, or popped, is told.
    MSQ_TO_BE_SEEN result try_push_all(const uint64_t *bodies, size_t bodies_len, size_t &count, uint32_t turns = 8) noexcept {
        return result(msq_push_all(&raw_, bodies, bodies_len, turns, &count));
    }
    MSQ_TO_BE_SEEN result try_pop_up_to(msq_value *values, size_t values_len, size_t &count, uint32_t turns = 8) noexcept {
        return result(msq_pop_up_to(&raw_, turns, values, values_len, &count));
    }

    // Whether the seat, which may push and pop, keeps the node that its pop frees for its next push.
    result keep_nodes(bool keeps) noexcept { return result(msq_keep_nodes(&raw_, keeps)); }

    // MSQ_OK where the queue holds a value, else MSQ_EMPTY, MSQ_CLOSED or MSQ_BUSY.
    MSQ_TO_BE_SEEN msq_code emptiness() noexcept { return static_cast<msq_code>(msq_emptiness(&raw_)); }
    // The bounds are there exactly at MSQ_OK.
    MSQ_TO_BE_SEEN result len(msq_length &length) noexcept { return result(msq_len(&raw_, &length)); }
    // What is left is there exactly at MSQ_OK.
    MSQ_TO_BE_SEEN result left(msq_remaining &left) noexcept { return result(msq_left(&raw_, &left)); }

    result meet(seat &other) noexcept { return result(msq_meet(&raw_, &other.raw_)); }
    explicit operator bool() const noexcept { return raw_.full; }

private:
    friend std::pair<msq_code, std::vector<seat>> create(kind, uint32_t, const std::vector<role> &, uint64_t);
    friend closed close(std::vector<seat> &);

    msq_seat raw_{};
    size_t room_ = 0; // for how many values at most its queue has room
};

// As msq_create, with a seat for each role in their order: a giver pushes, a taker pops. No seat but at MSQ_OK. Its vectors may
// throw std::bad_alloc.
inline std::pair<msq_code, std::vector<seat>> create(kind kind, uint32_t nodes, const std::vector<role> &roles,
                                                     uint64_t limit = MSQ_MOST_COUNT) {
    std::vector<msq_seat> raw(roles.size());
    std::vector<seat> seats(roles.size());
    auto code = static_cast<msq_code>(msq_create(static_cast<uint32_t>(kind), nodes, limit,
                                                 reinterpret_cast<const uint8_t *>(roles.data()), roles.size(),
                                                 raw.data(), raw.size()));
    if (code != MSQ_OK) {
        return {code, std::vector<seat>{}};
    }
    for (size_t k = 0; k < raw.size(); k++) {
        seats[k].raw_ = raw[k];
        seats[k].room_ = nodes;
    }
    return {code, std::move(seats)};
}

// What is left of a queue; nothing but at MSQ_OK.
struct closed {
    msq_code code;
    msq_rest rest;
    std::vector<msq_value> left;
};

// Ends the queue of these seats, as msq_close does; where MSQ_DEBUG tells of another call, by MSQ_TWO_CALLS, no seat was touched.
// Its vectors may throw std::bad_alloc, before all else.
inline closed close(std::vector<seat> &seats) {
    std::vector<msq_seat> raw(seats.size());
    std::vector<msq_call> calls(seats.size());
    closed found{MSQ_TWO_CALLS, msq_rest{}, std::vector<msq_value>(seats.empty() ? 0 : seats.front().room_)};
    size_t begun = 0;
    while (begun < calls.size() && msq_begin(&calls[begun], &seats[begun].raw_, 1, true)) {
        begun++;
    }
    if (begun == calls.size()) {
        for (size_t k = 0; k < raw.size(); k++) {
            raw[k] = std::exchange(seats[k].raw_, msq_seat{});
        }
        found.code = MSQ_TWO_QUEUES;
        if (msq_of_one_queue(raw.data(), raw.size())) {
            const uint32_t code = (msq_close)(raw.data(), raw.size(), found.left.data(), found.left.size(), &found.rest);
            found.code = static_cast<msq_code>(code);
        }
        for (size_t k = 0; k < raw.size(); k++) {
            seats[k].raw_ = raw[k];
        }
    }
    while (begun > 0) {
        msq_end(&calls[--begun]);
    }
    found.left.resize(static_cast<size_t>(found.rest.left));
    return found;
}

MSQ_END
} // namespace msq

#endif
