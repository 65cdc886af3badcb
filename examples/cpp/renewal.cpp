// A queue that lasts, of queues that don't: where one is worn out or too small, a further one is linked behind it, and each
// thread goes on there at its own pace.
//
//     renewal THREADS VALUES: half of the threads push, half pop; so many values go through queues of each kind.
//
// A giver sees that its queue is worn by MSQ_WORN_FREE, and that it is full by MSQ_NO_NODE. It publishes the link to a further
// queue, and then shuts its own: who is told MSQ_CLOSED always finds the link, and goes on there. A pop is told so only where
// nothing is left. examples/c/renewal.c says what sizes and limits have to be.
#include "msq.hpp"

#include <atomic>
#include <cstdio>
#include <cstdlib>
#include <memory>
#include <thread>
#include <vector>

namespace {

constexpr uint32_t first_nodes = 8;
constexpr uint32_t most_nodes = 64;
constexpr uint64_t limit = 2 * most_nodes + 1; // so small that it wears out; MSQ_MOST_COUNT otherwise

// One queue of the whole, with a seat for each member, and the link to the one behind it: none, the end or a queue.
struct segment {
    struct alignas(64) place { // each call writes it
        msq::seat seat;
    };
    explicit segment(uint32_t count) : nodes(count) {}
    uint32_t nodes;
    std::vector<place> of;
    std::atomic<size_t> members{0}; // how many have not gone on from here
    std::atomic<segment *> next{nullptr};
};

segment the_end{0};

// What the whole is of; its givers are the first of the roles.
struct whole {
    msq::kind kind;
    std::vector<msq::role> roles;
    std::atomic<unsigned> queues{0};

    // A further queue for all members; none where memory is refused.
    std::unique_ptr<segment> make(uint32_t nodes) const {
        auto created = msq::create(kind, nodes, roles, limit);
        auto &seats = created.second;
        if (created.first != MSQ_OK) {
            return nullptr;
        }
        auto made = std::make_unique<segment>(nodes);
        made->of.resize(seats.size());
        made->members = seats.size();
        for (size_t k = 0; k < seats.size(); k++) {
            made->of[k].seat = std::move(seats[k]);
        }
        return made;
    }
};

// A thread that calls the whole, and where it stands.
class member {
public:
    member(whole &whole, size_t number, segment *at) : whole_(whole), number_(number), at_(at) {}

    // MSQ_OK, MSQ_CLOSED or MSQ_MEMORY.
    msq_code give(uint64_t body) {
        for (;;) {
            auto code = seat().try_push(body).code();
            if (code == MSQ_BUSY || (code == MSQ_NO_NODE && at_->nodes == most_nodes)) {
                std::this_thread::yield();
                continue;
            }
            if (code == MSQ_NO_NODE || code == MSQ_WORN_FREE) {
                code = renew();
                code = code == MSQ_OK ? MSQ_CLOSED : code;
            }
            if (code != MSQ_CLOSED || !go_on()) {
                return code;
            }
        }
    }

    // MSQ_OK, MSQ_EMPTY, MSQ_BUSY, or MSQ_CLOSED where the whole is shut and empty.
    msq::result take(msq_value &value) {
        for (;;) {
            const auto told = seat().try_pop(value);
            if (told != MSQ_CLOSED || !go_on()) {
                return told;
            }
        }
    }

    // Shuts the whole, behind all that was given: MSQ_OK, or MSQ_CLOSED where it was shut before.
    msq_code end() {
        for (;;) {
            segment *none = nullptr;
            bool mine = at_->next.compare_exchange_strong(none, &the_end);
            auto code = shut();
            if (mine || code != MSQ_OK) {
                return code;
            }
            if (!go_on()) {
                return MSQ_CLOSED;
            }
        }
    }

    // Goes on as far as there are queues, and leaves the last one.
    void leave_all() {
        while (go_on()) {
        }
        leave();
    }

private:
    whole &whole_;
    size_t number_;
    segment *at_;

    msq::seat &seat() { return at_->of[number_].seat; }

    // Goes away from this queue, which goes with the last member.
    void leave() {
        seat() = msq::seat();
        if (at_->members.fetch_sub(1) == 1) {
            delete at_;
        }
    }

    // Goes on to the next queue, where there is one: behind a queue that was found shut there is, or the whole is shut.
    bool go_on() {
        segment *next = at_->next.load();
        if (next == nullptr || next == &the_end) {
            return false;
        }
        leave();
        at_ = next;
        return true;
    }

    // Shuts this queue, or finds it shut.
    msq_code shut() {
        for (;;) {
            auto code = seat().try_shut().code();
            if (code != MSQ_BUSY) {
                return code == MSQ_CLOSED ? MSQ_OK : code;
            }
            std::this_thread::yield();
        }
    }

    // Links a further queue, unless another giver did, and then shuts this one.
    msq_code renew() {
        if (at_->next.load() == nullptr) {
            auto made = whole_.make(std::min(2 * at_->nodes, most_nodes));
            if (made == nullptr) {
                return MSQ_MEMORY;
            }
            segment *none = nullptr;
            if (at_->next.compare_exchange_strong(none, made.get())) {
                (void)made.release();
                whole_.queues++;
            }
        }
        return shut();
    }
};

// What a thread does, and whether all went well.
struct worker {
    member self;
    uint64_t values; // how many each giver pushes
    std::vector<std::atomic<unsigned>> &seen;
    bool good = true;

    void push_all() {
        for (uint64_t body = 0; body < values && good; body++) {
            good = self.give(body) == MSQ_OK;
        }
    }

    // A giver is the same number in each queue, so that its values are told apart by it.
    void pop_all() {
        std::vector<uint64_t> next(seen.size() / values + 1);
        for (;;) {
            msq_value value{};
            const auto told = self.take(value);
            if (told) {
                good = good && value.body >= next[value.from] && value.body < values;
                next[value.from] = value.body + 1;
                seen[(value.from - 1) * values + value.body]++;
            } else if (told == MSQ_EMPTY || told == MSQ_BUSY) {
                std::this_thread::yield();
            } else {
                good = good && told == MSQ_CLOSED;
                return;
            }
        }
    }
};

bool run(msq::kind kind, const char *name, size_t threads, uint64_t values) {
    size_t givers = threads / 2;
    uint64_t each = values / givers;
    whole whole{kind, std::vector<msq::role>(givers, msq::role::giver)};
    whole.roles.resize(2 * givers, msq::role::taker);
    std::vector<std::atomic<unsigned>> seen(givers * each);
    segment *first = whole.make(std::max<uint32_t>(first_nodes, static_cast<uint32_t>(2 * givers))).release();
    if (first == nullptr) {
        return false;
    }
    whole.queues = 1;
    std::vector<worker> workers;
    std::vector<std::thread> running;
    for (size_t k = 0; k < 2 * givers; k++) {
        workers.push_back(worker{member(whole, k, first), each, seen});
    }
    for (size_t k = 0; k < 2 * givers; k++) {
        running.emplace_back(k < givers ? &worker::push_all : &worker::pop_all, &workers[k]);
    }
    for (size_t k = 0; k < givers; k++) {
        running[k].join();
    }
    bool good = workers[0].self.end() == MSQ_OK;
    for (size_t k = givers; k < 2 * givers; k++) {
        running[k].join();
    }
    for (auto &one : workers) {
        good = good && one.good;
        one.self.leave_all();
    }
    for (auto &times : seen) {
        good = good && times == 1;
    }
    if (good) {
        std::printf("%s: %zu threads, %llu values in order, each once; %u queues\n", name, 2 * givers,
                    static_cast<unsigned long long>(givers * each), whole.queues.load());
    }
    return good;
}

} // namespace

int main(int argc, char **argv) {
    size_t threads = argc > 1 ? std::strtoul(argv[1], nullptr, 10) : 4;
    uint64_t values = argc > 2 ? std::strtoull(argv[2], nullptr, 10) : 40000;
    bool good = threads >= 2 && run(msq::kind::non_blocking, "non-blocking", threads, values) &&
                run(msq::kind::two_lock, "two-lock", threads, values);
    if (!good) {
        std::fprintf(stderr, "renewal: a value is lost, came twice or out of order, or a call was refused\n");
    }
    return good ? 0 : 1;
}
