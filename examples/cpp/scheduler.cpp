// A scheduler: tasks are closures, threads come to work for it and go while it runs, and at its end each task that was submitted
// has run once. What a task answers, or throws, comes to who submitted it, by a future.
//
//     scheduler TASKS: so many tasks, over a queue of each kind. Prints a line each.
#include "msq_queue.hpp"

#include <cstdint>
#include <cstdio>
#include <cstdlib>
#include <future>
#include <stdexcept>
#include <thread>
#include <vector>

class scheduler {
public:
    explicit scheduler(msq::kind kind) : tasks_(room, {kind}) {}

    // Has a closure run by one of the workers. It sleeps while there is no room. Once the scheduler is closed the future is broken.
    template <class Closure> auto submit(Closure closure) {
        std::packaged_task<decltype(closure())()> whole(std::move(closure));
        auto answer = whole.get_future();
        (void)tasks_.emplace(std::move(whole)).code();
        return answer;
    }

    // Works in the thread that calls it: runs so many tasks and lets the thread go, or ends once the scheduler is closed and all its
    // tasks were taken. It sleeps while there is none. Answers how many it ran.
    size_t work(size_t most = SIZE_MAX) {
        size_t done = 0;
        while (done < most) {
            auto it = tasks_.pop();
            if (!it) {
                break;
            }
            (*it)();
            done++;
        }
        return done;
    }

    // No task is submitted any more, and those that were still run. One that no worker takes ends with the scheduler.
    void close() { tasks_.close(); }

private:
    using task = std::packaged_task<void()>;
    static constexpr uint32_t room = 256;
    msq::queue<task> tasks_;
};

namespace {

// Four workers stay to the end; beside them twelve come one after another, and go after fifty tasks each.
constexpr size_t staying = 4, visitors = 12, a_visit = 50;

// Whether no worker will run a task.
bool is_broken(std::future<void> answer) {
    try {
        answer.get();
    } catch (const std::future_error &error) {
        return error.code() == std::future_errc::broken_promise;
    }
    return false;
}

// Whether each task of so many answers its own number's square.
bool all_run(msq::kind kind, size_t count) {
    scheduler all(kind);
    std::vector<std::thread> workers;
    std::vector<std::future<uint64_t>> answers;
    for (size_t k = 0; k < staying; k++) {
        workers.emplace_back([&all] { all.work(); });
    }
    for (uint64_t number = 0; number < count; number++) {
        if (number % (count / visitors + 1) == 0) {
            workers.emplace_back([&all] { all.work(a_visit); });
        }
        answers.push_back(all.submit([number] { return number * number; }));
    }
    auto thrown = all.submit([] { throw std::runtime_error("a task"); });
    all.close();
    for (auto &worker : workers) {
        worker.join();
    }
    bool right = true;
    for (uint64_t number = 0; number < count; number++) {
        right = right && answers[number].get() == number * number;
    }
    try {
        thrown.get();
        right = false;
    } catch (const std::runtime_error &) {
    }
    return right && is_broken(all.submit([] {}));
}

// A task that no worker took ends with its scheduler, and its future says so.
bool what_is_left_ends(msq::kind kind) {
    std::future<void> answer;
    {
        scheduler none(kind);
        answer = none.submit([] {});
    }
    return is_broken(std::move(answer));
}

} // namespace

int main(int argc, char **argv) {
    const size_t count = argc == 2 ? std::strtoull(argv[1], nullptr, 10) : 0;
    if (count == 0) {
        std::fprintf(stderr, "usage: scheduler TASKS\n");
        return 2;
    }
    for (auto kind : {msq::kind::non_blocking, msq::kind::two_lock, msq::kind::ring}) {
        if (!all_run(kind, count) || !what_is_left_ends(kind)) {
            std::fprintf(stderr, "scheduler: wrong\n");
            return 1;
        }
        std::printf("%s: %zu tasks ran, each once\n", msq_kind_name(static_cast<uint32_t>(kind)), count);
    }
}
