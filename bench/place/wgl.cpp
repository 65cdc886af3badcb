// The search of Wing and Gong with Lowe's memory, over a recording: wgl SECONDS MEGABYTES FILE. It writes yes, no, or open if it used up
// its seconds of a processor or its memory, then the seconds that it took, and how many configurations it kept.
// It puts one operation after another into an order, each while none that is left ended before it began, and goes back where none can be
// next. A configuration is which operations are in the order, and what the queue then holds: each is tried once, and compared exactly.
#include <algorithm>
#include <climits>
#include <cstdio>
#include <cstdlib>
#include <ctime>
#include <fstream>
#include <sstream>
#include <string>
#include <tuple>
#include <unordered_map>
#include <unordered_set>
#include <vector>

namespace {

enum class Effect { impossible, none, push, pop, shut };

struct Operation {
    std::string call, reply;
    int value = 0; // that it pushes, or was told
    long first = 0, last = LONG_MAX;
};

struct Event {
    long time;
    bool is_end;
    int operation;
};

// The operations of a recording that is in its grammar, each value by a number from 1.
std::vector<Operation> read(const char *path) {
    std::vector<Operation> operations;
    std::unordered_map<std::string, int> numbers;
    const auto number = [&](const std::string &text) { return numbers.emplace(text, static_cast<int>(numbers.size()) + 1).first->second; };
    std::ifstream file(path);
    std::string line, word, last;
    std::getline(file, line);
    std::getline(file, line);
    while (std::getline(file, line)) {
        Operation it;
        std::istringstream words(line);
        words >> word >> it.call >> word;
        if (it.call == "enq") {
            it.value = number(word);
            words >> word;
        }
        words >> it.first >> word >> last >> word >> it.reply;
        if (last != "-") it.last = std::stol(last);
        if (it.reply == "value" && words >> word) it.value = number(word);
        operations.push_back(it);
    }
    return operations;
}

class Search {
public:
    Search(std::vector<Operation> given, double seconds, std::size_t bytes)
        : operations(std::move(given)), most_seconds(seconds), most_bytes(bytes), is_in((operations.size() + 31) / 32, 0), ends(operations.size()) {
        for (int it = 0; it < static_cast<int>(operations.size()); it++) {
            events.push_back({operations[it].first, false, it});
            if (operations[it].last == LONG_MAX) continue;
            events.push_back({operations[it].last, true, it});
            left++;
        }
        const auto key = [](const Event &it) { return std::make_tuple(it.time, it.is_end, it.operation); };
        std::sort(events.begin(), events.end(), [&](const Event &a, const Event &b) { return key(a) < key(b); });
        none = static_cast<int>(events.size());
        for (int at = 0; at <= none; at++) {
            next.push_back((at + 1) % (none + 1));
            before.push_back((at + none) % (none + 1));
            if (at < none && events[at].is_end) ends[events[at].operation] = at;
        }
    }

    const char *answer() {
        int at = next[none];
        for (long steps = 1; left > 0; steps++) {
            if (steps % 1024 == 0 && (bytes > most_bytes || std::clock() > most_seconds * CLOCKS_PER_SEC)) return "open";
            if (at != none && !events[at].is_end) {
                at = comes_next(at) ? next[none] : next[at];
            } else if (order.empty()) {
                return "no";
            } else {
                at = next[go_back()];
            }
        }
        return "yes";
    }

    std::size_t configurations() const { return seen.size(); }

private:
    struct Step {
        int at;
        Effect effect;
    };

    // What an operation does with the queue, if the queue gives its reply.
    Effect effect_of(const Operation &it) const {
        const bool is_empty = front == values.size();
        const bool is_told = it.reply != "-";
        if (it.reply == "refused") return Effect::none;
        if (it.reply == "closed") return is_shut && (it.call != "deq" || is_empty) ? Effect::none : Effect::impossible;
        if (it.call != "deq" && (is_shut || (is_told && it.reply != "done"))) return Effect::impossible;
        if (it.call != "deq") return it.call == "enq" ? Effect::push : Effect::shut;
        if (it.reply == "empty") return is_empty && !is_shut ? Effect::none : Effect::impossible;
        if (is_empty || (is_told && (it.reply != "value" || it.value != values[front]))) return Effect::impossible;
        return Effect::pop;
    }

    void change(const Operation &it, Effect effect) {
        if (effect == Effect::push) values.push_back(it.value);
        front += effect == Effect::pop;
        is_shut = is_shut || effect == Effect::shut;
    }

    void undo(Effect effect) {
        if (effect == Effect::push) values.pop_back();
        front -= effect == Effect::pop;
        is_shut = is_shut && effect != Effect::shut;
    }

    // Puts the operation that begins there into the order, if it can be next and that isn't a configuration that was tried.
    bool comes_next(int at) {
        const int number = events[at].operation;
        const Operation &it = operations[number];
        const Effect effect = effect_of(it);
        if (effect == Effect::impossible) return false;
        change(it, effect);
        is_in[number / 32] ^= char32_t{1} << number % 32;
        std::u32string configuration = is_in + char32_t{is_shut};
        configuration.append(values.begin() + static_cast<long>(front), values.end());
        const std::size_t size = configuration.size();
        if (!seen.insert(std::move(configuration)).second) {
            undo(effect);
            is_in[number / 32] ^= char32_t{1} << number % 32;
            return false;
        }
        bytes += 4 * size + 64;
        order.push_back({at, effect});
        take(at);
        if (it.last != LONG_MAX) {
            take(ends[number]);
            left--;
        }
        return true;
    }

    // Takes the last operation of the order out of it, and returns where it begins.
    int go_back() {
        const Step step = order.back();
        const int number = events[step.at].operation;
        order.pop_back();
        if (operations[number].last != LONG_MAX) {
            put_back(ends[number]);
            left++;
        }
        put_back(step.at);
        undo(step.effect);
        is_in[number / 32] ^= char32_t{1} << number % 32;
        return step.at;
    }

    void take(int at) { next[before[at]] = next[at], before[next[at]] = before[at]; }
    void put_back(int at) { next[before[at]] = before[next[at]] = at; }

    std::vector<Operation> operations;
    double most_seconds;
    std::size_t most_bytes, bytes = 0, front = 0;
    std::u32string is_in;
    std::vector<int> ends, next, before, values;
    std::vector<Event> events;
    std::vector<Step> order;
    std::unordered_set<std::u32string> seen;
    int none = 0, left = 0;
    bool is_shut = false;
};

} // namespace

int main(int count, char **words) {
    if (count != 4) return 2;
    Search search(read(words[3]), std::atof(words[1]), std::strtoull(words[2], nullptr, 10) << 20);
    const char *answer = search.answer();
    std::printf("%s %.3f %zu\n", answer, static_cast<double>(std::clock()) / CLOCKS_PER_SEC, search.configurations());
    return 0;
}
