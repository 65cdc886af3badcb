// One thread hands strings to another, which sleeps while there is none: over a queue that both call.
#include "msq_queue.hpp"

#include <iostream>
#include <string>
#include <thread>

int main() {
    msq::queue<std::string> queue(1000);
    std::thread worker([queue]() mutable {
        for (std::string &text : queue) { // sleeps while the queue is empty, until close()
            std::cout << text << '\n';
        }
    });
    for (const char *text : {"a string", "another string"}) {
        if (!queue.push(text)) { // sleeps while the queue is full
            return 1;
        }
    }
    queue.close();
    worker.join();
}
