// Threads that start threads, down to the last, and join them.
#include <cstdint>
#include <iostream>
#include <mutex>
#include <thread>

std::mutex lock_of_total;
int total;

void add(int n) {
    lock_of_total.lock();
    total += n;
    lock_of_total.unlock();
}

void tree(int depth) {
    if (depth == 0) {
        add(1);
        return;
    }
    std::thread left(tree, depth - 1);
    std::thread right(tree, depth - 1);
    left.join();
    right.join();
    add(10);
}

void chain(int n) {
    add(n * 100);
    if (n > 1) {
        chain(n - 1);
    }
}

int main() {
    tree(2);
    std::cout << total << "\n";
    std::thread last(chain, 4);
    last.join();
    std::cout << total << "\n";
    return 0;
}
