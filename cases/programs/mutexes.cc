// Two mutexes: taken in one order, freed in another, by functions and by threads.
#include <cstdint>
#include <iostream>
#include <mutex>
#include <thread>

std::mutex first;
std::mutex second;
int a = 100;
int b = 200;

void take() {
    first.lock();
    second.lock();
}

void give() {
    first.unlock();
    ::second.unlock();
}

void swap_some(int n) {
    take();
    a += n;
    b -= n;
    give();
}

int sum() {
    take();
    int s = a + b;
    give();
    return s;
}

void many(int n) {
    for (int i = 0; i < n; i++) {
        swap_some(i);
    }
}

int main() {
    std::thread t(many, 10);
    std::thread u(many, 6);
    int seen = 0;
    for (int i = 0; i < 5; ++i) {
        if (sum() == 300) {
            ++seen;
        }
    }
    t.join();
    u.join();
    std::cout << seen << " " << a << " " << b << "\n";
    for (first.lock(); a != 160; first.unlock()) {
        a++;
        first.unlock();
        std::cout << a << " ";
        first.lock();
    }
    return 0;
}
