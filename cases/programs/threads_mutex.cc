// Workers count under a mutex.
#include <cstdint>
#include <iostream>
#include <mutex>
#include <thread>

std::mutex door;
uint32_t count;
int64_t sum;

void work(int64_t by, uint32_t times) {
    for (uint32_t i = 0; i < times; ++i) {
        door.lock();
        count++;
        sum += by;
        door.unlock();
    }
}

int main() {
    std::thread a(work, 1, 20u);
    std::thread b(work, -3, 30u);
    std::thread c(work, 1000000000000, 10u);
    std::thread d(work, 7, 25u);
    work(100, 5u);
    a.join();
    b.join();
    c.join();
    d.join();
    std::cout << count << " " << sum << "\n";
    return 0;
}
