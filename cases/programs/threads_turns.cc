// Threads one after the other: each is joined before the next begins, so all may print.
#include <cstdint>
#include <iostream>
#include <thread>

int step;

void say(int who, uint8_t times, bool loud) {
    for (uint8_t i = 0; i < times; ++i) {
        step++;
        std::cout << who;
        if (loud) {
            std::cout << "!";
        }
    }
    std::cout << " ";
}

int main() {
    std::thread a(say, 1, 3, false);
    a.join();
    std::thread b(say, 2, 258, true);
    b.join();
    std::cout << step << "\n";
    std::thread c(say, step, step - 3, step);
    c.join();
    std::cout << step << "\n";
    return 0;
}
