// Two threads count the pulses of two wheels into one odometer, each change under a mutex.
#include <cstdint>
#include <iostream>
#include <mutex>
#include <thread>

class Odometer {
    uint64_t millimetres;
    uint32_t pulses;
    uint8_t wheels;
public:
    Odometer() : millimetres(0), pulses(0), wheels(0) {}
    void add(uint32_t length) {
        millimetres += length;
        pulses++;
    }
    void finish() { wheels++; }
    void report() {
        std::cout << int(wheels) << " wheels, " << pulses << " pulses, ";
        std::cout << millimetres / 1000u << "." << millimetres % 1000u << " m\n";
    }
};

std::mutex door;
Odometer odometer;

void wheel(uint32_t length, uint32_t turns) {
    for (uint32_t i = 0; i < turns; ++i) {
        door.lock();
        odometer.add(length);
        door.unlock();
    }
    door.lock();
    odometer.finish();
    door.unlock();
}

int main() {
    std::thread left(wheel, 2105u, 40u);
    std::thread right(wheel, 2098u, 37u);
    left.join();
    right.join();
    odometer.report();
    return 0;
}
