// A thread's arguments are converted as those of a call, as it is started.
#include <cstdint>
#include <iostream>
#include <thread>

struct Cell {
    int32_t v;
};

struct Wide : public Cell {
    int32_t w;
};

Wide wide;
int global = 5;

void show(int8_t a, uint8_t b, int16_t c, uint16_t d, bool e) {
    std::cout << int(a) << " " << int(b) << " " << c << " " << d << " " << e << "\n";
}

void more(uint32_t a, int64_t b, uint64_t c, Cell* d, Cell* e) {
    std::cout << a << " " << b << " " << c << " " << d->v << " " << bool(e) << "\n";
    d->v = 99;
}

void none() { std::cout << "none\n"; }

int main() {
    wide.v = 12;
    int large = -70000;
    std::thread a(show, large, large, large, large, large);
    a.join();
    std::thread b(more, -1, -1, -1, &wide, nullptr);
    b.join();
    std::thread c(::none);
    c.join();
    // What is passed is the value at the start.
    std::thread d(show, global, global + 1, global * 2, global, global - 5);
    global = 50;
    d.join();
    std::cout << wide.v << " " << global << "\n";
    return 0;
}
