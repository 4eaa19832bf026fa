// Functions: parameters and results of each type, results that are dropped, calls as operands and arguments.
#include <cstdint>
#include <iostream>

int later(int x);

int8_t smallest(int8_t a, int8_t b) {
    if (b < a) {
        return b;
    }
    return a;
}

uint16_t sum16(uint8_t a, uint8_t b) { return a + b; }
bool between(int x, int low, int high) { return low <= x && x <= high; }
uint64_t mixed(bool a, int8_t b, uint8_t c, int16_t d, uint16_t e, int32_t f, uint32_t g, int64_t h, uint64_t i) {
    return a + b + c + d + e + f + g + h + i;
}
void nothing() {}
void early(int n) {
    if (n > 2) {
        std::cout << "large ";
        return;
    }
    std::cout << "small ";
}
int square(int x) { return x * x; }
int changed(int x) {
    x += 5;
    x *= 2;
    return x;
}

int main() {
    std::cout << int(smallest(3, -7)) << " " << sum16(200, 100) << " " << between(5, 1, 9) << between(0, 1, 9) << "\n";
    std::cout << mixed(true, -2, 3, -4, 5, -6, 7u, -8, 9u) << "\n";
    nothing();
    early(1);
    early(3);
    square(3);
    int n = 4;
    std::cout << changed(n) << " " << n << " " << square(square(n) - square(3)) << "\n";
    std::cout << later(later(later(1))) << " " << ::later(::square(2)) << " " << square(2) + square(3) * square(1) << "\n";
    return 0;
}

int later(int x) { return x * 10 + 1; }
