// Generators of pseudo-random numbers.
#include <cstdint>
#include <iostream>

class Linear {
    uint32_t state;
public:
    Linear(uint32_t seed) : state(seed) {}
    uint32_t next() {
        state = state * 1664525u + 1013904223u;
        return state;
    }
    uint32_t below(uint32_t n) { return uint64_t(next()) * n >> 32; }
};

class Shifting {
    uint64_t state;
public:
    Shifting(uint64_t seed) : state(seed) {}
    uint64_t next() {
        state = state ^ state << 13;
        state = state ^ state >> 7;
        state = state ^ state << 17;
        return state;
    }
};

uint16_t feedback(uint16_t x) {
    uint16_t bit = (x ^ x >> 2 ^ x >> 3 ^ x >> 5) & 1;
    return x >> 1 | bit << 15;
}

Linear linear(42);
Shifting shifting(88172645463325252u);

int main() {
    for (int i = 0; i < 5; ++i) {
        std::cout << linear.next() << " ";
    }
    std::cout << "\n";
    for (int i = 0; i < 20; ++i) {
        std::cout << linear.below(6u) + 1u;
    }
    std::cout << "\n";
    for (int i = 0; i < 4; ++i) {
        std::cout << shifting.next() << " ";
    }
    std::cout << "\n";
    uint16_t x = 0xace1;
    int period = 0;
    while (period < 300) {
        x = feedback(x);
        period++;
    }
    std::cout << x << "\n";
    return 0;
}
