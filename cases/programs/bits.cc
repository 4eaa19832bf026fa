// Operators on bits, on signed and on unsigned numbers.
#include <cstdint>
#include <iostream>

uint32_t reversed(uint32_t x) {
    uint32_t result = 0;
    for (int i = 0; i < 32; ++i) {
        result = result << 1 | (x >> i & 1u);
    }
    return result;
}

int ones(uint64_t x) {
    int count = 0;
    while (x != 0u) {
        x = x & (x - 1u);
        count++;
    }
    return count;
}

uint32_t rotated(uint32_t x, int by) {
    return x << by | x >> (32 - by);
}

int main() {
    int a = -6;
    int b = 11;
    std::cout << (a & b) << " " << (a | b) << " " << (a ^ b) << " " << ~a << " " << ~b << "\n";
    uint64_t c = 0xff00ff00ff00ff00;
    uint64_t d = 0x0ff00ff00ff00ff0;
    std::cout << (c & d) << " " << (c | d) << " " << (c ^ d) << " " << ~c << "\n";
    std::cout << reversed(1u) << " " << reversed(0x12345678u) << " " << reversed(reversed(77u)) << "\n";
    std::cout << ones(0u) << " " << ones(0xffffffffffffffffu) << " " << ones(c) << " " << ones(0x10101u) << "\n";
    std::cout << rotated(0x80000001u, 1) << " " << rotated(0x12345678u, 16) << "\n";
    return 0;
}
