// Shifts: the type is that of the left side, and a signed number keeps its sign to the right.
#include <cstdint>
#include <iostream>

int main() {
    for (int i = 0; i < 32; i += 5) {
        std::cout << (1 << i) << " " << (1u << i) << " " << (1ll << (i + i / 2)) << " " << (3u << i) << "\n";
    }
    int negative = -1000;
    uint32_t large = 4000000000u;
    std::cout << (negative >> 3) << " " << (negative >> 31) << " " << (large >> 3) << " " << (large >> 31) << "\n";
    std::cout << (negative << 4) << " " << (-1 << 31) << " " << (1 << 31) << " " << (large << 1) << "\n";
    int64_t wide = -4611686018427387904;
    uint64_t wider = 0xf0f0f0f0f0f0f0f0;
    std::cout << (wide >> 62) << " " << (wide << 1) << " " << (wider >> 60) << " " << (wider << 4) << " " << (wide << 2) << "\n";
    uint8_t small = 0x80;
    int8_t least = -128;
    std::cout << (small << 1) << " " << (small << 24) << " " << (least >> 7) << " " << (least << 1) << "\n";
    uint64_t count = 33;
    std::cout << (1ull << count) << " " << (5 >> (count - 32)) << " " << (true << 3) << "\n";
    return 0;
}
