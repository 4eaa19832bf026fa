// Comparisons of numbers of one kind.
#include <cstdint>
#include <iostream>

void signed_ones(int64_t a, int64_t b) {
    std::cout << (a < b) << (a <= b) << (a > b) << (a >= b) << (a == b) << (a != b) << " ";
}

void unsigned_ones(uint64_t a, uint64_t b) {
    std::cout << (a < b) << (a <= b) << (a > b) << (a >= b) << (a == b) << (a != b) << " ";
}

void small_ones(int8_t a, int8_t b) {
    std::cout << (a < b) << (a <= b) << (a > b) << (a >= b) << (a == b) << (a != b) << " ";
}

void flags(bool a, bool b) {
    std::cout << (a < b) << (a <= b) << (a > b) << (a >= b) << (a == b) << (a != b) << " ";
}

int main() {
    signed_ones(-1, 1);
    signed_ones(1, -1);
    signed_ones(5, 5);
    signed_ones(-9223372036854775807 - 1, 9223372036854775807);
    std::cout << std::endl;
    unsigned_ones(0u, 18446744073709551615u);
    unsigned_ones(18446744073709551615u, 0u);
    unsigned_ones(7u, 7u);
    std::cout << std::endl;
    small_ones(-128, 127);
    small_ones(127, -128);
    small_ones(0, 0);
    std::cout << std::endl;
    flags(false, true);
    flags(true, false);
    flags(true, true);
    std::cout << std::endl;
    return 0;
}
