// Unsigned arithmetic is modulo a power of two.
#include <cstdint>
#include <iostream>

uint32_t narrow(uint32_t a, uint32_t b) {
    std::cout << a + b << " " << a - b << " " << b - a << " " << a * b << "\n";
    return a * b + a - b;
}

uint64_t wide(uint64_t a, uint64_t b) {
    std::cout << a + b << " " << a - b << " " << b - a << " " << a * b << "\n";
    return a * b + a - b;
}

int main() {
    std::cout << narrow(4294967295u, 2u) << "\n";
    std::cout << narrow(65536u, 65537u) << "\n";
    std::cout << narrow(0u, 1u) << "\n";
    std::cout << wide(18446744073709551615u, 2u) << "\n";
    std::cout << wide(4294967296u, 4294967297u) << "\n";
    std::cout << wide(0u, 1u) << "\n";
    uint32_t one = 1;
    uint64_t one_wide = 1;
    std::cout << -one << " " << -one_wide << " " << ~one << " " << ~one_wide << "\n";
    std::cout << 7u / 2u << " " << 7u % 4u << " " << -one / 3u << " " << -one_wide % 10u << "\n";
    return 0;
}
