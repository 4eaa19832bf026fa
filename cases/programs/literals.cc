// Literals of each kind, by suffix and by size.
#include <cstdint>
#include <iostream>

int main() {
    std::cout << 0 << " " << 7 << " " << 2147483647 << " " << 2147483648 << " " << 9223372036854775807 << "\n";
    std::cout << 0u << " " << 4294967295u << " " << 4294967296u << " " << 18446744073709551615u << "\n";
    std::cout << 1U << " " << 5ll << " " << 6LL << " " << 7ull << " " << 18446744073709551615ULL << "\n";
    std::cout << 0x0 << " " << 0x7fffffff << " " << 0x80000000 << " " << 0xFFFFFFFF << " " << 0X100000000 << "\n";
    std::cout << 0x7fffffffffffffff << " " << 0x8000000000000000 << " " << 0xabcdefu << " " << 0xABCDEFull << "\n";
    std::cout << true << false << " " << bool(0x10) << "\n";
    std::cout << -0 << " " << -1 << " " << -2147483647 << " " << -9223372036854775807 << " " << -1ll << "\n";
    // The kind decides where a sum wraps.
    std::cout << 4294967295u + 1u << " " << 4294967295u + 1ull << " " << 0xffffffff + 1 << " " << 2147483648 + 1 << "\n";
    std::cout << 0x8000000000000000 + 0x8000000000000000 << "\n";
    return 0;
}
