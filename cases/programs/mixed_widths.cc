// Two operands of different kinds: the wider one wins, and of equal width the unsigned one.
#include <cstdint>
#include <iostream>

int main() {
    int i = -2;
    uint32_t u = 3;
    int64_t l = -5;
    uint64_t w = 7;
    int16_t s = -300;
    uint16_t t = 60000;
    std::cout << i + u << " " << i - u << " " << i * u << " " << i / u << " " << i % u << "\n";
    std::cout << u + l << " " << u - l << " " << u * l << " " << l / u << " " << l % u << "\n";
    std::cout << i + w << " " << i * w << " " << i / w << " " << l + w << " " << l * w << " " << l % w << "\n";
    std::cout << i + l << " " << s + u << " " << s * t << " " << s + w << " " << t - l << " " << s / t << "\n";
    std::cout << (i & w) << " " << (i | u) << " " << (l ^ u) << " " << (s & l) << " " << (t | i) << "\n";
    std::cout << 2147483647 + 1ll << " " << 2147483647 + 1u << " " << 2147483647 * 2u << " " << true + w << " " << false - u << "\n";
    return 0;
}
