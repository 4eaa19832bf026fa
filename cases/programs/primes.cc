// Prime numbers by trial division.
#include <cstdint>
#include <iostream>

bool is_prime(uint32_t n) {
    if (n < 2u) {
        return false;
    }
    for (uint32_t d = 2; d * d <= n; ++d) {
        if (n % d == 0u) {
            return false;
        }
    }
    return true;
}

int main() {
    uint32_t count = 0;
    for (uint32_t n = 0; n < 120u; n++) {
        if (is_prime(n)) {
            count++;
            std::cout << n << " ";
        }
    }
    std::cout << std::endl << count << std::endl;
    return 0;
}
