// Integer roots by halving and by Newton's way.
#include <cstdint>
#include <iostream>

uint32_t root(uint64_t n) {
    uint64_t low = 0;
    uint64_t high = 4294967296u;
    while (low + 1u < high) {
        uint64_t middle = (low + high) / 2u;
        if (middle * middle <= n) {
            low = middle;
        } else {
            high = middle;
        }
    }
    return low;
}

int64_t newton(int64_t n) {
    if (n < 2) {
        return n;
    }
    int64_t x = n;
    int64_t y = (x + 1) / 2;
    while (y < x) {
        x = y;
        y = (x + n / x) / 2;
    }
    return x;
}

int64_t cube_root(int64_t n) {
    int64_t r = 0;
    for (int64_t bit = 1048576; bit > 0; bit /= 2) {
        int64_t t = r + bit;
        if (t * t <= n / t) {
            r = t;
        }
    }
    return r;
}

int main() {
    std::cout << root(0) << " " << root(99) << " " << root(100) << " " << root(18446744073709551615u) << "\n";
    std::cout << newton(1) << " " << newton(144) << " " << newton(143) << " " << newton(1000000000000) << "\n";
    std::cout << cube_root(26) << " " << cube_root(27) << " " << cube_root(1000000000000) << "\n";
    return 0;
}
