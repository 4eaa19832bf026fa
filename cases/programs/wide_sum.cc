// Numbers of 128 bits from two of 64: sums with carry, products of halves.
#include <cstdint>
#include <iostream>

class Wide {
    uint64_t high;
    uint64_t low;
public:
    Wide(uint64_t high, uint64_t low) : high(high), low(low) {}
    void add(uint64_t x) {
        uint64_t old = low;
        low += x;
        high += low < old;
    }
    void add_wide(Wide* other) {
        add(other->low);
        high += other->high;
    }
    void set_product(uint64_t x, uint64_t y) {
        uint64_t x0 = x & 0xffffffffu;
        uint64_t x1 = x >> 32;
        uint64_t y0 = y & 0xffffffffu;
        uint64_t y1 = y >> 32;
        uint64_t middle = x1 * y0 + (x0 * y0 >> 32);
        uint64_t other = x0 * y1 + (middle & 0xffffffffu);
        low = x * y;
        high = x1 * y1 + (middle >> 32) + (other >> 32);
    }
    void show() { std::cout << high << ":" << low << " "; }
};

Wide a(0, 18446744073709551615u);
Wide b(5, 1);
Wide c(0, 0);

int main() {
    a.add(1u);
    a.show();
    b.add_wide(&a);
    b.add(18446744073709551615u);
    b.show();
    c.set_product(18446744073709551615u, 18446744073709551615u);
    c.show();
    c.set_product(0x123456789abcdefu, 0xfedcba9876543210u);
    c.show();
    b.add_wide(&c);
    b.show();
    std::cout << "\n";
    return 0;
}
