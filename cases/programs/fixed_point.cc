// Numbers with 16 bits behind the point.
#include <cstdint>
#include <iostream>

class Fixed {
    int32_t raw;
public:
    Fixed(int32_t whole) : raw(whole * 65536) {}
    void set_raw(int32_t r) { raw = r; }
    int32_t get_raw() { return raw; }
    void add(Fixed* other) { raw += other->raw; }
    void times(Fixed* other) { raw = (int64_t(raw) * other->raw) >> 16; }
    void over(Fixed* other) { raw = (int64_t(raw) << 16) / other->raw; }
    void show() {
        int32_t value = raw;
        if (value < 0) {
            std::cout << "-";
            value = -value;
        }
        std::cout << value / 65536 << ".";
        uint32_t rest = value % 65536;
        for (int i = 0; i < 4; ++i) {
            rest *= 10u;
            std::cout << rest / 65536u;
            rest %= 65536u;
        }
        std::cout << " ";
    }
};

Fixed a(3);
Fixed b(-7);
Fixed c(0);

int main() {
    c.set_raw(98304);
    a.show();
    b.show();
    c.show();
    a.times(&c);
    b.over(&c);
    a.show();
    b.show();
    b.add(&a);
    b.show();
    a.over(&b);
    a.show();
    std::cout << a.get_raw() << "\n";
    return 0;
}
