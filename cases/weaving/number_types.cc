// A member of each number type, near the ends of its range.
class Numbers {
    int8_t a;
    uint8_t b;
    int16_t c;
    uint16_t d;
    int32_t e;
    uint32_t f;
    int64_t g;
    uint64_t h;
    int i;
    unsigned j;
public:
    Numbers() : a(-128), b(255), c(-32768), d(65535), e(-2147483647 - 1), f(4294967295u), g(-9223372036854775807 - 1), h(18446744073709551615ull), i(2147483647), j(0xffffffff) {}
    void turn() {
        a = a ^ 85;
        b += 3;
        c = ~c;
        d -= 2;
        e = e / 3;
        f = f >> 1;
        g = g + 1;
        h = h << 3;
        i = -i;
        j++;
    }
    int narrow() { return a + b + c + d; }
    int64_t first() { return g; }
    uint64_t second() { return h; }
    void show() { std::cout << e << " " << f << " " << i << " " << j << "\n"; }
};
Numbers numbers;
int main() {
    for (int k = 0; k < 4; ++k) {
        std::cout << numbers.narrow() << " " << numbers.first() << " " << numbers.second() << "\n";
        numbers.show();
        numbers.turn();
    }
    return 0;
}
