// Values are converted as they are stored, passed and returned.
#include <cstdint>
#include <iostream>

int8_t as_i8(int64_t x) { return x; }
uint8_t as_u8(int64_t x) { return x; }
int16_t as_i16(int64_t x) { return x; }
uint16_t as_u16(int64_t x) { return x; }
int32_t as_i32(int64_t x) { return x; }
uint32_t as_u32(int64_t x) { return x; }
uint64_t as_u64(int64_t x) { return x; }
bool as_bool(int64_t x) { return x; }

void passed(int8_t a, uint8_t b, int16_t c, uint16_t d, bool e) {
    std::cout << int(a) << " " << int(b) << " " << c << " " << d << " " << e << "\n";
}

class Store {
    int8_t low;
    uint16_t high;
    bool any;
public:
    Store(int64_t x) : low(x), high(x), any(x) {}
    void put(int64_t x) {
        low = x;
        this->high = x;
        any = x;
    }
    void show() { std::cout << int(low) << " " << high << " " << any << "\n"; }
};

int8_t small;
uint16_t middle = 0x12345;
bool flag = 7;
Store store(-129);

void all(int64_t x) {
    std::cout << int(as_i8(x)) << " " << int(as_u8(x)) << " " << as_i16(x) << " " << as_u16(x) << " ";
    std::cout << as_i32(x) << " " << as_u32(x) << " " << as_u64(x) << " " << as_bool(x) << "\n";
    passed(x, x, x, x, x);
    small = x;
    middle = x;
    flag = x;
    std::cout << int(small) << " " << middle << " " << flag << "\n";
    int8_t local = x;
    uint32_t other = local;
    bool yes = other;
    std::cout << int(local) << " " << other << " " << yes << "\n";
    store.show();
    store.put(x);
    store.show();
}

int main() {
    std::cout << int(small) << " " << middle << " " << flag << "\n";
    all(0);
    all(-1);
    all(127);
    all(128);
    all(256);
    all(-32769);
    all(4294967296);
    all(-9223372036854775807);
    return 0;
}
