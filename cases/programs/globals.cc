// Global numbers and pointers with and without initial values, used before and behind the functions that name them.
#include <cstdint>
#include <iostream>

struct Cell {
    int v;
};

int8_t a = -128;
uint8_t b = 255;
int16_t c = -0x7fff;
uint16_t d = 65535;
int32_t e = -2147483647;
uint32_t f = 4294967295u;
int64_t g = -9223372036854775807;
uint64_t h = 18446744073709551615u;
bool i = true;
bool j = false;
int k;
unsigned l = 3;
int64_t m;
Cell cell;
Cell* p = nullptr;
Cell* q;

void set(Cell* to) { q = to; }

int main() {
    std::cout << int(a) << " " << int(b) << " " << c << " " << d << " " << e << " " << f << " " << g << " " << h << "\n";
    std::cout << i << j << k << l << m << (p == q) << (q == nullptr) << bool(p) << "\n";
    k = a + b;
    m = g - 1;
    ::l = f;
    i = j;
    std::cout << k << " " << m << " " << ::l << " " << i << "\n";
    set(&cell);
    p = q;
    p->v = 77;
    cell.v += 1;
    std::cout << q->v << (p == &cell) << (p != q) << "\n";
    set(nullptr);
    std::cout << bool(q) << bool(p) << "\n";
    return 0;
}
