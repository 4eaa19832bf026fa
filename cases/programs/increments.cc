// Steps up and down, in both positions, on each kind of variable.
#include <cstdint>
#include <iostream>

class Meter {
    int32_t count;
    uint8_t small;
public:
    Meter() : count(0), small(0) {}
    void up() {
        count++;
        ++this->count;
        small--;
    }
    void down() {
        --count;
        this->small++;
        this->small++;
    }
    int32_t get() { return count; }
    int32_t get_small() { return small; }
};

struct Open {
    int64_t n;
};

int32_t global = 5;
Meter meter;
Open box;

int main() {
    int32_t i = 0;
    i++;
    ++i;
    std::cout << i;
    i--;
    --i;
    --i;
    std::cout << i << "\n";
    global++;
    ::global++;
    ++::global;
    --global;
    std::cout << global << "\n";
    meter.up();
    std::cout << meter.get() << " " << meter.get_small() << "\n";
    meter.down();
    std::cout << meter.get() << " " << meter.get_small() << "\n";
    Open* p = &box;
    box.n++;
    ++box.n;
    p->n++;
    --p->n;
    ++p->n;
    std::cout << box.n << "\n";
    int8_t a = 127;
    a++;
    uint8_t b = 0;
    b--;
    int16_t c = -32768;
    --c;
    uint16_t d = 65535;
    ++d;
    uint32_t e = 0;
    e--;
    uint64_t f = 0;
    --f;
    int64_t g = 9223372036854775806;
    g++;
    std::cout << int(a) << " " << int(b) << " " << c << " " << d << " " << e << " " << f << " " << g << "\n";
    return 0;
}
