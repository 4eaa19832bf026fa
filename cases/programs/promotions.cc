// Numbers narrower than 32 bits are promoted before they are operated on.
#include <cstdint>
#include <iostream>

int main() {
    uint8_t a = 200;
    uint8_t b = 100;
    int8_t c = -128;
    uint16_t d = 65535;
    int16_t e = -32768;
    bool f = true;
    std::cout << a + b << " " << b - a << " " << a * b << " " << c * c << " " << c - 1 << "\n";
    std::cout << d + d << " " << d * 2 << " " << -d << " " << ~d << " " << e - 1 << " " << -e << " " << ~a << " " << -c << "\n";
    std::cout << f + f << " " << -f << " " << ~f << " " << (a >> 1) << " " << (c >> 1) << " " << f * 7 - f << "\n";
    a += b;
    d *= 3;
    e -= 1;
    c--;
    std::cout << int(a) << " " << d << " " << e << " " << int(c) << "\n";
    uint8_t narrow = a + 300;
    int8_t signed_narrow = a + 100;
    int16_t middle = d * 40000ll;
    std::cout << int(narrow) << " " << int(signed_narrow) << " " << middle << "\n";
    return 0;
}
