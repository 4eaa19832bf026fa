// How tightly operators bind, and that they group from left to right.
#include <cstdint>
#include <iostream>

int main() {
    int a = 2;
    int b = 3;
    int c = 5;
    int d = 7;
    std::cout << a + b * c - d << " " << (a + b) * c - d << " " << a + b * (c - d) << "\n";
    std::cout << 100 - 10 - 5 << " " << 100 - (10 - 5) << " " << 100 / 10 / 5 << " " << 100 / (10 / 5) << "\n";
    std::cout << 100 % 30 * 2 << " " << 100 * 2 % 30 << " " << -a * -b << " " << - -a + ~b << "\n";
    std::cout << (a << b + 1) << " " << ((a << b) + 1) << " " << (256 >> a >> b) << " " << (256 >> (a << 1)) << "\n";
    std::cout << (a + b < c + d) << (a << b > c) << (a * b == c + 1) << (a < b) << "\n";
    std::cout << ((a < b) == (c < d)) << ((a | b) & c) << " " << (a | (b & c)) << " " << (a ^ (b & c)) << "\n";
    std::cout << (12 & 10 ^ 3 | 16) << " " << (12 & (10 ^ 3) | 16) << " " << (12 & (10 ^ (3 | 16))) << "\n";
    std::cout << (a == b || c < d && a < b) << ((a == b || c < d) && a > b) << (!a == b) << (!(a == b)) << "\n";
    std::cout << ((a & b) == 2) << (a & b == 3) << " " << (~a & 0xff) << " " << (1 + !a) << "\n";
    return 0;
}
