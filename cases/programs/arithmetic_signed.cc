// Signed arithmetic within its range, up to its ends.
#include <cstdint>
#include <iostream>

int add(int a, int b) { return a + b; }
int subtract(int a, int b) { return a - b; }
int multiply(int a, int b) { return a * b; }
int64_t wide(int64_t a, int64_t b) { return a * b; }

int main() {
    std::cout << add(2147483646, 1) << " " << add(-2147483647, -1) << " " << add(-5, 3) << "\n";
    std::cout << subtract(-2147483647, 1) << " " << subtract(0, 2147483647) << " " << subtract(10, 20) << "\n";
    std::cout << multiply(46340, 46340) << " " << multiply(-65536, 32768) << " " << multiply(-7, -6) << "\n";
    std::cout << wide(4294967296, 2147483647) << " " << wide(-4294967296, 2147483648) << " " << wide(-1, 9223372036854775807) << "\n";
    int least = -2147483647 - 1;
    int64_t least_wide = -9223372036854775807 - 1;
    std::cout << least << " " << least_wide << "\n";
    std::cout << least / 2 << " " << least_wide / 2 << " " << least % 10 << " " << least_wide % 10 << "\n";
    std::cout << -(least + 1) << " " << -(least_wide + 1) << " " << - -5 << "\n";
    return 0;
}
