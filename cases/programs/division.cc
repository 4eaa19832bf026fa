// Division truncates toward zero, and the remainder has the sign of the dividend.
#include <cstdint>
#include <iostream>

void show(int a, int b) {
    std::cout << a << "/" << b << "=" << a / b << " rest " << a % b << " back " << a / b * b + a % b << "\n";
}

void show_wide(int64_t a, int64_t b) {
    std::cout << a << "/" << b << "=" << a / b << " rest " << a % b << "\n";
}

int main() {
    show(7, 2);
    show(-7, 2);
    show(7, -2);
    show(-7, -2);
    show(1, 3);
    show(-1, 3);
    show(0, -5);
    show(-2147483647 - 1, 2147483647);
    show_wide(9223372036854775807, 10);
    show_wide(-9223372036854775807 - 1, 3);
    show_wide(-9223372036854775807 - 1, -9223372036854775807 - 1);
    // A negative dividend turns large where the divisor is unsigned.
    int negative = -7;
    uint32_t two = 2;
    std::cout << negative / two << " " << negative % two << " " << negative / int64_t(two) << "\n";
    return 0;
}
