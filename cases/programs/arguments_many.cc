// Sixteen parameters, many locals, and a sum of many terms.
#include <cstdint>
#include <iostream>

int sum(int a, int b, int c, int d, int e, int f, int g, int h, int i, int j, int k, int l, int m, int n, int o, int p) {
    return a + b * 2 + c * 3 + d * 4 + e * 5 + f * 6 + g * 7 + h * 8 + i * 9 + j * 10 + k * 11 + l * 12 + m * 13 + n * 14 + o * 15 + p * 16;
}

int main() {
    std::cout << sum(1, 1, 1, 1, 1, 1, 1, 1, 1, 1, 1, 1, 1, 1, 1, 1) << "\n";
    std::cout << sum(1, 2, 3, 4, 5, 6, 7, 8, 9, 10, 11, 12, 13, 14, 15, 16) << "\n";
    int a = sum(0, 0, 0, 0, 0, 0, 0, 0, 0, 0, 0, 0, 0, 0, 0, 1);
    int b = ((((((((a + 1) * 2) - 3) * 4) - 5) * 6) - 7) * 8);
    std::cout << a << " " << b << " " << -(-(-(-a))) << " " << !!!!a << " " << ~~~a << "\n";
    return 0;
}
