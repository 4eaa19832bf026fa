// Functions that call themselves and each other.
#include <cstdint>
#include <iostream>

int fibonacci(int n) {
    if (n < 2) {
        return n;
    }
    return fibonacci(n - 1) + fibonacci(n - 2);
}

uint64_t factorial(uint64_t n) {
    if (n == 0u) {
        return 1;
    }
    return n * factorial(n - 1u);
}

uint32_t divisor(uint32_t a, uint32_t b) {
    if (!b) {
        return a;
    }
    return divisor(b, a % b);
}

int ackermann(int m, int n) {
    if (m == 0) {
        return n + 1;
    } else if (n == 0) {
        return ackermann(m - 1, 1);
    }
    return ackermann(m - 1, ackermann(m, n - 1));
}

bool is_odd(int n);

bool is_even(int n) {
    if (n == 0) {
        return true;
    }
    return is_odd(n - 1);
}

bool is_odd(int n) {
    if (n == 0) {
        return false;
    }
    return is_even(n - 1);
}

int64_t power(int64_t base, uint32_t exponent) {
    if (exponent == 0u) {
        return 1;
    }
    int64_t half = power(base, exponent / 2u);
    if (exponent % 2u == 1u) {
        return half * half * base;
    }
    return half * half;
}

int main() {
    std::cout << fibonacci(0) << " " << fibonacci(1) << " " << fibonacci(14) << "\n";
    std::cout << factorial(0) << " " << factorial(20) << " " << factorial(21) << "\n";
    std::cout << divisor(1071u, 462u) << " " << divisor(17u, 5u) << " " << divisor(0u, 9u) << "\n";
    std::cout << ackermann(2, 3) << " " << is_even(50) << is_odd(50) << is_odd(7) << "\n";
    std::cout << power(2, 40) << " " << power(-3, 13) << " " << power(10, 0) << "\n";
    return 0;
}
