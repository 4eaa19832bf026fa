// Loops with `while`: conditions of each sort, nested loops, and leaving by `return`.
#include <cstdint>
#include <iostream>

int collatz(uint64_t n) {
    int steps = 0;
    while (n != 1u) {
        if (n % 2u == 0u) {
            n /= 2u;
        } else {
            n = 3u * n + 1u;
        }
        ++steps;
    }
    return steps;
}

int first_square_above(int limit) {
    int i = 0;
    while (true) {
        if (i * i > limit) {
            return i;
        }
        i++;
    }
}

int main() {
    std::cout << collatz(1u) << " " << collatz(6u) << " " << collatz(27u) << "\n";
    std::cout << first_square_above(0) << " " << first_square_above(99) << " " << first_square_above(100) << "\n";
    int n = 5;
    while (n) {
        int m = n;
        while (m > 0) {
            std::cout << m;
            m--;
        }
        std::cout << " ";
        --n;
    }
    std::cout << "\n";
    while (false) {
        std::cout << "never";
    }
    bool go = true;
    while (go) {
        go = false;
        std::cout << "once\n";
    }
    return 0;
}
