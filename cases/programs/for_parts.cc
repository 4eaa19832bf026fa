// `for` with each of its parts missing, and with a call or an assignment as its step.
#include <cstdint>
#include <iostream>

int count;

void advance() { count += 3; }

int endless(int stop) {
    for (;;) {
        if (count >= stop) {
            return count;
        }
        count++;
    }
}

int without_start(int n) {
    int sum = 0;
    for (; n > 0; n--) {
        sum += n;
    }
    return sum;
}

int without_step(int n) {
    int product = 1;
    for (int i = 2; i <= n;) {
        product *= i;
        ++i;
    }
    return product;
}

int without_condition(int n) {
    for (int i = 0;; ++i) {
        if (i * i * i > n) {
            return i;
        }
    }
}

int main() {
    std::cout << endless(4) << " " << without_start(10) << " " << without_step(6) << " " << without_condition(100) << "\n";
    for (count = 0; count < 10; advance()) {
        std::cout << count << " ";
    }
    for (advance(); count < 20; count = count + 2) {
        std::cout << count << " ";
    }
    int i = 7;
    for (i /= 2; i < 100; i *= i) {
        std::cout << i << " ";
    }
    for (uint8_t b = 250; b; b++) {
        std::cout << int(b) << " ";
    }
    std::cout << i << "\n";
    for (int a = 1; a <= 3; ++a) {
        for (int b = a; b <= 3; ++b) {
            int c = a * b;
            std::cout << a << "*" << b << "=" << c << " ";
        }
    }
    std::cout << "\n";
    return 0;
}
