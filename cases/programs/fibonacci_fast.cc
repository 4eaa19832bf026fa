// Fibonacci numbers by squaring, over objects that `new` makes.
#include <cstdint>
#include <iostream>

class Matrix {
public:
    uint64_t a;
    uint64_t b;
    uint64_t c;
    uint64_t d;
    Matrix(uint64_t a, uint64_t b, uint64_t c, uint64_t d) : a(a), b(b), c(c), d(d) {}
    Matrix* times(Matrix* m) {
        return new Matrix(a * m->a + b * m->c, a * m->b + b * m->d, c * m->a + d * m->c, c * m->b + d * m->d);
    }
};

uint64_t fibonacci(int n) {
    Matrix* result = new Matrix(1, 0, 0, 1);
    Matrix* square = new Matrix(1, 1, 1, 0);
    while (n > 0) {
        Matrix* old = nullptr;
        if (n % 2 == 1) {
            old = result;
            result = old->times(square);
            delete old;
        }
        old = square;
        square = old->times(old);
        delete old;
        n /= 2;
    }
    uint64_t value = result->b;
    delete square;
    delete result;
    return value;
}

int main() {
    for (int n = 0; n <= 10; ++n) {
        std::cout << fibonacci(n) << " ";
    }
    std::cout << fibonacci(90) << " " << fibonacci(93) << "\n";
    return 0;
}
