// Calls within calls: on global objects, through pointers, on `this`, and of free functions.
#include <cstdint>
#include <iostream>

class Calculator {
    int memory;
public:
    Calculator(int start) : memory(start) {}
    int add(int a, int b) { return a + b; }
    int times(int a, int b) { return this->repeated(a, b, 0); }
    int repeated(int a, int b, int sum) {
        if (b == 0) {
            return sum;
        }
        return repeated(a, b - 1, add(sum, a));
    }
    int stored() { return memory; }
    void store(int x) { memory = x; }
};

Calculator calculator(3);
Calculator spare(11);

int half(int x) { return x / 2; }

int by(Calculator* c, int x) { return c->add(c->stored(), x); }

Calculator* other(Calculator* c) {
    if (c == &calculator) {
        return &spare;
    }
    return &calculator;
}

int main() {
    Calculator* p = &spare;
    std::cout << calculator.add(calculator.times(4, 5), calculator.add(1, half(9))) << "\n";
    std::cout << p->add(calculator.stored(), p->times(half(p->stored()), 3)) << "\n";
    std::cout << by(&calculator, by(p, by(other(p), half(by(other(&calculator), 20))))) << "\n";
    calculator.store(p->times(calculator.stored() + 1, half(8)));
    p->store(calculator.add(calculator.stored(), -p->stored()));
    std::cout << calculator.stored() << " " << spare.stored() << "\n";
    if (calculator.add(1, 1) == 2 && p->times(2, 2) == half(8)) {
        std::cout << "right\n";
    }
    while (calculator.stored() > half(half(p->stored()))) {
        calculator.store(half(calculator.stored()));
    }
    std::cout << calculator.stored() << "\n";
    return 0;
}
