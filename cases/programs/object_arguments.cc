// Arguments of global objects: calls, earlier globals, addresses, sums and conversions.
#include <cstdint>
#include <iostream>

int next = 10;

int take() {
    next += 5;
    std::cout << "take ";
    return next;
}

class Part {
    int size;
    uint8_t low;
public:
    Part(int size, uint8_t low) : size(size), low(low) { std::cout << "part" << size << "," << int(this->low) << " "; }
    int get() { return size; }
};

class Whole {
    int sum;
    bool alone;
public:
    Whole(Part* a, Part* b, bool alone) : sum(a->get()), alone(alone) {
        if (b) {
            sum += b->get();
        }
        std::cout << "whole" << sum << this->alone << " ";
    }
    int get() { return sum; }
};

Part first(next, 300 + 1);
Part second(take() * 2, first.get());
Part third(first.get() + second.get(), -1);
Whole both(&first, &third, first.get() > 5 && true);
Whole single(&second, nullptr, false);

int main() {
    std::cout << "\n" << both.get() << " " << single.get() << " " << next << "\n";
    return 0;
}
