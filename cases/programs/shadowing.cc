// A local hides a member, a member hides a global, and `this->` and `::` reach what is hidden.
#include <cstdint>
#include <iostream>

int value = 1;
int other = 2;

int twice(int x) { return 2 * x; }

class Box {
    int value;
public:
    Box(int value) : value(value * 10) { this->value += value; }
    int twice(int x) { return ::twice(x) + 1000; }
    void show() {
        std::cout << value << " " << this->value << " " << ::value << " " << other << "\n";
        int value = 3;
        std::cout << value << " " << this->value << " " << ::value << "\n";
        {
            int other = 4;
            value += other;
            this->value += ::other;
            ::value -= other;
        }
        std::cout << value << " " << this->value << " " << ::value << " " << other << "\n";
        std::cout << twice(5) << " " << this->twice(6) << " " << ::twice(7) << "\n";
    }
    void put(int value) { this->value = value; }
};

Box box(5);

int main() {
    box.show();
    box.put(70);
    box.show();
    int twice = 9;
    int box = 8;
    std::cout << twice << ::twice(twice) << box << "\n";
    ::box.put(60);
    ::box.show();
    return 0;
}
