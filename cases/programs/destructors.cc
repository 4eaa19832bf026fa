// Global objects are constructed in order, then `main` runs, then they are destroyed in reverse order.
#include <cstdint>
#include <iostream>

int alive;

class Noisy {
    int number;
public:
    Noisy(int number) : number(number) {
        alive++;
        std::cout << "+" << number << "(" << alive << ") ";
    }
    ~Noisy() {
        std::cout << "-" << number << "(" << alive << ") ";
        alive--;
        if (alive == 0) {
            std::cout << "none" << std::endl;
        }
    }
    void rename(int to) { number = to; }
};

class Silent {
public:
    int n;
};

Noisy one(1);
Silent silent;
Noisy two(2);
Noisy three(3);

int main() {
    std::cout << "main ";
    two.rename(20);
    silent.n = 5;
    Noisy* four = new Noisy(4);
    Noisy* five = new Noisy(5);
    delete four;
    five->rename(50);
    delete five;
    std::cout << "end ";
    return 0;
}
