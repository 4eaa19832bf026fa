// A recursion that goes as deep as a thread's frames allow.
#include <cstdint>
#include <iostream>

int depth(int n) {
    if (n == 0) {
        return 0;
    }
    return depth(n - 1) + 1;
}

class Well {
    int bottom;
public:
    Well() : bottom(0) {}
    void dig(int n) {
        bottom += n;
        if (n > 1) {
            this->dig(n - 1);
        }
    }
    int get() { return bottom; }
};

Well well;

int main() {
    std::cout << depth(197) << "\n";
    well.dig(198);
    std::cout << well.get() << "\n";
    return 0;
}
