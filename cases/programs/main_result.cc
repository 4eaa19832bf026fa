// What `main` returns is what the run ends with.
#include <iostream>

int half(int x) { return x / 2; }

int main() {
    std::cout << "result\n";
    for (int i = 0; i < 10; ++i) {
        if (half(i) == 4) {
            return i * 5 + 2;
        }
    }
    return 1;
}
