// The right side of `&&` and of `||` is evaluated only where it is needed.
#include <cstdint>
#include <iostream>

int calls;

bool yes(int n) {
    calls++;
    std::cout << "y" << n;
    return true;
}

bool no(int n) {
    calls++;
    std::cout << "n" << n;
    return false;
}

int main() {
    std::cout << "=" << (yes(1) && yes(2)) << " ";
    std::cout << "=" << (yes(1) && no(2)) << " ";
    std::cout << "=" << (no(1) && yes(2)) << " ";
    std::cout << "=" << (no(1) && no(2)) << "\n";
    std::cout << "=" << (yes(1) || yes(2)) << " ";
    std::cout << "=" << (yes(1) || no(2)) << " ";
    std::cout << "=" << (no(1) || yes(2)) << " ";
    std::cout << "=" << (no(1) || no(2)) << "\n";
    std::cout << "=" << (no(1) || (yes(2) && no(3)) || yes(4)) << " ";
    std::cout << "=" << (yes(1) && (no(2) || yes(3)) && (no(4) || no(5)) && yes(6)) << "\n";
    int zero = 0;
    if (zero != 0 && 10 / zero > 1) {
        std::cout << "never\n";
    }
    while (no(1) || (calls < 30 && yes(2))) {
        std::cout << " ";
    }
    std::cout << "\ncalls " << calls << "\n";
    return 0;
}
