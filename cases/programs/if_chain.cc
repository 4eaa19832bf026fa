// Chains of `else if`, nested choices, and choices without an `else`.
#include <cstdint>
#include <iostream>

int grade(int points) {
    if (points >= 90) {
        return 1;
    } else if (points >= 75) {
        return 2;
    } else if (points >= 60) {
        return 3;
    } else if (points >= 50) {
        return 4;
    } else {
        return 5;
    }
}

int sign(int64_t x) {
    if (x < 0) {
        return -1;
    }
    if (x) {
        return 1;
    } else {
    }
    return 0;
}

void nested(bool a, bool b) {
    if (a) {
        if (b) {
            std::cout << "ab ";
        } else {
            std::cout << "a- ";
        }
    } else if (b) {
        std::cout << "-b ";
    } else {
        { std::cout << "-- "; }
    }
}

int main() {
    for (int points = 0; points <= 100; points += 10) {
        std::cout << grade(points) << " ";
    }
    std::cout << "\n" << sign(-5) << sign(0) << sign(9223372036854775807) << "\n";
    nested(true, true);
    nested(true, false);
    nested(false, true);
    nested(false, false);
    std::cout << "\n";
    if (grade(95) == 1 && sign(3) > 0) {
        std::cout << "good\n";
    }
    return 0;
}
