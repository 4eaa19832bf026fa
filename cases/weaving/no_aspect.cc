// A program with a file of aspects that has none.
#pragma once
#include <iostream>
struct Pair {
    int a; int b;
};
Pair pair;
int sum(Pair* p);
int sum(Pair* p) { return p->a + p->b; }
int main() {
    pair.a = 0x10; pair.b = 4;
    if (pair.a > pair.b) { std::cout << "first\n"; } else if (pair.a == pair.b) { std::cout << "none\n"; } else { std::cout << "second\n"; }
    for (; pair.b < 7; ) { pair.b++; }
    std::cout << sum(&pair) << " " << - -pair.a << "\n";
}
