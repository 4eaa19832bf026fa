// Pointers in conditions, under `!`, with `&&` and `||`, and compared.
#include <cstdint>
#include <iostream>

struct Cell {
    int v;
};

Cell a;
Cell b;
Cell* global;

bool same(Cell* x, Cell* y) { return x == y; }

int read(Cell* p) {
    if (p && p->v > 0) {
        return p->v;
    } else if (p) {
        return 0;
    }
    return -1;
}

Cell* pick(int n) {
    if (n == 0) {
        return nullptr;
    } else if (n == 1) {
        return &a;
    }
    return &b;
}

int main() {
    a.v = 5;
    Cell* p = nullptr;
    Cell* q = &a;
    Cell* r = q;
    std::cout << same(p, nullptr) << same(q, r) << same(q, &b) << same(p, q) << "\n";
    std::cout << read(p) << read(q) << read(&b) << "\n";
    std::cout << !p << !q << bool(p) << bool(q) << (p && q) << (p || q) << (!p && q) << (nullptr || p) << "\n";
    int count = 0;
    while (q) {
        count++;
        if (q == &a) {
            q = &b;
        } else {
            q = nullptr;
        }
    }
    std::cout << count << (q == global) << "\n";
    global = pick(2);
    global->v = a.v * 2;
    ::global->v++;
    std::cout << b.v << (pick(0) == nullptr) << (pick(1) != pick(2)) << (pick(2) == global) << "\n";
    for (Cell* c = &a; c; c = nullptr) {
        std::cout << c->v << "\n";
    }
    return 0;
}
