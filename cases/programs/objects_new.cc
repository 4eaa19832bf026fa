// Objects that `new` makes and `delete` destroys.
#include <cstdint>
#include <iostream>

class Item {
    int weight;
public:
    Item() : weight(1) { std::cout << "i"; }
    ~Item() { std::cout << "d" << weight; }
    void load(int w) { weight += w; }
    int get() { return weight; }
};

class Pair {
    int a;
    int b;
public:
    Pair(int x, int y) : a(x), b(y) {}
    int sum() { return a + b; }
};

struct Plain {
    uint8_t v;
};

Item* make(int extra) {
    Item* item = new Item;
    item->load(extra);
    return item;
}

void drop(Item* item) { delete item; }

int main() {
    Item* a = make(10);
    Item* b = new Item();
    std::cout << " " << a->get() << " " << b->get() << " " << (a == b) << (a != b) << "\n";
    b->load(a->get());
    drop(a);
    a = b;
    std::cout << " " << a->get() << " " << (a == b) << "\n";
    drop(b);
    std::cout << "\n";
    Pair* pair = new Pair(7, -3);
    std::cout << pair->sum() << "\n";
    delete pair;
    Plain* plain = new Plain;
    plain->v = 255;
    plain->v++;
    std::cout << int(plain->v) << "\n";
    delete plain;
    delete new Item;
    std::cout << "\n";
    for (int i = 0; i < 5; ++i) {
        Item* item = make(i);
        delete item;
    }
    std::cout << "\n";
    Item* none = nullptr;
    delete none;
    delete make(7);
    std::cout << "\n";
    return 0;
}
