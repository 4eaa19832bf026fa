// Objects of `new`, made and destroyed in loops.
class Item {
    uint32_t value;
public:
    Item(uint32_t x) : value(x) {}
    ~Item() { std::cout << "-" << value << " "; }
    uint32_t take() {
        value = value + 1u;
        return value;
    }
    bool less(Item* other) { return value < other->get(); }
    uint32_t get() { return value; }
};
Item* larger(Item* a, Item* b) {
    if (a->less(b)) {
        delete a;
        return b;
    }
    delete b;
    return a;
}
int main() {
    Item* kept = new Item(5u);
    for (uint32_t i = 1u; i < 9u; ++i) {
        Item* next = new Item(i * 7u % 10u);
        std::cout << next->take() << " ";
        kept = larger(kept, next);
    }
    std::cout << kept->get() << "\n";
    delete kept;
    kept = nullptr;
    delete kept;
    std::cout << "\n";
    return 0;
}
