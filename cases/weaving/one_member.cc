// A number that is put and got.
class Cell {
    uint32_t v;
public:
    void put(uint32_t x) { v = x; }
    uint32_t get() { return v; }
};
Cell c;
int main() {
    for (uint32_t i = 0u; i < 5u; ++i) {
        c.put(i * i + 1u);
        std::cout << c.get() << " ";
    }
    std::cout << std::endl;
    return 0;
}
