// Functions of objects that make and destroy other objects of their class.
class Seed {
    uint32_t size;
    uint32_t grown;
public:
    Seed(uint32_t s) : size(s), grown(0u) {}
    ~Seed() { grown = 0u; }
    uint32_t grow() {
        if (size == 0u) {
            return 1u;
        }
        Seed* left = new Seed(size - 1u);
        grown += left->grow();
        delete left;
        if (size > 1u) {
            Seed* right = new Seed(size - 2u);
            grown += right->grow();
            delete right;
            return grown + 1u;
        }
        return grown;
    }
    Seed* copy() { return new Seed(size); }
};
Seed seed(5u);
int main() {
    std::cout << seed.grow() << " ";
    Seed* other = seed.copy();
    std::cout << other->grow() << " " << other->grow() << "\n";
    delete other;
    return 0;
}
