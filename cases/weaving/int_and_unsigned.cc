// Types that are written `int` and `unsigned` stay so, and their copies are `uint32_t`.
class Mixed {
    int a;
    unsigned b;
    int32_t c;
    uint32_t d;
public:
    int first(int x) {
        a += x;
        if (a > 5) {
            return a;
        }
        return b + 1;
    }
    unsigned second(unsigned x) {
        b = b * 2 + x;
        return b;
    }
    int64_t third() { return a - c + d; }
    void fourth(int x, unsigned y) {
        c = x;
        d = y;
    }
};
Mixed mixed;
int main() {
    std::cout << mixed.first(3) << " " << mixed.second(4) << " " << mixed.first(9) << " ";
    mixed.fourth(-1, 4294967295);
    std::cout << mixed.third() << "\n";
    return mixed.first(1);
}
