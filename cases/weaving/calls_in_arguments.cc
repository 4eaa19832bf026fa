// Calls of protected objects as arguments of calls, in conditions and in heads of loops.
class Adder {
    int32_t sum;
public:
    int32_t add(int32_t x) {
        sum += x;
        return sum;
    }
    int32_t both(int32_t x, int32_t y) {
        return add(add(x) + y);
    }
    bool below(int32_t x) { return sum < x; }
};
Adder a;
Adder b;
int main() {
    std::cout << a.add(b.add(a.add(2))) << " " << a.both(b.both(1, 2), a.add(3)) << "\n";
    while (b.below(20) && a.add(1) > 0) {
        b.add(a.both(1, -a.add(0)));
        std::cout << b.add(5) << " ";
    }
    for (int32_t i = a.add(0); a.below(i + 3); a.add(1)) {
        std::cout << i << " ";
    }
    if (a.below(0) || (b.below(100) && !a.below(-100))) {
        std::cout << a.add(-1) - b.add(1) << "\n";
    }
    return 0;
}
