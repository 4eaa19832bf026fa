// Truth values as results and parameters, beside a class with such members that isn't guarded.
struct Lights {
    bool red;
    bool green;
};
Lights lights;
class Switches {
    uint8_t bits;
public:
    bool is_on(uint8_t i) { return bits >> i & 1; }
    void set(uint8_t i, bool on) {
        if (is_on(i) != on) {
            bits = bits ^ 1 << i;
        }
    }
    bool any() { return bits; }
    bool all() {
        for (uint8_t i = 0; i < 8; i++) {
            if (!is_on(i)) {
                return false;
            }
        }
        return true;
    }
};
Switches switches;
int main() {
    lights.red = switches.any();
    std::cout << lights.red;
    for (uint8_t i = 0; i < 8; ++i) {
        switches.set(7 - i, true);
        lights.green = switches.any() && !switches.all();
        std::cout << lights.green << switches.is_on(4);
    }
    switches.set(3, false);
    std::cout << switches.all() << switches.any() << switches.is_on(3) << "\n";
    return 0;
}
