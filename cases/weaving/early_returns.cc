// Returns in nested blocks, in loops and behind each other.
class Table {
    uint32_t a;
    uint32_t b;
    uint32_t c;
public:
    void fill(uint32_t x, uint32_t y, uint32_t z) {
        a = x;
        b = y;
        c = z;
    }
    uint32_t find(uint32_t x) {
        if (x == a) {
            return 1u;
        } else if (x == b) {
            return 2u;
        } else {
            if (x == c) {
                {
                    return 3u;
                }
            }
        }
        for (uint32_t i = 0u; i < 10u; ++i) {
            while (x > a) {
                if (x - i == a + b) {
                    return 100u + i;
                }
                x -= 1u;
                if (x == 2u) {
                    return 7u;
                }
            }
        }
        return 0u;
    }
    void limit(uint32_t most) {
        if (a > most) {
            a = most;
            if (b > most) {
                b = most;
                return;
            }
            return;
        }
        c = c + 1u;
    }
    uint32_t sum() {
        return a + b + c;
    }
};
Table t;
int main() {
    t.fill(3u, 5u, 9u);
    for (uint32_t i = 0u; i < 12u; ++i) {
        std::cout << t.find(i) << " ";
    }
    t.limit(4u);
    std::cout << t.sum() << " ";
    t.limit(2u);
    std::cout << t.sum() << "\n";
    return 0;
}
