// Loops of every form, with exits inside.
class Search {
    uint32_t steps;
    uint32_t found;
public:
    uint32_t divisor(uint32_t n) {
        for (uint32_t i = 2u; i * i <= n; ++i) {
            steps++;
            if (n % i == 0u) {
                found = i;
                return i;
            }
        }
        return n;
    }
    uint32_t collatz(uint32_t n) {
        uint32_t length = 0u;
        while (true) {
            if (n == 1u) {
                return length;
            }
            length++;
            if (n % 2u == 0u) {
                n = n / 2u;
            } else {
                n = n * 3u + 1u;
            }
        }
    }
    uint32_t root(uint32_t n) {
        uint32_t low = 0u;
        for (;;) {
            if (low * low > n) {
                steps += low;
                return low - 1u;
            }
            low++;
        }
    }
    uint32_t all() { return steps * 1000u + found; }
};
Search search;
int main() {
    for (uint32_t n = 90u; n < 98u; ++n) {
        std::cout << search.divisor(n) << " " << search.collatz(n) << " " << search.root(n) << "; ";
    }
    std::cout << search.all() << "\n";
    return 0;
}
