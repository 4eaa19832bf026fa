// Functions of an object that call themselves, and each other.
class Count {
    uint64_t calls;
public:
    uint64_t fibonacci(uint32_t n) {
        calls++;
        if (n < 2u) {
            return n;
        }
        return fibonacci(n - 1u) + this->fibonacci(n - 2u);
    }
    bool even(uint32_t n) {
        calls += 1000ull;
        if (n == 0u) {
            return true;
        }
        return odd(n - 1u);
    }
    bool odd(uint32_t n) {
        if (n == 0u) {
            return false;
        }
        return even(n - 1u);
    }
    uint64_t made() { return calls; }
};
class Tower {
    uint32_t moves;
public:
    void move(uint32_t height, uint32_t from, uint32_t to, uint32_t over) {
        if (height == 0u) {
            return;
        }
        move(height - 1u, from, over, to);
        moves = moves * 3u + from + to;
        move(height - 1u, over, to, from);
    }
    uint32_t sum() { return moves; }
};
Count count;
Tower tower;
int main() {
    std::cout << count.fibonacci(9u) << " " << count.made() << " " << count.even(20u) << count.odd(20u) << " " << count.made() << "\n";
    tower.move(5u, 1u, 2u, 3u);
    std::cout << tower.sum() << "\n";
    return 0;
}
