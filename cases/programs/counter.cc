// A class with members and functions, private and public.
#include <cstdint>
#include <iostream>

class Counter {
    uint32_t count;
    uint32_t limit;
    bool full;
    void check() { full = count >= limit; }
public:
    Counter(uint32_t limit) : count(0), limit(limit), full(false) {}
    void add(uint32_t n) {
        count += n;
        check();
    }
    void reset() {
        count = 0;
        this->check();
    }
    uint32_t left() {
        if (full) {
            return 0;
        }
        return limit - count;
    }
    bool is_full() { return full; }
};

Counter counter(10);
Counter tiny(0);

int main() {
    std::cout << counter.left() << counter.is_full() << tiny.left() << tiny.is_full() << "\n";
    counter.add(4);
    std::cout << counter.left() << counter.is_full() << "\n";
    counter.add(7);
    tiny.add(0);
    std::cout << counter.left() << counter.is_full() << tiny.is_full() << "\n";
    counter.reset();
    std::cout << counter.left() << counter.is_full() << "\n";
    return 0;
}
