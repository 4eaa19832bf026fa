// Each thread sums a range of its own; the sums are put together after the joins.
#include <cstdint>
#include <iostream>
#include <thread>

class Range {
    uint32_t sum;
    uint32_t first;
    uint32_t last;
public:
    Range(uint32_t first, uint32_t last) : sum(0), first(first), last(last) {}
    void work() {
        for (uint32_t i = first; i <= last; ++i) {
            sum += i * i;
        }
    }
    uint32_t result() { return sum; }
};

Range low(1, 20);
Range middle(21, 40);
Range high(41, 60);

void run(Range* range) { range->work(); }

int main() {
    std::thread a(run, &low);
    std::thread b(run, &middle);
    std::thread c(run, &high);
    c.join();
    a.join();
    b.join();
    std::cout << low.result() << " " << middle.result() << " " << high.result() << "\n";
    std::cout << low.result() + middle.result() + high.result() << "\n";
    return 0;
}
