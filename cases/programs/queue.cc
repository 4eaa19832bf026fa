// A queue of four bits, kept in one byte, and its ends.
#include <cstdint>
#include <iostream>

class Queue {
    uint8_t bits;
    uint8_t count;
    uint32_t lost;
public:
    Queue() : bits(0), count(0), lost(0) {}
    bool put(bool bit) {
        if (count == 4) {
            lost++;
            return false;
        }
        bits = bits | bit << count;
        ++count;
        return true;
    }
    bool take() {
        if (!count) {
            lost++;
            return false;
        }
        bool bit = bits & 1;
        bits /= 2;
        --count;
        return bit;
    }
    uint32_t get_lost() { return lost; }
    void show() { std::cout << int(bits) << "/" << int(count) << " "; }
};

Queue queue;

int main() {
    for (int i = 0; i < 6; ++i) {
        std::cout << queue.put(i % 3 == 0);
        queue.show();
    }
    for (int i = 0; i < 6; ++i) {
        std::cout << queue.take();
        queue.show();
    }
    std::cout << queue.get_lost() << "\n";
    return 0;
}
