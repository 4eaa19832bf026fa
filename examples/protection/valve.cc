// A valve with a door that the controller opens and closes.
#include <cstdint>
#include <iostream>

class Valve {
    uint16_t opening;
    int32_t moved;
public:
    Valve() : opening(0), moved(0) {}
    void move(int32_t by) {
        if (by == 0) {
            return;
        }
        opening += by;
        moved++;
    }
    uint32_t percent() { return opening; }
    int32_t moves() { return moved; }
};

Valve valve;

int main() {
    valve.move(25);
    valve.move(0);
    valve.move(15);
    std::cout << valve.percent() << " percent after " << valve.moves() << " moves\n";
    return 0;
}
