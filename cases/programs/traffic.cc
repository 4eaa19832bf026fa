// A machine of a few states that is driven by events.
#include <cstdint>
#include <iostream>

class Light {
    uint8_t state;
    uint16_t left;
    bool night;
    void enter(uint8_t next, uint16_t ticks) {
        state = next;
        left = ticks;
        std::cout << " " << int(state);
    }
public:
    Light() : state(0), left(3), night(false) {}
    void tick() {
        if (night) {
            std::cout << ".";
            return;
        }
        if (left > 1) {
            left--;
            std::cout << "-";
        } else if (state == 0) {
            enter(1, 1);
        } else if (state == 1) {
            enter(2, 4);
        } else if (state == 2) {
            enter(3, 2);
        } else {
            enter(0, 3);
        }
    }
    void set_night(bool on) {
        if (night && !on) {
            enter(0, 3);
        }
        night = on;
    }
};

Light light;

int main() {
    for (int hour = 0; hour < 30; ++hour) {
        light.set_night(hour / 8 % 2 == 1);
        light.tick();
    }
    std::cout << "\n";
    return 0;
}
