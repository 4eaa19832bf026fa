// A controller that keeps a tank warm: it smooths what its sensor reads, switches a heater with some slack, and counts what it did.
#include <cstdint>
#include <iostream>

// Temperatures are in tenths of a degree.
class Sensor {
    int16_t smoothed;
    uint8_t rejected;
public:
    Sensor(int16_t start) : smoothed(start), rejected(0) {}
    // A reading that jumps is passed over, and counted.
    void take(int16_t reading) {
        int jump = reading - smoothed;
        if (jump > 100 || jump < -100) {
            rejected++;
            return;
        }
        smoothed += jump / 4;
    }
    int16_t temperature() { return smoothed; }
    int bad_readings() { return rejected; }
};

class Heater : public Sensor {
    int16_t target;
    uint16_t switches;
    uint32_t ticks_on;
    bool on;
    void set(bool wanted) {
        if (wanted != on) {
            on = wanted;
            switches++;
        }
    }
public:
    Heater(int16_t target) : Sensor(150), target(target), switches(0), ticks_on(0), on(false) {}
    void tick(int16_t reading) {
        take(reading);
        if (temperature() < target - 5) {
            set(true);
        } else if (temperature() > target + 5) {
            set(false);
        }
        ticks_on += on;
    }
    bool is_on() { return on; }
    void report() {
        std::cout << "at " << temperature() / 10 << "." << temperature() % 10 << ", on for " << ticks_on << " ticks, switched ";
        std::cout << switches << " times, passed over " << bad_readings() << " readings" << std::endl;
    }
};

// What the sensor would see: the tank warms by the heater and cools toward the room.
class Tank {
    int32_t heat;
    uint32_t noise;
public:
    Tank(int32_t start) : heat(start * 100), noise(1) {}
    int16_t next(bool heated) {
        if (heated) {
            heat += 900;
        }
        heat -= (heat - 10000) / 40;
        noise = noise * 1103515245u + 12345u;
        if (noise >> 16 & 1u) {
            return heat / 100 + int(noise >> 20 & 7u);
        }
        return heat / 100;
    }
};

Heater heater(250);
Tank tank(150);

int main() {
    for (int tick = 1; tick <= 120; ++tick) {
        int16_t reading = tank.next(heater.is_on());
        if (tick % 50 == 0) {
            reading = 0x7fff;
        }
        heater.tick(reading);
        if (tick % 20 == 0) {
            std::cout << "tick " << tick << ": ";
            heater.report();
        }
    }
    return 0;
}
