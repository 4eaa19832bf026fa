// Parts of both codes in one object, under threads, with members of all widths and negative numbers.
class Sensor {
protected:
    int8_t offset;
    uint16_t samples;
public:
    Sensor(int8_t by) : offset(by), samples(0) {}
    void calibrate(int8_t by) {
        offset = by - offset;
        samples++;
    }
    void nudge(int8_t by) {
        offset += by;
        samples++;
    }
    int32_t read() { return offset; }
};

class Filter : public Sensor {
    int64_t sum;
    uint64_t checks;
    int16_t least;
public:
    Filter(int64_t start) : Sensor(-7), sum(start), checks(18446744073709551615u), least(-32768) {}
    ~Filter() { samples = 0; }
    void feed(int32_t value) {
        if (value < 0 && sum < -9000000000) {
            least = value;
            return;
        }
        sum = sum + value * int64_t(offset);
        checks = checks * 31u + uint64_t(sum);
        if (value < least) {
            least = value;
        }
    }
    int64_t total() { return sum; }
    uint64_t digest() { return checks; }
    int32_t smallest() { return least; }
};

class Plain : public Filter {
public:
    Plain() : Filter(-9000000000) {}
    int64_t both() { return this->total() - samples; }
};

class Last : public Plain {
    uint32_t reads;
    uint8_t digit;
    int32_t sign;
public:
    Last() : reads(4294967295u), digit(250), sign(-2147483647) {}
    uint32_t tick() {
        reads++;
        digit += 7;
        sign -= 1 - 2 * int32_t(digit % 2);
        offset = offset - 1;
        return reads + digit;
    }
    int32_t end() { return sign; }
};

Filter first(5);
Last last;
std::mutex door;

void feeder(int32_t by, uint32_t times) {
    for (uint32_t i = 0u; i < times; ++i) {
        door.lock();
        first.feed(by * int32_t(i));
        last.nudge(by);
        door.unlock();
    }
}

int main() {
    for (uint32_t i = 0u; i < 5u; ++i) {
        last.feed(int32_t(i) - 2);
    }
    std::thread a(feeder, -3, 9u);
    std::thread b(feeder, 11, 7u);
    a.join();
    b.join();
    for (uint32_t i = 0u; i < 40u; ++i) {
        std::cout << last.tick() << " ";
    }
    first.calibrate(100);
    first.feed(-40000);
    first.feed(1);
    std::cout << first.read() << " " << first.total() << " " << first.smallest() << "\n";
    std::cout << last.both() << " " << last.smallest() << " " << last.end() << std::endl;
    Last* made = new Last();
    made->feed(-1);
    std::cout << made->tick() << " " << made->digest() << " " << made->both() << "\n";
    delete made;
    return first.smallest() == -32768;
}
