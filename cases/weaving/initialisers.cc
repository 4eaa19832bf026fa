// Constructors with initialisers in another order than the members', and with arguments for the base.
int32_t made;
int32_t next() {
    made = made + 1;
    return made;
}
class Clock {
protected:
    int32_t hours;
    int32_t minutes;
    int64_t seconds;
public:
    Clock(int32_t h, int32_t m) : seconds(next() * 10), minutes(m + next()), hours(h) {
        std::cout << hours << ":" << minutes << ":" << seconds << "\n";
    }
};
class Alarm : public Clock {
    uint32_t rings;
    int16_t late;
public:
    Alarm(int32_t h, uint32_t times) : late(-next()), rings(times * 2u), Clock(h + 1, h * 2) {
        rings += late;
    }
    int64_t sum() { return hours + minutes + seconds + rings + late; }
};
Clock clock_of_the_house(7, 30);
Alarm bell(6, 5u);
int main() {
    std::cout << bell.sum() << "\n";
    Alarm* other = new Alarm(1, 2u);
    std::cout << other->sum() << " " << made << "\n";
    delete other;
    return 0;
}
