// Destructors with statements, of global objects in reverse order and of objects of `new`.
class Room {
protected:
    uint32_t lamps;
public:
    Room() : lamps(1u) { std::cout << "room\n"; }
    ~Room() { std::cout << "no room " << lamps << "\n"; }
};
class Lamp : public Room {
    uint32_t watts;
    void off() {
        if (watts == 0u) {
            std::cout << "dark\n";
            return;
        }
        watts = 0u;
        lamps--;
    }
public:
    Lamp(uint32_t w) : watts(w) { std::cout << "lamp " << watts << "\n"; }
    ~Lamp() {
        std::cout << "no lamp " << watts << "\n";
        off();
        off();
        for (uint32_t i = 0u; i < 2u; ++i) {
            lamps += i + watts;
        }
    }
    void on(uint32_t w) {
        lamps++;
        watts += w;
    }
};
Lamp first(40u);
Lamp second(60u);
int main() {
    first.on(5u);
    Lamp* third = new Lamp(100u);
    third->on(1u);
    delete third;
    second.on(7u);
    return 0;
}
