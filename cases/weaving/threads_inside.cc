// Threads that are inside one object at the same time: each waits there for the program's own lock.
std::mutex desk;
class Hall {
    uint32_t guests;
    uint64_t sum;
public:
    void visit(uint32_t guest) {
        for (uint32_t i = 0u; i < 6u; ++i) {
            desk.lock();
            guests++;
            sum += guest * i;
            desk.unlock();
        }
    }
    uint32_t visits() {
        desk.lock();
        uint32_t now = guests;
        desk.unlock();
        return now;
    }
    uint64_t all() {
        return sum;
    }
};
Hall hall;
void come(uint32_t guest) {
    hall.visit(guest);
    while (hall.visits() < 18u) {
        hall.visit(0u);
    }
}
void go(uint32_t guest) { hall.visit(guest); }
int main() {
    std::thread a(go, 3u);
    std::thread b(go, 50u);
    std::thread c(go, 700u);
    hall.visit(1000u);
    a.join();
    b.join();
    c.join();
    std::cout << hall.visits() << " " << hall.all() << "\n";
    come(1u);
    std::cout << hall.visits() << " " << hall.all() << "\n";
    return 0;
}
