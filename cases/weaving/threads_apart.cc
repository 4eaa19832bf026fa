// Each thread has an object of its own, made here or there.
class Lane {
    uint32_t length;
    uint32_t cars;
public:
    Lane() : length(1u), cars(0u) {}
    void drive(uint32_t speed) {
        length = length * 31u + speed;
        cars++;
    }
    uint32_t last() { return length % 1000u; }
    uint32_t count() { return cars; }
};
uint32_t results;
std::mutex board;
void put(uint32_t x) {
    board.lock();
    results += x;
    board.unlock();
}
void use(Lane* lane, uint32_t times) {
    for (uint32_t i = 0u; i < times; ++i) {
        lane->drive(i);
    }
    put(lane->last());
}
void own(uint32_t times) {
    Lane* lane = new Lane();
    use(lane, times);
    put(lane->count());
    delete lane;
}
Lane left;
int main() {
    Lane* right = new Lane;
    std::thread a(use, &left, 9u);
    std::thread b(use, right, 4u);
    std::thread c(own, 11u);
    std::thread d(own, 2u);
    c.join();
    a.join();
    b.join();
    d.join();
    std::cout << results << " " << left.last() << " " << right->last() << " " << left.count() + right->count() << "\n";
    delete right;
    return 0;
}
