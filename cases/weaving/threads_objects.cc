// Threads start with objects of `new`, and start threads themselves.
class Slot {
    uint64_t value;
public:
    Slot(uint64_t v) : value(v) {}
    void square() { value = value * value % 1000003ull; }
    uint64_t get() { return value; }
};
uint64_t sum;
std::mutex guard;
void work(Slot* slot, int times) {
    for (int i = 0; i < times; ++i) {
        slot->square();
    }
    guard.lock();
    sum += slot->get();
    guard.unlock();
    delete slot;
}
void split(uint64_t start) {
    std::thread left(work, new Slot(start), 3);
    std::thread right(work, new Slot(start + 1ull), 5);
    Slot* own = new Slot(start * 2ull);
    work(own, 2);
    left.join();
    right.join();
}
int main() {
    std::thread a(split, 10ull);
    std::thread b(split, 77ull);
    a.join();
    b.join();
    std::cout << sum << "\n";
    return 0;
}
