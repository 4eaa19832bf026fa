// Two threads in turn: each waits inside the object until the other has done its step.
std::mutex hand;
class Step {
    uint32_t at;
public:
    void wait_and_step(uint32_t mine) {
        while (true) {
            hand.lock();
            if (at % 2u == mine) {
                at++;
                std::cout << at << " ";
                hand.unlock();
                return;
            }
            hand.unlock();
        }
    }
};
struct Meter : public Step {
    uint32_t sum;
    void run(uint32_t mine) {
        for (int i = 0; i < 4; ++i) {
            wait_and_step(mine);
        }
        hand.lock();
        sum += mine + 1u;
        hand.unlock();
    }
    uint32_t total() { return sum; }
};
Meter meter;
void walk(uint32_t mine) { meter.run(mine); }
int main() {
    std::thread left(walk, 0u);
    std::thread right(walk, 1u);
    left.join();
    right.join();
    std::cout << meter.total() << "\n";
    return 0;
}
