// An account on which four threads work, one at a time by a lock of the program's own.
class Account {
    int64_t balance;
    uint32_t moves;
public:
    Account(int64_t start) : balance(start), moves(0) {}
    void add(int64_t amount) {
        balance += amount;
        moves++;
    }
    int64_t total() { return balance; }
    uint32_t count() { return moves; }
};
std::mutex door;
Account account(100);
void worker(int64_t step, uint32_t times) {
    for (uint32_t i = 0; i < times; ++i) {
        door.lock();
        account.add(step);
        door.unlock();
    }
}
int main() {
    std::thread a(worker, 5, 10u);
    std::thread b(worker, -3, 10u);
    std::thread c(worker, 1, 7u);
    std::thread d(worker, 11, 3u);
    a.join();
    b.join();
    c.join();
    d.join();
    std::cout << "balance " << account.total() << " moves " << account.count() << std::endl;
    return 0;
}
