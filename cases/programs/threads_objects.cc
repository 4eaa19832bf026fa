// Threads share objects of `new`; each change is made under the object's mutex, which is global.
#include <cstdint>
#include <iostream>
#include <mutex>
#include <thread>

class Account {
    int64_t balance;
    uint32_t moves;
public:
    Account(int64_t start) : balance(start), moves(0) {}
    ~Account() { std::cout << "closed with " << balance << " after " << moves << "\n"; }
    void add(int64_t amount) {
        balance += amount;
        moves++;
    }
    int64_t total() { return balance; }
};

std::mutex bank;

void transfer(Account* from, Account* to, int64_t amount, int times) {
    for (int i = 0; i < times; ++i) {
        bank.lock();
        from->add(-amount);
        to->add(amount);
        bank.unlock();
    }
}

int main() {
    Account* a = new Account(1000);
    Account* b = new Account(500);
    std::thread there(transfer, a, b, 7, 12);
    std::thread back(transfer, b, a, 5, 9);
    transfer(a, b, 1, 4);
    there.join();
    back.join();
    std::cout << a->total() << " " << b->total() << " " << a->total() + b->total() << "\n";
    delete a;
    delete b;
    return 0;
}
