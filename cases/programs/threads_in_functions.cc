// Threads that functions and member functions start and join.
#include <cstdint>
#include <iostream>
#include <mutex>
#include <thread>

std::mutex m;
int done;

void work(int n) {
    m.lock();
    done += n;
    m.unlock();
}

int both(int a, int b) {
    std::thread x(work, a);
    std::thread y(work, b);
    x.join();
    y.join();
    return done;
}

class Boss {
    int asked;
public:
    Boss() : asked(0) {
        std::thread first(work, 1000);
        first.join();
    }
    ~Boss() {
        std::thread last(work, 1);
        last.join();
        std::cout << "asked " << asked << " done " << done << "\n";
    }
    void order(int n) {
        asked++;
        std::thread hand(work, n);
        ::done += 0;
        hand.join();
    }
};

Boss boss;

int main() {
    std::cout << done << " ";
    std::cout << both(1, 2) << " ";
    boss.order(30);
    boss.order(40);
    std::cout << done << "\n";
    return 0;
}
