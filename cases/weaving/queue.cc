// A ring of four numbers between threads that put and one that takes, each looking again until it may.
class Ring {
    uint32_t a;
    uint32_t b;
    uint32_t c;
    uint32_t d;
    uint32_t from;
    uint32_t count;
    void store(uint32_t at, uint32_t x) {
        if (at == 0u) {
            a = x;
        } else if (at == 1u) {
            b = x;
        } else if (at == 2u) {
            c = x;
        } else {
            d = x;
        }
    }
    uint32_t load(uint32_t at) {
        if (at == 0u) {
            return a;
        } else if (at == 1u) {
            return b;
        } else if (at == 2u) {
            return c;
        } else {
            return d;
        }
    }
public:
    bool put(uint32_t x) {
        if (count == 4u) {
            return false;
        }
        store((from + count) % 4u, x);
        count++;
        return true;
    }
    uint32_t take() {
        if (count == 0u) {
            return 0u;
        }
        uint32_t x = load(from);
        from = (from + 1u) % 4u;
        count--;
        return x;
    }
};
Ring ring;
std::mutex lock_of_ring;
uint32_t sum;
void producer(uint32_t first) {
    uint32_t next = first;
    while (next < first + 5u) {
        lock_of_ring.lock();
        if (ring.put(next)) {
            next++;
        }
        lock_of_ring.unlock();
    }
}
void consumer(uint32_t times) {
    while (times > 0u) {
        lock_of_ring.lock();
        uint32_t x = ring.take();
        lock_of_ring.unlock();
        if (x != 0u) {
            sum = sum + x * x;
            times--;
        }
    }
}
int main() {
    std::thread a(producer, 1u);
    std::thread b(producer, 100u);
    std::thread c(consumer, 10u);
    a.join();
    b.join();
    c.join();
    std::cout << sum << "\n";
    return 0;
}
