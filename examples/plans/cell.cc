// A number and the two copies that protect it, as weaving will write them.
#include <cstdint>
#include <cstdlib>
#include <iostream>
#include <mutex>
#include <thread>
class Cell;
class Cell {
    uint32_t v;
public:
    void put(uint32_t x) {
        __gop_enter_Cell();
        v = x;
        __gop_leave_Cell();
    }
    uint32_t get() {
        __gop_enter_Cell();
        uint32_t __gop_r_1 = v;
        __gop_leave_Cell();
        return __gop_r_1;
    }
    Cell() {
        __gop_enter_Cell();
        __gop_leave_Cell();
    }
    ~Cell() {
        __gop_enter_Cell();
        __gop_leave_Cell();
    }
    uint32_t __gop_c1_v;
    uint32_t __gop_c2_v;
    uint32_t __gop_n_Cell;
    std::mutex __gop_l_Cell;
    void __gop_repair_Cell() {
        uint32_t __gop_m_1 = (uint32_t(v) & __gop_c1_v) | (uint32_t(v) & __gop_c2_v) | (__gop_c1_v & __gop_c2_v);
        v = __gop_m_1;
        __gop_c1_v = __gop_m_1;
        __gop_c2_v = __gop_m_1;
    }
    void __gop_renew_Cell() {
        __gop_c1_v = v;
        __gop_c2_v = v;
    }
    void __gop_enter_Cell() {
        __gop_l_Cell.lock();
        if (__gop_n_Cell == 0u) {
            __gop_repair_Cell();
        }
        __gop_n_Cell = __gop_n_Cell + 1u;
        __gop_l_Cell.unlock();
    }
    void __gop_leave_Cell() {
        __gop_l_Cell.lock();
        __gop_n_Cell = __gop_n_Cell - 1u;
        if (__gop_n_Cell == 0u) {
            __gop_renew_Cell();
        }
        __gop_l_Cell.unlock();
    }
};
Cell c;
int main() {
    c.put(7u);
    std::cout << c.get() << "\n";
    return 0;
}
