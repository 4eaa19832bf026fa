// Truth values: operators, conversions, and how they print.
#include <cstdint>
#include <iostream>

bool is_odd(int x) { return x % 2; }
bool both(bool a, bool b) { return a && b; }
bool either(bool a, bool b) { return a || b; }

bool seen;
bool ready = true;

int main() {
    std::cout << is_odd(7) << is_odd(-7) << is_odd(8) << " " << seen << ready << "\n";
    std::cout << both(true, true) << both(true, false) << both(false, true) << both(false, false) << " ";
    std::cout << either(true, true) << either(true, false) << either(false, true) << either(false, false) << "\n";
    std::cout << !true << !false << !7 << !0 << !!7 << " " << (ready == true) << (ready != seen) << "\n";
    bool none = nullptr == nullptr;
    seen = 12;
    ready = seen - 1;
    std::cout << none << seen << ready << bool(-3) << bool(0) << int(true) << uint64_t(false) << "\n";
    return 0;
}
