// A negative result; a system that keeps eight bits of it shows 255.
#include <cstdint>
#include <iostream>

int main() {
    std::cout << "negative\n";
    uint32_t all = 4294967295u;
    return all;
}
