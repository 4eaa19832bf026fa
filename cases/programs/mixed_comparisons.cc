// Comparisons of numbers of two kinds: a negative number is large where the other side is unsigned and no narrower.
#include <cstdint>
#include <iostream>

int main() {
    int negative = -1;
    uint32_t one = 1;
    int64_t wide = -1;
    uint64_t wide_one = 1;
    uint8_t small = 255;
    int8_t small_negative = -1;
    std::cout << (negative < one) << (negative == 4294967295u) << (wide < one) << (wide < wide_one) << "\n";
    std::cout << (negative < wide_one) << (negative == 18446744073709551615u) << (wide == negative) << "\n";
    std::cout << (small == small_negative) << (small > small_negative) << (small == 255) << (small_negative == negative) << "\n";
    std::cout << (small_negative > one) << (small_negative == wide) << (true > negative) << (true == one) << (2 == true) << "\n";
    return 0;
}
