// Assignments with an operator, on locals, globals, members and through pointers.
#include <cstdint>
#include <iostream>

struct Cell {
    int32_t v;
    uint8_t w;
    Cell(int32_t start) : v(start), w(start) {}
    void twist(int32_t by) {
        v += by;
        this->v *= 3;
        v -= 1;
        w += by;
        this->w *= 3;
        w -= 1;
    }
};

int64_t total = 1000;
uint16_t wraps = 65530;
Cell cell(10);

int main() {
    int x = 17;
    x += 5;
    std::cout << x << " ";
    x -= 30;
    std::cout << x << " ";
    x *= -6;
    std::cout << x << " ";
    x /= 5;
    std::cout << x << " ";
    x %= 4;
    std::cout << x << "\n";
    total += x;
    total *= total;
    total /= 7;
    total %= 1000;
    ::total -= 2000;
    wraps += 10;
    std::cout << total << " " << wraps << "\n";
    cell.twist(2);
    cell.v += 100;
    cell.w /= 2;
    Cell* p = &cell;
    p->v %= 50;
    p->w %= 9;
    std::cout << cell.v << " " << int(cell.w) << "\n";
    // The right side is evaluated first, and the old value read after it.
    uint32_t y = 3;
    y += y * y;
    y *= y - 1u;
    y -= 200u;
    std::cout << y << "\n";
    int8_t narrow = 100;
    narrow += 100;
    std::cout << int(narrow) << "\n";
    bool flag = false;
    flag += 2;
    std::cout << flag;
    flag -= 1;
    std::cout << flag << "\n";
    return 0;
}
