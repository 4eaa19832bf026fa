// The towers of Hanoi: the moves of four disks, and the number of moves of more.
#include <cstdint>
#include <iostream>

uint32_t moves;

void move(int disks, int from, int to, int over, bool shown) {
    if (disks == 0) {
        return;
    }
    move(disks - 1, from, over, to, shown);
    moves++;
    if (shown) {
        std::cout << from << to << " ";
    }
    move(disks - 1, over, to, from, shown);
}

int main() {
    move(4, 1, 3, 2, true);
    std::cout << "\n" << moves << "\n";
    moves = 0;
    move(7, 1, 3, 2, false);
    std::cout << moves << "\n";
    return 0;
}
