// A base is constructed before the class derived from it, and destroyed after it.
#include <cstdint>
#include <iostream>

class Ground {
protected:
    int level;
public:
    Ground(int level) : level(level) { std::cout << "G" << level << " "; }
    ~Ground() { std::cout << "~G" << level << " "; }
};

class Floor : public Ground {
    int plan;
public:
    Floor(int a, int b) : Ground(a + b), plan(a * b) {
        level += 100;
        std::cout << "F" << plan << " ";
    }
    ~Floor() {
        std::cout << "~F" << plan << " ";
        level -= 50;
    }
};

class Roof : public Floor {
public:
    int tiles;
    Roof(int n) : Floor(n, 2 * n), tiles(n - 1) { std::cout << "R" << tiles << " "; }
    ~Roof() { std::cout << "~R" << tiles << " "; }
};

class Pole {
public:
    Pole() { std::cout << "P "; }
    ~Pole() { std::cout << "~P "; }
};

// Neither its constructor nor its destructor is written.
class Flag : public Pole {
public:
    int colour;
};

Roof roof(3);
Ground ground(7);
Flag flag;

int main() {
    std::cout << "\nmain\n";
    flag.colour = 5;
    roof.tiles = 9;
    Floor* floor = new Floor(1, 1);
    Roof* other = new Roof(2);
    std::cout << "\n";
    delete floor;
    delete other;
    std::cout << "\n";
    return 0;
}
