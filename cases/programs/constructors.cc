// Constructors: arguments that are converted, lists of initialisers, bodies that go on from them.
#include <cstdint>
#include <iostream>

int made;

class Point {
    int x;
    int y;
    int number;
public:
    Point(int x, int y) : x(x), y(y), number(made) {
        made++;
        std::cout << "point " << this->x << "," << this->y << " ";
    }
    int sum() { return x + y + number * 1000; }
};

class Line {
public:
    int8_t from;
    uint8_t to;
    bool empty;
    int64_t length;
    Line(int64_t a, int64_t b) : from(a), to(b), empty(a == b), length(0) {
        length = to - from;
        if (empty) {
            std::cout << "empty ";
        } else {
            std::cout << "line ";
        }
    }
};

class Order {
    int first;
    int second;
    int third;
public:
    // In the order of declaration, so each finds the one before.
    Order(int start) : first(start + 1), second(first * 2), third(second + first) { third += 100; }
    void show() { std::cout << first << " " << second << " " << third << "\n"; }
};

struct Plain {
    int v;
    void show() { std::cout << v << "\n"; }
};

Point origin(0, 0);
Point far(100, -7);
Line line(300, 300);
Line other(-1, 255);
Order order(4);
Plain plain;

int main() {
    std::cout << "\n" << origin.sum() << " " << far.sum() << " " << made << "\n";
    std::cout << int(line.from) << " " << int(line.to) << " " << line.empty << " " << line.length << "\n";
    std::cout << int(other.from) << " " << int(other.to) << " " << other.empty << " " << other.length << "\n";
    order.show();
    plain.show();
    plain.v = 8;
    plain.show();
    return 0;
}
