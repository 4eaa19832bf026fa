// A class with a public base has its members and functions, and reaches those that are protected.
#include <cstdint>
#include <iostream>

class Shape {
    int number;
protected:
    int width;
    int height;
    int scaled(int x) { return x * 10; }
public:
    Shape(int number, int width, int height) : number(number), width(width), height(height) {}
    int get_number() { return number; }
    void grow(int by) {
        width += by;
        height += by;
    }
};

class Rectangle : public Shape {
public:
    Rectangle(int w, int h) : Shape(1, w, h) {}
    int area() { return width * height; }
    int large_area() { return this->scaled(width) * scaled(height); }
};

class Box : public Rectangle {
protected:
    int depth;
public:
    Box(int w, int h, int d) : Rectangle(w, h), depth(d) {}
    int volume() { return area() * depth; }
    void grow_all(int by) {
        this->grow(by);
        depth += by;
    }
};

struct Base {
    uint8_t a;
    void set(int x) { a = x; }
};

struct Derived : public Base {
    uint8_t b;
    int both() { return a * 256 + this->b; }
};

Rectangle rectangle(3, 4);
Box box(2, 3, 4);
Derived derived;

int main() {
    std::cout << rectangle.get_number() << " " << rectangle.area() << " " << rectangle.large_area() << "\n";
    rectangle.grow(1);
    std::cout << rectangle.area() << "\n";
    std::cout << box.get_number() << " " << box.area() << " " << box.volume() << "\n";
    box.grow_all(1);
    std::cout << box.area() << " " << box.volume() << " " << box.large_area() << "\n";
    derived.set(257);
    derived.b = 2;
    derived.a += 1;
    Derived* p = &derived;
    p->set(p->a + 1);
    std::cout << derived.both() << " " << p->both() << " " << int(p->a) << "\n";
    return 0;
}
