// Objects of derived classes through pointers to their base.
class Shape {
protected:
    uint32_t sides;
    uint32_t size;
public:
    Shape(uint32_t n, uint32_t s) : sides(n), size(s) {}
    uint32_t around() { return sides * size; }
    void grow(uint32_t by) {
        size += by;
    }
    Shape* larger(Shape* other) {
        if (around() < other->around()) {
            return other;
        }
        return this;
    }
};
class Triangle : public Shape {
public:
    Triangle(uint32_t s) : Shape(3u, s) {}
};
class Square : public Shape {
    uint32_t colour;
public:
    Square(uint32_t s) : Shape(4u, s), colour(s % 5u) {}
    uint32_t area() { return size * size + colour; }
    Shape* as_shape() { return this; }
};
Triangle triangle(10u);
Square square(7u);
int main() {
    Shape* shape = &triangle;
    shape->grow(1u);
    std::cout << shape->around() << " ";
    shape = shape->larger(&square);
    std::cout << shape->around() << " " << (shape == &triangle) << " ";
    square.grow(3u);
    shape = triangle.larger(square.as_shape());
    std::cout << shape->around() << " " << (shape == square.as_shape()) << " " << square.area() << "\n";
    return 0;
}
