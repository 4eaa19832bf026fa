// A struct, whose members are public, and whose part needs no label.
struct Point {
    int32_t x;
    int32_t y;
    Point(int32_t a, int32_t b) : y(b), x(a) {}
    void move(int32_t dx, int32_t dy) {
        this->x += dx;
        y += dy;
    }
    int32_t across(Point* other) {
        return x * other->up() - y * other->right();
    }
    int32_t right() { return x; }
    int32_t up() { return this->y; }
};
Point p(1, 2);
Point q(-3, 4);
int main() {
    p.move(10, -20);
    std::cout << p.across(&q) << " " << q.across(&p) << " " << p.across(&p) << " " << p.right() << " " << p.up() << "\n";
    return 0;
}
