// Signed members: their copies are unsigned words of the same bits.
class S {
    int64_t v;
    int8_t w;
public:
    void put(int64_t x) {
        v = x;
        w = x;
    }
    int64_t get() { return v; }
    int32_t low() { return w; }
};
class T {
    int16_t a;
    int32_t b;
public:
    T(int32_t x) : a(x), b(-x) {}
    bool opposite() { return a + b == 0; }
    int32_t half() { return b / 2 + a % 7 + (b >> 3); }
};
S s;
T t(-1234);
T u(70000);
int main() {
    s.put(-1);
    std::cout << s.get() << " " << s.low() << "\n";
    s.put(-9223372036854775807 - 1);
    std::cout << s.get() << " " << s.low() << "\n";
    s.put(9223372036854775680);
    std::cout << s.get() << " " << s.low() << "\n";
    std::cout << t.opposite() << t.half() << " " << u.opposite() << u.half() << "\n";
    return 0;
}
