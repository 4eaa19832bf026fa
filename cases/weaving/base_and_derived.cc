// A base and a derived class, each with its part.
class Base {
    int32_t n;
protected:
    int32_t m;
public:
    Base(int32_t x) : n(x), m(x * 2) { std::cout << "base " << n << "\n"; }
    ~Base() { std::cout << "no base " << n << "\n"; }
    int32_t low() { return n + m; }
};
class Derived : public Base {
    int32_t k;
public:
    Derived(int32_t x) : Base(x + 1), k(x) { std::cout << "derived " << k << " " << m << "\n"; }
    ~Derived() {
        m = 0;
        std::cout << "no derived " << k << "\n";
    }
    int32_t high() {
        if (m > 10) {
            return low() * k;
        }
        m += k;
        return this->low() - k;
    }
};
Derived d(3);
int main() {
    std::cout << d.low() << " " << d.high() << " " << d.high() << " " << d.low() << "\n";
    return 0;
}
