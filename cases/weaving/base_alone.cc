// The base alone has a part: functions of the derived class enter it.
class Base {
protected:
    uint32_t n;
public:
    void set(uint32_t x) { n = x; }
};
class Derived : public Base {
    bool was_found;
public:
    uint32_t find() {
        for (uint32_t i = 0u; i < 10u; ++i) {
            if (i == n) {
                was_found = true;
                return i;
            }
        }
        return 99u;
    }
    bool found() { return was_found; }
};
Derived d;
int main() {
    d.set(14u);
    std::cout << d.find() << d.found() << " ";
    d.set(4u);
    std::cout << d.find() << d.found() << "\n";
    return 0;
}
